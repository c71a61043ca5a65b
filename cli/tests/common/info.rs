//! What `info --json` ought to say.

use super::expected::{Answer, Told};
use super::json::Object;
use super::members::{counters_object, kind_name, object, put};
use super::pages;
use second_reader::{Detail, Kind, Layout, Mask, Profile, Record};
use serde_json::{json, Value};
use std::collections::{BTreeMap, BTreeSet};

/// The header elements of readouts of which the least and the greatest are told.
const OF_READOUTS: [&str; 7] = [
    "number_of_samples",
    "available_channels",
    "active_channels",
    "trajectory_dimensions",
    "encoding_space_ref",
    "scan_counter",
    "acquisition_time_stamp",
];

impl Told<'_> {
    pub fn info(&self) -> Answer {
        let mut answer = self.verdict_of_layouts("info");
        let layout = match self.rules.layout {
            Layout::Packed => "packed",
            Layout::Aligned => "aligned",
        };
        let profile = match self.rules.profile {
            Profile::Plain => "plain",
            Profile::Strict => "strict",
        };
        put(&mut answer, "layout", layout);
        put(&mut answer, "profile", profile);
        put(&mut answer, "kinds", self.kinds());
        put(&mut answer, "measurement_uids", self.measurement_uids());
        put(&mut answer, "readouts", self.readouts_told());
        put(&mut answer, "images", self.images());
        put(&mut answer, "waveforms", self.waveforms());
        put(&mut answer, "warnings", self.warnings());
        Answer {
            objects: vec![answer.into()],
            status: self.status(),
        }
    }

    fn of_kind(&self, kind: Kind) -> Vec<&Record> {
        let of_kind = |record: &&Record| record.detail.kind() == kind;
        self.records.iter().filter(of_kind).collect()
    }

    fn kinds(&self) -> Object {
        let mut kinds = Object::new();
        for kind in Kind::ALL {
            let records = self.of_kind(kind);
            if !records.is_empty() {
                let bytes: u64 = records.iter().map(|record| record.size).sum();
                let told = json!({ "records": records.len(), "bytes": bytes });
                put(&mut kinds, kind_name(kind), told);
            }
        }
        kinds
    }

    fn measurement_uids(&self) -> Vec<u64> {
        let headed = self
            .records
            .iter()
            .filter(|record| record.detail.kind().is_data());
        let uids: BTreeSet<u64> = headed
            .map(|record| self.whole(record, "measurement_uid", 0))
            .collect();
        uids.into_iter().collect()
    }

    /// The least and the greatest number that a header element of these records has.
    fn range(&self, records: &[&Record], name: &str, i: usize) -> Value {
        let values = records.iter().map(|record| self.whole(record, name, i));
        let values: BTreeSet<u64> = values.collect();
        json!([values.first(), values.last()])
    }

    fn readouts_told(&self) -> Object {
        let readouts = self.of_kind(Kind::Acquisition);
        let mut told = object(json!({ "count": readouts.len() }));
        if readouts.is_empty() {
            return told;
        }
        for name in OF_READOUTS {
            put(&mut told, name, self.range(&readouts, name, 0));
        }
        let counters: Vec<Value> = (0..17)
            .map(|i| self.range(&readouts, "counters", i))
            .collect();
        put(&mut told, "counters", counters_object(&counters));
        let mut flags = BTreeMap::<String, u64>::new();
        for record in readouts {
            for flag in pages::flags_set(self.whole(record, "flags", 0)) {
                *flags.entry(pages::flag_name(flag)).or_default() += 1;
            }
        }
        put(&mut told, "flags", json!(flags));
        told
    }

    fn images(&self) -> Object {
        let images = self.of_kind(Kind::Image);
        let mut shapes = BTreeMap::<([u16; 3], u16, u16), u64>::new();
        for image in &images {
            if let Detail::Image {
                matrix_size,
                channels,
                data_type,
                ..
            } = image.detail
            {
                *shapes
                    .entry((matrix_size, channels, data_type))
                    .or_default() += 1;
            }
        }
        let shape = |((matrix_size, channels, data_type), count)| {
            json!({
                "matrix_size": matrix_size,
                "channels": channels,
                "data_type": data_type,
                "count": count,
            })
        };
        let shapes: Vec<Value> = shapes.into_iter().map(shape).collect();
        let mut told = object(json!({ "count": images.len() }));
        put(&mut told, "shapes", shapes);
        if !images.is_empty() {
            let name = "acquisition_time_stamp";
            put(&mut told, name, self.range(&images, name, 0));
        }
        told
    }

    fn waveforms(&self) -> Object {
        let waveforms = self.of_kind(Kind::Waveform);
        let mut ids = BTreeMap::<u64, Vec<&Record>>::new();
        for record in &waveforms {
            let id = self.whole(record, "waveform_id", 0);
            ids.entry(id).or_default().push(record);
        }
        let mut told_ids = Object::new();
        for (id, records) in ids {
            let told = json!({
                "count": records.len(),
                "number_of_samples": self.range(&records, "number_of_samples", 0),
                "channels": self.range(&records, "channels", 0),
            });
            put(&mut told_ids, &id.to_string(), told);
        }
        let mut told = object(json!({ "count": waveforms.len() }));
        put(&mut told, "ids", told_ids);
        if !waveforms.is_empty() {
            put(
                &mut told,
                "time_stamp",
                self.range(&waveforms, "time_stamp", 0),
            );
        }
        told
    }

    fn warnings(&self) -> Vec<Value> {
        let differs = |record: &&Record| {
            matches!(
                record.detail,
                Detail::Acquisition {
                    mask: Mask::Differs { .. },
                    ..
                }
            )
        };
        let later = |is: fn(i32) -> bool| {
            let steps = self.steps().into_iter().filter(move |step| is(step.2));
            steps.map(|step| step.1.number).collect()
        };
        let met: [(&str, Vec<u64>); 4] = [
            (
                "mask-differs",
                self.readouts()
                    .filter(differs)
                    .map(|record| record.number)
                    .collect(),
            ),
            ("gap", later(|step| step > 1)),
            ("repeat", later(|step| step == 0)),
            ("step-back", later(|step| step < 0)),
        ];
        let applies = met.into_iter().filter(|(_, records)| !records.is_empty());
        let told = applies.map(|(warning, records)| {
            json!({
                "warning": warning,
                "count": records.len(),
                "first_record": records[0],
            })
        });
        told.collect()
    }
}
