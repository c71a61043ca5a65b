//! What was collected, as members of an object.

use super::collected::{Collected, Images, Met, OfWaveform, Range, Readouts, Warning, Waveforms};
use crate::answer::{members, Members};
use crate::commands::check::layout_word;
use crate::names::{flag_word, pair};
use crate::records::by_counter;
use cotterleaf::{Profile, Rules};
use serde_json::{json, Map, Value};

pub fn rules_members(rules: Rules) -> Members {
    let profile = match rules.profile {
        Profile::Plain => "plain",
        Profile::Strict => "strict",
    };
    members(json!({ "layout": layout_word(rules.layout), "profile": profile }))
}

/// A range, where there is one.
fn put_range<T: Into<Value>>(object: &mut Members, name: &str, range: Range<T>) {
    if let Some(range) = range {
        object.insert(name.into(), pair(range));
    }
}

pub fn collected_members(collected: &Collected) -> Members {
    let kinds = collected.kinds.iter().map(|(kind, of)| {
        let of = json!({ "records": of.records, "bytes": of.bytes });
        (kind.word().to_string(), of)
    });
    let kinds: Map<String, Value> = kinds.collect();
    let uids: Vec<u32> = collected.measurement_uids.iter().copied().collect();
    let warnings = collected.warnings.iter();
    let warnings: Vec<Value> = warnings.map(|(of, met)| warning_object(*of, met)).collect();
    members(json!({
        "kinds": kinds,
        "measurement_uids": uids,
        "readouts": readouts_members(&collected.readouts),
        "images": images_members(&collected.images),
        "waveforms": waveforms_members(&collected.waveforms),
        "warnings": warnings,
    }))
}

fn readouts_members(readouts: &Readouts) -> Members {
    let mut object = members(json!({ "count": readouts.count }));
    if readouts.count == 0 {
        return object;
    }
    for (name, range) in [
        ("number_of_samples", readouts.number_of_samples),
        ("available_channels", readouts.available_channels),
        ("active_channels", readouts.active_channels),
        ("trajectory_dimensions", readouts.trajectory_dimensions),
        ("encoding_space_ref", readouts.encoding_space_ref),
    ] {
        put_range(&mut object, name, range);
    }
    put_range(&mut object, "scan_counter", readouts.scan_counter);
    put_range(&mut object, "acquisition_time_stamp", readouts.time_stamp);
    let counters = by_counter(|i| readouts.counters[i].map_or(Value::Null, pair));
    object.insert("counters".into(), counters);
    let flags = readouts.flags.iter();
    let flags = flags.map(|(flag, count)| (flag_word(*flag), Value::from(*count)));
    object.insert("flags".into(), Value::Object(flags.collect()));
    object
}

fn images_members(images: &Images) -> Members {
    let shapes = images.shapes.iter().map(|(shape, count)| {
        json!({
            "matrix_size": shape.matrix_size,
            "channels": shape.channels,
            "data_type": shape.data_type,
            "count": count,
        })
    });
    let shapes: Vec<Value> = shapes.collect();
    let mut object = members(json!({ "count": images.count, "shapes": shapes }));
    put_range(&mut object, "acquisition_time_stamp", images.time_stamp);
    object
}

fn waveforms_members(waveforms: &Waveforms) -> Members {
    let of_id = |(id, of): (&u16, &OfWaveform)| {
        let mut object = members(json!({ "count": of.count }));
        put_range(&mut object, "number_of_samples", of.number_of_samples);
        put_range(&mut object, "channels", of.channels);
        (id.to_string(), Value::Object(object))
    };
    let ids: Map<String, Value> = waveforms.ids.iter().map(of_id).collect();
    let mut object = members(json!({ "count": waveforms.count, "ids": ids }));
    put_range(&mut object, "time_stamp", waveforms.time_stamp);
    object
}

fn warning_object(warning: Warning, met: &Met) -> Value {
    let word = match warning {
        Warning::MaskDiffers => "mask-differs",
        Warning::Gap => "gap",
        Warning::Repeat => "repeat",
        Warning::StepBack => "step-back",
    };
    json!({ "warning": word, "count": met.count, "first_record": met.first_record })
}
