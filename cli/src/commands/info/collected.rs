//! What is collected over the records: counts, ranges and what is to be warned of. It is bounded by the number of
//! messages that a stream may have.

use crate::names::{set_flags, KindName};
use crate::steps::{Readout, Sort, Steps};
use cotterleaf::{AcquisitionHeader, Kind, Mask, RecordAt};
use std::collections::{BTreeMap, BTreeSet};

/// The least and the greatest of what was met; none where nothing was.
pub type Range<T> = Option<(T, T)>;

fn widen<T: Ord + Copy>(range: &mut Range<T>, met: T) {
    *range = Some(match *range {
        None => (met, met),
        Some((least, greatest)) => (least.min(met), greatest.max(met)),
    });
}

/// Records and bytes of a kind.
#[derive(Clone, Copy, Default)]
pub struct OfKind {
    pub records: u64,
    pub bytes: u64,
}

#[derive(Default)]
pub struct Readouts {
    pub count: u64,
    pub number_of_samples: Range<u16>,
    pub available_channels: Range<u16>,
    pub active_channels: Range<u16>,
    pub trajectory_dimensions: Range<u16>,
    pub encoding_space_ref: Range<u16>,
    pub scan_counter: Range<u32>,
    pub time_stamp: Range<u32>,
    pub counters: [Range<u16>; 17],
    /// For each flag, from 1 on, how many readouts have it.
    pub flags: BTreeMap<u32, u64>,
}

impl Readouts {
    fn add(&mut self, header: &AcquisitionHeader) {
        self.count += 1;
        widen(&mut self.number_of_samples, header.number_of_samples());
        widen(&mut self.available_channels, header.available_channels());
        widen(&mut self.active_channels, header.active_channels());
        widen(
            &mut self.trajectory_dimensions,
            header.trajectory_dimensions(),
        );
        widen(&mut self.encoding_space_ref, header.encoding_space_ref());
        widen(&mut self.scan_counter, header.scan_counter());
        widen(&mut self.time_stamp, header.acquisition_time_stamp());
        for (range, counter) in self.counters.iter_mut().zip(header.counters()) {
            widen(range, counter);
        }
        for flag in set_flags(header.flags()) {
            *self.flags.entry(flag).or_default() += 1;
        }
    }
}

/// What images have in common that are alike.
#[derive(Clone, Copy, PartialEq, Eq, PartialOrd, Ord)]
pub struct Shape {
    pub matrix_size: [u16; 3],
    pub channels: u16,
    pub data_type: u16,
}

#[derive(Default)]
pub struct Images {
    pub count: u64,
    pub shapes: BTreeMap<Shape, u64>,
    pub time_stamp: Range<u32>,
}

/// Waveforms of one id.
#[derive(Default)]
pub struct OfWaveform {
    pub count: u64,
    pub number_of_samples: Range<u16>,
    pub channels: Range<u16>,
}

#[derive(Default)]
pub struct Waveforms {
    pub count: u64,
    pub ids: BTreeMap<u16, OfWaveform>,
    pub time_stamp: Range<u32>,
}

/// Something to look at, though the rules do not forbid it.
#[derive(Clone, Copy, PartialEq, Eq, PartialOrd, Ord)]
pub enum Warning {
    MaskDiffers,
    Gap,
    Repeat,
    StepBack,
}

/// How often it was met, and where first.
#[derive(Clone, Copy)]
pub struct Met {
    pub count: u64,
    pub first_record: usize,
}

#[derive(Default)]
pub struct Collected {
    pub kinds: BTreeMap<KindName, OfKind>,
    pub measurement_uids: BTreeSet<u32>,
    pub readouts: Readouts,
    pub images: Images,
    pub waveforms: Waveforms,
    pub warnings: BTreeMap<Warning, Met>,
    steps: Steps,
}

impl Collected {
    pub fn add(&mut self, record: &RecordAt) {
        let of_kind = self.kinds.entry(KindName::of(&record.kind)).or_default();
        of_kind.records += 1;
        of_kind.bytes += record.size as u64;
        match record.kind {
            Kind::Acquisition { mask, .. } => self.add_readout(record, mask),
            Kind::Image {
                matrix_size,
                channels,
                data_type,
                ..
            } => {
                let shape = Shape {
                    matrix_size,
                    channels,
                    data_type,
                };
                self.add_image(record, shape);
            }
            Kind::Waveform { .. } => self.add_waveform(record),
            _ => {}
        }
    }

    fn add_readout(&mut self, record: &RecordAt, mask: Mask) {
        let Some(header) = record.acquisition() else {
            return;
        };
        self.readouts.add(&header);
        self.measurement_uids.insert(header.measurement_uid());
        if let Mask::Differs { .. } = mask {
            self.warn(Warning::MaskDiffers, record.number);
        }
        let stray = Readout::of(record).and_then(|readout| self.steps.to(readout));
        if let Some(stray) = stray {
            let warning = match stray.sort() {
                Sort::Gap => Warning::Gap,
                Sort::Repeat => Warning::Repeat,
                Sort::Back => Warning::StepBack,
            };
            self.warn(warning, record.number);
        }
    }

    fn add_image(&mut self, record: &RecordAt, shape: Shape) {
        let Some(header) = record.image() else {
            return;
        };
        self.measurement_uids.insert(header.measurement_uid());
        self.images.count += 1;
        *self.images.shapes.entry(shape).or_default() += 1;
        widen(&mut self.images.time_stamp, header.acquisition_time_stamp());
    }

    fn add_waveform(&mut self, record: &RecordAt) {
        let Some(header) = record.waveform() else {
            return;
        };
        self.measurement_uids.insert(header.measurement_uid());
        self.waveforms.count += 1;
        widen(&mut self.waveforms.time_stamp, header.time_stamp());
        let of_id = self.waveforms.ids.entry(header.waveform_id()).or_default();
        of_id.count += 1;
        widen(&mut of_id.number_of_samples, header.number_of_samples());
        widen(&mut of_id.channels, header.channels());
    }

    fn warn(&mut self, warning: Warning, record: usize) {
        let first = Met {
            count: 0,
            first_record: record,
        };
        self.warnings.entry(warning).or_insert(first).count += 1;
    }
}
