//! A record as an answer: its place and its kind's own numbers, as members of an object and as a line.

use crate::answer::{members, Members};
use crate::names::KindName;
use cotterleaf::{data_type_name, Kind, Mask, Record, RecordAt, COUNTER_NAMES};
use serde_json::{json, Value};
use std::fmt;
use std::io::{Result, Write};

/// Number, kind, id and place.
pub fn place_members(record: &Record) -> Members {
    members(json!({
        "record": record.number,
        "kind": KindName::of(&record.kind).word(),
        "id": record.kind.id(),
        "start": record.start,
        "size": record.size,
    }))
}

fn mask_word(mask: Mask) -> &'static str {
    match mask {
        Mask::NotStated => "not-stated",
        Mask::Agrees { .. } => "agrees",
        Mask::Differs { .. } => "differs",
    }
}

/// The kind's own numbers.
fn kind_members(record: &RecordAt) -> Members {
    members(match record.kind {
        Kind::ConfigurationName { length }
        | Kind::ConfigurationText { length }
        | Kind::HeaderText { length }
        | Kind::Text { length } => json!({ "length": length }),
        Kind::Close => json!({}),
        Kind::Acquisition { mask, .. } => readout_object(record, mask),
        Kind::Image {
            matrix_size,
            channels,
            data_type,
            attribute_length,
        } => json!({
            "matrix_size": matrix_size,
            "channels": channels,
            "data_type": data_type,
            "attribute_length": attribute_length,
        }),
        Kind::Waveform { .. } => {
            let header = record.waveform().expect("a waveform has its header");
            json!({
                "scan_counter": header.scan_counter(),
                "waveform_id": header.waveform_id(),
                "number_of_samples": header.number_of_samples(),
                "channels": header.channels(),
            })
        }
    })
}

fn readout_object(record: &RecordAt, mask: Mask) -> Value {
    let header = record.acquisition();
    let header = header.expect("an acquisition has its header");
    json!({
        "scan_counter": header.scan_counter(),
        "number_of_samples": header.number_of_samples(),
        "active_channels": header.active_channels(),
        "trajectory_dimensions": header.trajectory_dimensions(),
        "mask": mask_word(mask),
        "mask_ones": mask.ones(),
    })
}

/// All that a listing tells of a record.
pub fn record_members(record: &RecordAt) -> Members {
    let mut object = place_members(record);
    object.extend(kind_members(record));
    object
}

/// The seventeen counters by name, each as something.
pub fn by_counter<T: Into<Value>>(of: impl Fn(usize) -> T) -> Value {
    let named = COUNTER_NAMES.iter().enumerate();
    let named = named.map(|(i, name)| (name.to_string(), of(i).into()));
    Value::Object(named.collect())
}

/// What stands above the lines.
pub const HEADING: &str = " record  kind                       start        size";

/// The front of a record's line.
pub fn write_place(out: &mut dyn Write, record: &Record) -> Result<()> {
    let kind = KindName::of(&record.kind).word();
    let Record {
        number,
        start,
        size,
        ..
    } = record;
    write!(out, "{number:>7}  {kind:<18} {start:>13} {size:>11}")
}

/// The kind's own numbers, after the place.
pub fn write_numbers(out: &mut dyn Write, record: &RecordAt) -> Result<()> {
    match record.kind {
        Kind::Close
        | Kind::ConfigurationName { .. }
        | Kind::ConfigurationText { .. }
        | Kind::HeaderText { .. }
        | Kind::Text { .. } => Ok(()),
        Kind::Acquisition { mask, .. } => write_readout(out, record, mask),
        Kind::Image {
            matrix_size: [x, y, z],
            channels,
            data_type,
            attribute_length,
        } => {
            let pixel = data_type_name(data_type).unwrap_or("?");
            let channels = counted(channels, "channel");
            write!(out, "  {x} x {y} x {z}, {channels}, {pixel}")?;
            match attribute_length {
                0 => Ok(()),
                length => write!(out, ", {length} bytes of attributes"),
            }
        }
        Kind::Waveform {
            number_of_samples,
            channels,
        } => {
            let header = record.waveform().expect("a waveform has its header");
            let channels = counted(channels, "channel");
            let samples = counted(number_of_samples, "sample");
            let (id, scan) = (header.waveform_id(), header.scan_counter());
            write!(out, "  waveform {id}, scan {scan}, {channels}, {samples}")
        }
    }
}

fn write_readout(out: &mut dyn Write, record: &RecordAt, mask: Mask) -> Result<()> {
    let header = record.acquisition();
    let header = header.expect("an acquisition has its header");
    let scan = header.scan_counter();
    let channels = counted(header.active_channels(), "channel");
    let samples = counted(header.number_of_samples(), "sample");
    write!(out, "  scan {scan}, {channels}, {samples}")?;
    match header.trajectory_dimensions() {
        0 => {}
        dimensions => write!(out, ", trajectory of {dimensions}")?,
    }
    match mask {
        Mask::Differs { ones } => write!(out, ", mask names {ones}"),
        _ => Ok(()),
    }
}

/// `1 channel`, `2 channels`.
pub struct Counted(u64, &'static str);

pub fn counted(count: impl Into<u64>, what: &'static str) -> Counted {
    Counted(count.into(), what)
}

impl fmt::Display for Counted {
    fn fmt(&self, f: &mut fmt::Formatter<'_>) -> fmt::Result {
        let Counted(count, what) = self;
        let many = if *count == 1 { "" } else { "s" };
        write!(f, "{count} {what}{many}")
    }
}
