//! What was collected, in words.

use super::collected::{Collected, Images, Met, Range, Readouts, Warning, Waveforms};
use crate::names::flag_word;
use crate::records::counted;
use cotterleaf::{data_type_name, COUNTER_NAMES};
use std::fmt::Display;
use std::io::{Result, Write};

/// How many of a long list are shown.
const SHOWN: usize = 8;

pub fn write(out: &mut dyn Write, collected: &Collected) -> Result<()> {
    for (kind, of) in &collected.kinds {
        let records = counted(of.records, "record").to_string();
        writeln!(
            out,
            "  {:<20} {records:>16} {:>16} bytes",
            kind.word(),
            of.bytes
        )?;
    }
    if !collected.measurement_uids.is_empty() {
        let uids = listed(collected.measurement_uids.iter());
        writeln!(out, "measurement uids: {uids}")?;
    }
    if collected.readouts.count > 0 {
        write_readouts(out, &collected.readouts)?;
    }
    if collected.images.count > 0 {
        write_images(out, &collected.images)?;
    }
    if collected.waveforms.count > 0 {
        write_waveforms(out, &collected.waveforms)?;
    }
    if !collected.warnings.is_empty() {
        writeln!(out, "warnings")?;
    }
    for (warning, met) in &collected.warnings {
        writeln!(out, "  {}", warning_words(*warning, met, collected))?;
    }
    Ok(())
}

/// The first of a list, and how many more there are.
fn listed(all: impl ExactSizeIterator<Item = impl Display>) -> String {
    let more = all.len().saturating_sub(SHOWN);
    let shown: Vec<String> = all.take(SHOWN).map(|one| one.to_string()).collect();
    match more {
        0 => shown.join(", "),
        _ => format!("{} and {more} more", shown.join(", ")),
    }
}

/// `32`, or `16 to 32`.
fn span<T: Display + PartialEq>(range: &Range<T>) -> String {
    match range {
        None => "none".into(),
        Some((least, greatest)) if least == greatest => least.to_string(),
        Some((least, greatest)) => format!("{least} to {greatest}"),
    }
}

/// A range of time stamps with what lies between, whose unit only the sender knows.
fn time(range: &Range<u32>) -> String {
    match range {
        Some((least, greatest)) if least != greatest => format!(
            "{least} to {greatest}, {} apart in the sender's unit",
            greatest - least
        ),
        range => span(range),
    }
}

fn write_readouts(out: &mut dyn Write, readouts: &Readouts) -> Result<()> {
    writeln!(out, "readouts: {}", readouts.count)?;
    for (what, range) in [
        ("samples", &readouts.number_of_samples),
        ("active channels", &readouts.active_channels),
        ("available channels", &readouts.available_channels),
        ("trajectory dimensions", &readouts.trajectory_dimensions),
        ("encoding space", &readouts.encoding_space_ref),
    ] {
        writeln!(out, "  {what:<22} {}", span(range))?;
    }
    writeln!(
        out,
        "  {:<22} {}",
        "scan counter",
        span(&readouts.scan_counter)
    )?;
    writeln!(out, "  {:<22} {}", "time stamp", time(&readouts.time_stamp))?;
    let named = COUNTER_NAMES.iter().zip(&readouts.counters);
    let (zero, used): (Vec<_>, Vec<_>) = named.partition(|(_, range)| **range == Some((0, 0)));
    for (name, range) in used {
        writeln!(out, "  {name:<22} {}", span(range))?;
    }
    if !zero.is_empty() {
        let names: Vec<&str> = zero.iter().map(|(name, _)| **name).collect();
        writeln!(out, "  always 0: {}", names.join(", "))?;
    }
    for (flag, count) in &readouts.flags {
        let readouts = counted(*count, "readout");
        writeln!(out, "  flag {} in {readouts}", flag_word(*flag))?;
    }
    Ok(())
}

fn write_images(out: &mut dyn Write, images: &Images) -> Result<()> {
    writeln!(out, "images: {}", images.count)?;
    for (shape, count) in images.shapes.iter().take(SHOWN) {
        let [x, y, z] = shape.matrix_size;
        let pixel = data_type_name(shape.data_type).unwrap_or("?");
        let channels = counted(shape.channels, "channel");
        writeln!(out, "  {x} x {y} x {z}, {channels}, {pixel}: {count}")?;
    }
    let more = images.shapes.len().saturating_sub(SHOWN);
    if more > 0 {
        writeln!(out, "  and {more} more shapes")?;
    }
    writeln!(out, "  {:<22} {}", "time stamp", time(&images.time_stamp))
}

fn write_waveforms(out: &mut dyn Write, waveforms: &Waveforms) -> Result<()> {
    writeln!(out, "waveforms: {}", waveforms.count)?;
    for (id, of) in waveforms.ids.iter().take(SHOWN) {
        let (channels, samples) = (span(&of.channels), span(&of.number_of_samples));
        let count = of.count;
        writeln!(
            out,
            "  id {id}: {count}, channels {channels}, samples {samples}"
        )?;
    }
    let more = waveforms.ids.len().saturating_sub(SHOWN);
    if more > 0 {
        writeln!(out, "  and {more} more ids")?;
    }
    writeln!(
        out,
        "  {:<22} {}",
        "time stamp",
        time(&waveforms.time_stamp)
    )
}

/// Where the single ones are to be had.
const LISTED: &str = "'cotterleaf gaps' lists them";

fn warning_words(warning: Warning, met: &Met, collected: &Collected) -> String {
    let Met {
        count,
        first_record,
    } = met;
    let count = *count;
    let from = format!("first at record {first_record}");
    match warning {
        Warning::MaskDiffers => format!(
            "{} with a channel mask that names another number of channels, {from}; as after a coil compression",
            counted(count, "readout")
        ),
        Warning::Gap => format!("{} in the scan counters, {from}; {LISTED}", counted(count, "gap")),
        Warning::Repeat if collected.readouts.scan_counter == Some((0, 0)) => {
            "all scan counters are 0, as of a sender that does not count: what is missing can't be told".into()
        }
        Warning::Repeat => format!("{} of scan counters, {from}; {LISTED}", counted(count, "repeat")),
        Warning::StepBack => format!("scan counters step back {}, {from}; {LISTED}", counted(count, "time")),
    }
}
