//! What is asked about one stream. Every family of calls is asked at drawn numbers; now and then a short stream
//! is asked everything.

use crate::asked::{Asked, GivenIndex};
use crate::case::Case;
use crate::tally::{Family, Outcome, Tally};
use crate::walk::{self, Read};
use crate::{aligned, at_cursor, attribute_length, part_at, plain, salvage, strict, torn, written};
use cotterleaf::Part;
use second_reader::{Detail, Kind, Layout, Table, Type};
use streams::{counters, field_offset, given_columns, given_files, record_number};
use streams::{GivenColumns, GivenFile, Rng};

/// Asks both readers about one stream under one layout and profile.
pub fn ask(tally: &mut Tally, rng: &mut Rng, case: Case) -> Outcome {
    tally.rules = case.rules;
    let kept = case.bytes.to_vec();
    let read = Read::of(case);
    walk::walk(tally, rng, case, &read)?;
    each_family(tally, rng, case, &read)?;
    match read.answer {
        Ok(_) => {
            attribute_length::either_number(tally, rng, case, &read.records)?;
            aligned::any_filler(tally, rng, case, &read.records)?;
            aligned::note_accepted(tally, case, &read.records);
            strict::one_fault(tally, rng, case, &read.records)?;
            strict::note_accepted(tally, case, &read.records);
        }
        Err(refusal) => {
            attribute_length::note_refused(tally, case, refusal);
            aligned::note_refused(tally, case, refusal);
            strict::note_refused(tally, case, refusal);
        }
    }
    walk::made_up_cursor(tally, rng, case, &read)?;
    let view = drawn_view(rng, &read);
    let field = drawn_field(rng, case, &read);
    at_cursor::asked_at(tally, case, &read, view, field)?;
    let apart = &mut rng.apart();
    part_at::ask(tally, apart, case, &read)?;
    salvage::ask(tally, apart, case, &read)?;
    torn::ask(tally, apart, case, &read)?;
    if rng.one_in(4) {
        let (n, offset) = drawn_field(rng, case, &read);
        plain::questions(tally, rng, case, n, offset)?;
        plain::steps(tally, case, &read)?;
        plain::refused_outputs(tally, case)?;
    }
    if read.answer.is_ok() && read.count() <= 12 {
        each_family(tally, rng, case, &read)?;
        everything(tally, rng, case, &read)?;
    }
    let question = || "the given stream after all calls".to_string();
    tally.same_buffer(question, case.bytes, &kept)
}

/// All views and meanings of every other short stream, and all fields of a record of every eighth.
fn everything(tally: &mut Tally, rng: &mut Rng, case: Case, read: &Read) -> Outcome {
    if rng.one_in(2) {
        all_views(tally, case, read)?;
        written::same_meaning(tally, case)?;
    }
    if rng.one_in(8) {
        all_fields(tally, rng, case, read)?;
    }
    Ok(())
}

/// Every family once at drawn numbers: the questions with no index, with a file and with columns.
pub fn each_family(tally: &mut Tally, rng: &mut Rng, case: Case, read: &Read) -> Outcome {
    let count = read.count();
    let accepted = read.answer.is_ok();
    let indexes = [
        GivenIndex::None,
        GivenIndex::File(drawn_file(tally, rng, case, accepted)),
        GivenIndex::Columns(drawn_columns(tally, rng, case, accepted)),
    ];
    for given in &indexes {
        let asked = Asked { case, given };
        asked.place(tally, record_number(rng, count))?;
        let (n, part) = drawn_view(rng, read);
        asked.view(tally, n, part)?;
        let (n, offset) = drawn_field(rng, case, read);
        asked.field(tally, n, offset)?;
        // A list of another length cannot be given: zeros stand for it.
        let counters = counters(case.rules, rng, case.bytes);
        let counters = counters.try_into().unwrap_or([0; 17]);
        let from = match rng.below(2) {
            0 => 0,
            _ => record_number(rng, count),
        };
        asked.find(tally, from, &counters)?;
        asked.matches(tally)?;
    }
    written::bytes_written(tally, rng, Family::NormalForm, case, read)?;
    written::bytes_written(tally, rng, Family::WriteIndex, case, read)?;
    written::columns_filled(tally, rng, case, read)
}

/// The index file of another stream: a refused one has none of its own.
fn drawn_file(tally: &mut Tally, rng: &mut Rng, case: Case, accepted: bool) -> GivenFile {
    if !accepted {
        let mut files = given_files(case.rules, rng, &[4, 0]);
        return files.swap_remove(0);
    }
    let mut files = given_files(case.rules, rng, case.bytes);
    let file = files.swap_remove(often_first(rng, files.len()));
    tally.note("file given", file.what);
    file
}

fn drawn_columns(tally: &mut Tally, rng: &mut Rng, case: Case, accepted: bool) -> GivenColumns {
    if !accepted {
        let mut columns = given_columns(case.rules, rng, &[4, 0]);
        return columns.swap_remove(0);
    }
    let mut columns = given_columns(case.rules, rng, case.bytes);
    let columns = columns.swap_remove(often_first(rng, columns.len()));
    tally.note("columns given", columns.what);
    columns
}

/// The right index stands first; it is given half of the time, so that the later answers come too.
fn often_first(rng: &mut Rng, count: usize) -> usize {
    match rng.below(2) {
        0 => 0,
        _ => rng.below(count as u64) as usize,
    }
}

const PARTS: [Part; 6] = [
    Part::Name,
    Part::Text,
    Part::Attributes,
    Part::Trajectory,
    Part::Pixels,
    Part::Waveform,
];

/// The parts of the record's own kind.
fn own_parts(rng: &mut Rng, detail: Detail) -> Vec<Part> {
    match detail {
        Detail::ConfigurationName { .. } => vec![Part::Name],
        Detail::ConfigurationText { .. } | Detail::HeaderText { .. } | Detail::Text { .. } => {
            vec![Part::Text]
        }
        Detail::Close => vec![],
        Detail::Acquisition {
            active_channels, ..
        } => {
            let channel = rng.below(u64::from(active_channels).max(1)) as usize;
            vec![Part::Trajectory, Part::Channel(channel)]
        }
        Detail::Image { .. } => vec![Part::Attributes, Part::Pixels],
        Detail::Waveform { .. } => vec![Part::Waveform],
    }
}

/// A record and a part: mostly one that the record has, else any.
fn drawn_view(rng: &mut Rng, read: &Read) -> (u64, Part) {
    let n = record_number(rng, read.count());
    if let Some(record) = read.records.get(n as usize) {
        let own = own_parts(rng, record.detail);
        if !own.is_empty() && !rng.one_in(3) {
            return (n, rng.pick(&own));
        }
    }
    let part = match rng.below(3) {
        0 => Part::Channel(far_channel(rng)),
        _ => rng.pick(&PARTS),
    };
    (n, part)
}

/// A record and an offset: mostly an element of that record's header, else any.
fn drawn_field(rng: &mut Rng, case: Case, read: &Read) -> (u64, u64) {
    let n = match header_record(rng, case, read) {
        Some(n) if !rng.one_in(3) => n,
        _ => record_number(rng, read.count()),
    };
    let record = read.records.get(n as usize);
    let table = record.and_then(|record| record.detail.kind().table(case.rules));
    match table {
        Some(table) if !rng.one_in(3) => (n, rng.pick(&table.elements()).0 as u64),
        _ => (n, field_offset(case.rules, rng)),
    }
}

/// The number of a record that has a header, if the stream has such.
fn header_record(rng: &mut Rng, case: Case, read: &Read) -> Option<u64> {
    // Drawn among all records, a few times: a list of them would cost more than it gives.
    let count = read.count();
    let drawn = (0..4).map(|_| rng.below(count.max(1)));
    drawn.into_iter().find(|&n| {
        let record = read.records.get(n as usize);
        record.is_some_and(|record| record.detail.kind().table(case.rules).is_some())
    })
}

/// Channel numbers whose product with 8 or more wraps, and others that few records have.
fn far_channel(rng: &mut Rng) -> usize {
    rng.pick(&[0, 1, 2, 8, 65_535, 65_536, 1 << 32, 1 << 61, usize::MAX])
}

/// All views of all records, with the channels at both ends and past them.
fn all_views(tally: &mut Tally, case: Case, read: &Read) -> Outcome {
    let asked = Asked {
        case,
        given: &GivenIndex::None,
    };
    for record in &read.records {
        asked.place(tally, record.number)?;
        for part in PARTS {
            asked.view(tally, record.number, part)?;
        }
        let active = match record.detail {
            Detail::Acquisition {
                active_channels, ..
            } => usize::from(active_channels),
            _ => 0,
        };
        let channels = [0, 1, active.saturating_sub(1), active, active + 1];
        for channel in channels.into_iter().chain([1 << 61, usize::MAX]) {
            asked.view(tally, record.number, Part::Channel(channel))?;
        }
    }
    Ok(())
}

/// Floats that a copy through a float register, or a comparison of values, would change or confuse.
const FLOATS: [u32; 8] = [
    0x7F80_0001, // a signalling NaN
    0xFFBF_FFFF, // another, negative
    0x7FC0_0000, // a quiet NaN
    0xFFC1_2345, // another, with a payload
    0x8000_0000, // -0
    0x7F80_0000, // infinity
    0x0000_0001, // the smallest above 0
    0x3F80_0000, // 1
];

/// Every offset of one record, past its header too, with such floats in it.
fn all_fields(tally: &mut Tally, rng: &mut Rng, case: Case, read: &Read) -> Outcome {
    let n = header_record(rng, case, read).unwrap_or(0);
    let record = &read.records[n as usize];
    let kind = record.detail.kind();
    let header = record.start as usize + 2;
    let mut bytes = case.bytes.to_vec();
    let table = kind.table(case.rules);
    for (offset, element) in table.map_or(vec![], Table::elements) {
        if element == Type::F32 {
            let float = rng.pick(&FLOATS).to_le_bytes();
            bytes[header + offset..][..4].copy_from_slice(&float);
        }
    }
    let asked = Asked {
        case: case.with(&bytes),
        given: &GivenIndex::None,
    };
    for offset in 0..table.map_or(0, |table| table.size as u64) + 9 {
        asked.field(tally, n, offset)?;
        if kind == Kind::Waveform && case.rules.layout == Layout::Aligned {
            tally.note("offset of an aligned waveform", offset_name(offset));
        }
    }
    Ok(())
}

/// What an aligned waveform header has at an offset.
fn offset_name(offset: u64) -> &'static str {
    match offset {
        0 | 8 | 16 | 20 | 24 | 28 | 30 | 32 | 36 => "element",
        2..=7 | 38 | 39 => "filler",
        0..=39 => "inside an element",
        _ => "past the header",
    }
}
