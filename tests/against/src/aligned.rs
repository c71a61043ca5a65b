//! Waveform headers in both layouts (document 02, E3): what a run meets of them, and that the filler of aligned ones
//! says nothing.

use crate::answers;
use crate::case::{library_rules, Case};
use crate::tally::{Outcome, Tally};
use cotterleaf::{Cursor, Field, Index, Message, Part, RecordAt, Refusal};
use second_reader::{self as second, Kind, Layout, Record, Rules};
use streams::{filler, Rng};

fn waveforms(records: &[Record]) -> impl Iterator<Item = &Record> {
    let is_waveform = |record: &&Record| record.detail.kind() == Kind::Waveform;
    records.iter().filter(is_waveform)
}

fn is_zero(case: Case, waveform: &Record) -> bool {
    let places = filler::places_of(case.rules, waveform);
    places.iter().all(|&at| case.bytes[at] == 0)
}

/// Notes the waveforms of an accepted stream.
pub fn note_accepted(tally: &mut Tally, case: Case, records: &[Record]) {
    for waveform in waveforms(records) {
        let what = match case.rules.layout {
            Layout::Packed => "packed",
            Layout::Aligned if is_zero(case, waveform) => "aligned with zeros",
            Layout::Aligned => "aligned with other filler",
        };
        tally.note("waveform accepted", what);
    }
}

/// Notes a stream that is refused at a waveform, for what it is itself.
pub fn note_refused(tally: &mut Tally, case: Case, refusal: second::Refusal) {
    let faulty = &case.bytes[refusal.byte as usize..];
    if !faulty.starts_with(&Kind::Waveform.id().to_le_bytes()) {
        return;
    }
    let group = match case.rules.layout {
        Layout::Packed => "packed waveform refused",
        Layout::Aligned => "aligned waveform refused",
    };
    match refusal.number {
        3 => tally.note(group, "3"),
        4 => tally.note(group, "4"),
        10 => tally.note(group, "10"),
        11 => tally.note(group, "11"),
        _ => {}
    }
}

/// The elements of a waveform header by their names in the wrapper.
pub fn header_by_name(tally: &mut Tally, case: Case, record: &RecordAt) -> Outcome {
    let Some(header) = record.waveform() else {
        return Ok(());
    };
    let shown = [
        ("version", u64::from(header.version())),
        ("flags", header.flags()),
        ("measurement_uid", u64::from(header.measurement_uid())),
        ("scan_counter", u64::from(header.scan_counter())),
        ("time_stamp", u64::from(header.time_stamp())),
        ("number_of_samples", u64::from(header.number_of_samples())),
        ("channels", u64::from(header.channels())),
        (
            "sample_time_us",
            u64::from(header.sample_time_us().to_bits()),
        ),
        ("waveform_id", u64::from(header.waveform_id())),
    ];
    let table = Kind::Waveform.table(case.rules).expect("it has a header");
    let stored = table.entries.iter().map(|entry| {
        let at = record.start + 2 + entry.offset;
        let number = second::numbers::read(case.bytes, at, entry.element.size());
        (entry.name, number)
    });
    let question = || format!("header of waveform {} by name", record.number);
    tally.same_buffer(question, &shown, &stored.collect::<Vec<_>>())
}

/// Notes that an index in this form holds the scan counter, other than 0, of an aligned waveform.
pub fn note_counters(tally: &mut Tally, case: Case, records: &[Record], form: &'static str) {
    let counter = |waveform: &Record| {
        let header = &case.bytes[waveform.start as usize + 2..];
        second::headers::ALIGNED_WAVEFORM.whole(header, "scan_counter", 0)
    };
    let aligned = case.rules.layout == Layout::Aligned;
    if aligned && waveforms(records).any(|waveform| counter(waveform) != 0) {
        tally.note("scan counter of an aligned waveform", form);
    }
}

/// What both layouts say of a stream that was made for one of them.
pub fn note_both(tally: &mut Tally, made_for: Rules, bytes: &[u8]) {
    let group = match made_for.layout {
        Layout::Packed => "packed stream under both layouts",
        Layout::Aligned => "aligned stream under both layouts",
    };
    let own = second::contents(made_for, bytes);
    let other = second::contents(made_for.with_other_layout(), bytes);
    let what = match (own, other) {
        (Ok(own), Ok(other)) if own == other => "one record list",
        (Ok(own), Ok(other)) if own.len() == other.len() => "as many other records",
        (Ok(_), Ok(_)) => "another number of records",
        (Ok(_), Err(_)) => "accepted under its own alone",
        (Err(_), Ok(_)) => "accepted under the other alone",
        (Err(own), Err(other)) if own == other => "refused alike",
        (Err(_), Err(_)) => "refused otherwise",
    };
    tally.note(group, what);
}

/// The stream beside one with another byte wherever it has filler: answer, places, records, index and normal form are
/// the same, no field starts there, and the writer makes zeros of it.
pub fn any_filler(tally: &mut Tally, rng: &mut Rng, case: Case, records: &[Record]) -> Outcome {
    let places = filler::places(case.rules, records);
    if places.is_empty() {
        return Ok(());
    }
    let mut other = case.bytes.to_vec();
    for &at in &places {
        other[at] ^= 1 + rng.below(255) as u8;
    }
    let other = case.with(&other);
    same_places(tally, other, records)?;
    same_index(tally, case, other, records)?;
    let normal = one_normal_form(tally, case, other, &places)?;
    for waveform in waveforms(records) {
        let what = match is_zero(case, waveform) {
            true => "kept zero",
            false => "made zero",
        };
        tally.note("filler in a normal form", what);
        same_record(tally, case, other, waveform)?;
    }
    let drawn: Vec<&Record> = waveforms(records).collect();
    let drawn = rng.pick(&drawn);
    no_field_at_filler(tally, other, drawn)?;
    written_with_zeros(tally, other, drawn, &normal)
}

/// The answer, and each record's place and kind by the walk.
fn same_places(tally: &Tally, other: Case, records: &[Record]) -> Outcome {
    let question = |what: &str| format!("{what} with other filler");
    let stream = other.library();
    let answer = answers::number(stream.check());
    tally.same_value(|| question("check"), answer, Ok(records.len() as u64))?;
    let walked: Result<Vec<Record>, Refusal> = stream
        .records()
        .map(|record| record.map(|record| answers::record(*record)))
        .collect();
    let walked = walked.map_err(answers::refused);
    tally.same_value(|| question("places"), walked, Ok(records.to_vec()))
}

/// Both streams have one index, which each of them believes.
fn same_index(tally: &Tally, case: Case, other: Case, records: &[Record]) -> Outcome {
    let question = |what: &str| format!("{what} with other filler");
    let length = 23 + 17 * records.len();
    let [mut own, mut others] = [vec![0xEE; length], vec![0xDD; length]];
    for (case, out) in [(case, &mut own), (other, &mut others)] {
        let answer = case.library().write_index(out);
        tally.same_value(|| question("index"), answer, Ok(length))?;
    }
    tally.same_buffer(|| question("index"), &own, &others)?;
    let believed = other.library().matches(Index::File(&own));
    tally.same_value(|| question("the own index"), believed, Ok(()))
}

/// Both streams have one normal form, with zeros at these places.
fn one_normal_form(
    tally: &Tally,
    case: Case,
    other: Case,
    places: &[usize],
) -> Result<Vec<u8>, crate::tally::Difference> {
    let question = || "normal form with other filler".to_string();
    let length = case.bytes.len();
    let [mut normal, mut others] = [vec![0xEE; length], vec![0xDD; length]];
    for (case, out) in [(case, &mut normal), (other, &mut others)] {
        let answer = case.library().normal_form(out);
        tally.same_value(question, answer, Ok(length))?;
    }
    tally.same_buffer(question, &normal, &others)?;
    let filler: Vec<u8> = places.iter().map(|&at| normal[at]).collect();
    let question = || "filler of the normal form".to_string();
    tally.same_buffer(question, &filler, &vec![0; places.len()])?;
    Ok(normal)
}

/// The cursor at a waveform: it stands after the header text.
fn cursor_at(waveform: &Record) -> Cursor {
    Cursor {
        number: waveform.number as usize,
        start: waveform.start as usize,
        phase: 2,
    }
}

/// Each element of the header and the data, as the library shows them in both streams.
fn same_record(tally: &Tally, case: Case, other: Case, waveform: &Record) -> Outcome {
    let cursor = cursor_at(waveform);
    let table = Kind::Waveform.table(case.rules).expect("it has a header");
    for (offset, element) in table.elements() {
        let header = &case.bytes[waveform.start as usize + 2..];
        let expected = Ok(second::headers::read_element(header, offset, element));
        let shown = other.library().field_at(cursor, offset);
        let shown = shown.map(answers::field).map_err(answers::refused);
        let question = || format!("field at {offset} of {waveform:?} with other filler");
        tally.same_value(question, shown, expected)?;
    }
    let [own, others] = [case, other].map(|case| case.library().view_at(cursor, Part::Waveform));
    let question = || format!("data of {waveform:?} with other filler");
    tally.same_value(question, others, own)
}

/// Every byte of filler is no field, by the record's number and at its cursor.
fn no_field_at_filler(tally: &mut Tally, case: Case, waveform: &Record) -> Outcome {
    let stream = case.library();
    let none: Result<Field, Refusal> = Err(Refusal {
        number: 20,
        place: None,
    });
    for at in filler::places_of(case.rules, waveform) {
        let offset = at - waveform.start as usize - 2;
        let question = || format!("field at {offset}, filler of {waveform:?}");
        let by_number = stream.field(waveform.number as usize, offset);
        tally.same_value(question, by_number, none)?;
        let by_cursor = stream.field_at(cursor_at(waveform), offset);
        tally.same_value(question, by_cursor, none)?;
        tally.note("field question at filler", "20");
    }
    Ok(())
}

/// The header with its filler, given to the writer, makes the message of the normal form.
fn written_with_zeros(tally: &Tally, case: Case, waveform: &Record, normal: &[u8]) -> Outcome {
    let start = waveform.start as usize;
    let size = waveform.size as usize;
    let message = &case.bytes[start..][..size];
    let data = 2 + Kind::Waveform.header_size(case.rules);
    let given = Message {
        id: Kind::Waveform.id(),
        header: &message[2..data],
        waveform: &message[data..],
        ..Message::default()
    };
    let mut output = vec![0xEE; size];
    let answer = given.write(library_rules(case.rules), &mut output, 0);
    let question = || format!("{waveform:?} written with other filler");
    tally.same_value(question, answer, Ok(size))?;
    tally.same_buffer(question, &output, &normal[start..][..size])
}
