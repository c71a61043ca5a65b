//! Texts in both profiles (document 02, E9): what a run meets of them, and that one bad character in any text of a
//! stream is 21 at its message in the strict profile and nothing in the plain one.

use crate::answers;
use crate::case::Case;
use crate::tally::{Outcome, Tally};
use second_reader::message::text_part;
use second_reader::utf8::{first_fault, is_well_formed, Fault};
use second_reader::{self as second, Kind, Profile, Record, Refusal, Refused, Rules};
use std::ops::Range;
use streams::{split, text_at, texts, FaultyText, Message, Rng};

/// The kinds that have text, by name.
pub const TEXTS: &[&str] = &[
    "name",
    "configuration text",
    "header text",
    "text",
    "attributes",
];

/// The groups of what is not UTF-8, for each of these: in a stream, and given to the writer.
pub const NOT_UTF8: [[&str; 2]; 5] = [
    ["name not UTF-8", "name not UTF-8 given to the writer"],
    [
        "configuration text not UTF-8",
        "configuration text not UTF-8 given to the writer",
    ],
    [
        "header text not UTF-8",
        "header text not UTF-8 given to the writer",
    ],
    ["text not UTF-8", "text not UTF-8 given to the writer"],
    [
        "attributes not UTF-8",
        "attributes not UTF-8 given to the writer",
    ],
];

/// The groups of what was accepted as UTF-8.
pub const ACCEPTED: [&str; 5] = [
    "name of UTF-8",
    "configuration text of UTF-8",
    "header text of UTF-8",
    "text of UTF-8",
    "attributes of UTF-8",
];

/// How wide the widest character of a text is.
pub const WIDTHS: &[&str] = &["empty", "1 byte", "2 bytes", "3 bytes", "4 bytes"];

/// The sorts of faults, in the order of `Fault::ALL`.
pub const FAULTS: &[&str] = &[
    "stray continuation",
    "byte of no form",
    "cut at the end",
    "cut by another byte",
    "overlong in two bytes",
    "overlong in three bytes",
    "overlong in four bytes",
    "surrogate",
    "above U+10FFFF",
];

/// Numbers by name.
pub const NUMBERS: [&str; 22] = [
    "0", "1", "2", "3", "4", "5", "6", "7", "8", "9", "10", "11", "12", "13", "14", "15", "16",
    "17", "18", "19", "20", "21",
];

/// The places of a block of 32 bytes.
pub const PLACES: &[&str] = &[
    "0", "1", "2", "3", "4", "5", "6", "7", "8", "9", "10", "11", "12", "13", "14", "15", "16",
    "17", "18", "19", "20", "21", "22", "23", "24", "25", "26", "27", "28", "29", "30", "31",
];

/// What both profiles say of a stream.
pub const UNDER_BOTH: &[&str] = &[
    "accepted under both",
    "accepted plain and refused strict",
    "refused alike",
    "refused strict before a later fault",
];

/// A text is long from here on: there are two whole blocks of 32 bytes, and more.
const LONG: usize = 65;

/// The place of a kind that has text in the tables above.
fn row(kind: Kind) -> Option<usize> {
    streams::TEXTED.iter().position(|&texted| texted == kind)
}

fn fault_name(fault: Fault) -> &'static str {
    let at = Fault::ALL.iter().position(|&other| other == fault);
    FAULTS[at.expect("one of all faults")]
}

/// Where a record of an accepted stream has its text, if its kind has one.
fn place_of(rules: Rules, record: &Record) -> Option<Range<usize>> {
    let name = text_part(record.detail.kind())?;
    let (start, length) = record.detail.part(rules, name)?;
    let start = record.start as usize + start as usize;
    Some(start..start + length as usize)
}

/// Notes the texts of an accepted stream.
pub fn note_accepted(tally: &mut Tally, case: Case, records: &[Record]) {
    for record in records {
        let kind = record.detail.kind();
        let (Some(row), Some(place)) = (row(kind), place_of(case.rules, record)) else {
            continue;
        };
        let text = std::str::from_utf8(&case.bytes[place.clone()]);
        if case.rules.profile == Profile::Plain {
            if text.is_err() {
                tally.note("not UTF-8 and accepted plain", TEXTS[row]);
            }
            continue;
        }
        let text = text.expect("21 refuses all others");
        tally.note(ACCEPTED[row], WIDTHS[widest(text)]);
        note_characters(tally, text);
        if kind == Kind::ConfigurationName {
            let end = record.start as usize + record.size as usize;
            note_filler(tally, &case.bytes[place.end + 1..end]);
        }
    }
}

/// Notes what stands after the zero of an accepted name.
fn note_filler(tally: &mut Tally, filler: &[u8]) {
    let what = match is_well_formed(filler) {
        true => "UTF-8",
        false => "not UTF-8",
    };
    tally.note("filler of an accepted name", what);
}

fn widest(text: &str) -> usize {
    text.chars().map(char::len_utf8).max().unwrap_or(0)
}

/// Notes characters that some rule might keep out, and where a long text has those of more than one byte.
fn note_characters(tally: &mut Tally, text: &str) {
    let long = text.len() >= LONG;
    for (at, character) in text.char_indices() {
        let edge = match character {
            '\0' => Some("U+0000"),
            '\u{7FF}' => Some("U+07FF"),
            '\u{800}' => Some("U+0800"),
            '\u{D7FF}' => Some("U+D7FF"),
            '\u{E000}' => Some("U+E000"),
            '\u{FEFF}' => Some("U+FEFF"),
            '\u{FFFF}' => Some("U+FFFF"),
            '\u{10000}' => Some("U+10000"),
            '\u{10FFFF}' => Some("U+10FFFF"),
            _ => None,
        };
        if let Some(edge) = edge {
            tally.note("character accepted", edge);
        }
        match character.len_utf8() {
            2 if long => tally.note("2 bytes at a place of 32", PLACES[at % 32]),
            3 if long => tally.note("3 bytes at a place of 32", PLACES[at % 32]),
            4 if long => tally.note("4 bytes at a place of 32", PLACES[at % 32]),
            _ => {}
        }
    }
    if long {
        tally.note("length over a multiple of 32", PLACES[text.len() % 32]);
    }
}

/// Notes a stream that the strict profile refuses: for its text, or before that for something else.
pub fn note_refused(tally: &mut Tally, case: Case, refusal: Refusal) {
    let at = text_at(case.bytes, refusal);
    let (Profile::Strict, Some(at)) = (case.rules.profile, at) else {
        return;
    };
    if refusal.number == 21 {
        note_fault(tally, at);
    } else if at.is_bad() {
        let number = NUMBERS[refusal.number as usize];
        tally.note("earlier fault beside text not UTF-8", number);
    }
}

fn note_fault(tally: &mut Tally, at: FaultyText) {
    let (byte, fault) = first_fault(at.text).expect("a text that is not UTF-8");
    let row = row(at.kind).expect("a kind with text");
    tally.note(NOT_UTF8[row][0], fault_name(fault));
    if at.text.len() >= LONG && byte >= 32 {
        tally.note("fault at a place of 32", PLACES[byte % 32]);
    }
    let (what, next) = match at.kind {
        Kind::Image => ("in the pixels", at.after),
        // The zero stands between.
        Kind::ConfigurationName => ("after a name's zero", &at.after[1..]),
        _ => ("in the next text", at.after.get(6..).unwrap_or_default()),
    };
    if split::completes(at.text, next) {
        tally.note("half a character and its rest", what);
    }
}

/// What both profiles say of a stream, and which later fault the plain one meets.
pub fn note_both(tally: &mut Tally, made_for: Rules, bytes: &[u8]) {
    let group = match made_for.profile {
        Profile::Plain => "plain stream under both profiles",
        Profile::Strict => "strict stream under both profiles",
    };
    let plain = second::check(made_for.plain(), bytes);
    let strict = second::check(made_for.strict(), bytes);
    let what = match (plain, strict) {
        (Ok(_), Ok(_)) => UNDER_BOTH[0],
        (Ok(_), Err(_)) => UNDER_BOTH[1],
        (Err(plain), strict) if strict == Err(plain) => UNDER_BOTH[2],
        (Err(plain), _) => {
            tally.note(
                "later fault behind text not UTF-8",
                NUMBERS[plain.number as usize],
            );
            UNDER_BOTH[3]
        }
    };
    tally.note(group, what);
}

/// A stream that is accepted as strict beside one with a fault of UTF-8 in one of its texts, and beside one with any
/// bytes after its name's zero.
pub fn one_fault(tally: &mut Tally, rng: &mut Rng, case: Case, records: &[Record]) -> Outcome {
    if case.rules.profile == Profile::Plain {
        return Ok(());
    }
    let place = |record| place_of(case.rules, record);
    let texts = records
        .iter()
        .filter_map(|record| Some((record, place(record)?)));
    let texts: Vec<(&Record, Range<usize>)> = texts.collect();
    if let Some((name, place)) = texts.iter().find(|(record, _)| is_name(record)) {
        any_name_filler(tally, rng, case, records, name, place.end)?;
    }
    let filled: Vec<_> = texts
        .iter()
        .filter(|(_, place)| !place.is_empty())
        .collect();
    if filled.is_empty() {
        return Ok(());
    }
    let (record, place) = rng.pick(&filled);
    let mut other = case.bytes.to_vec();
    other[place.clone()].copy_from_slice(&fault_of_length(rng, record, place.len()));
    refused_as_strict_alone(tally, case.with(&other), record, records.len())
}

fn is_name(record: &Record) -> bool {
    record.detail.kind() == Kind::ConfigurationName
}

/// The stream is 21 at this record in the strict profile, and accepted in the plain one.
fn refused_as_strict_alone(tally: &Tally, case: Case, record: &Record, count: usize) -> Outcome {
    let refused = Refused::Stream(Refusal {
        number: 21,
        record: record.number,
        byte: record.start,
    });
    let question = |what: &str| format!("{what} with a fault in the text of {record:?}");
    let checked = answers::number(case.library().check());
    tally.same_value(|| question("check"), checked, Err(refused))?;
    let mut out = vec![0; case.bytes.len()];
    let normal = answers::number(case.library().normal_form(&mut out));
    tally.same_value(|| question("normal form"), normal, Err(refused))?;
    tally.same_buffer(|| question("normal form"), &out, &vec![0; out.len()])?;
    let plain = case.under(case.rules.plain()).library();
    let question = || question("check in the plain profile");
    tally.same_value(question, answers::number(plain.check()), Ok(count as u64))
}

/// Bytes that are not UTF-8, as many as are asked for, which is at least one.
fn fault_of_length(rng: &mut Rng, record: &Record, length: usize) -> Vec<u8> {
    let text = loop {
        let text = texts::any_bad(rng, length);
        if text.len() == length {
            break text;
        }
    };
    match is_name(record) {
        true => texts::without_zeros(text),
        false => text,
    }
}

/// The stream with other bytes after its name's zero, which is at `zero`.
fn any_name_filler(
    tally: &Tally,
    rng: &mut Rng,
    case: Case,
    records: &[Record],
    name: &Record,
    zero: usize,
) -> Outcome {
    let end = name.start as usize + name.size as usize;
    let mut other = case.bytes.to_vec();
    let filler = rng.bytes(end - zero - 1);
    other[zero + 1..end].copy_from_slice(&filler);
    let question = || "check with other bytes after a name's zero".to_string();
    let checked = answers::number(case.with(&other).library().check());
    tally.same_value(question, checked, Ok(records.len() as u64))
}

/// The group of what else is wrong where a given text is not UTF-8.
pub const GIVEN_WITH: &str = "text not UTF-8 given to the writer with another fault";

/// Notes the text that the writer was given, and how its answer stands to 21: `plain` is its answer in the plain
/// profile.
pub fn note_given(
    tally: &mut Tally,
    message: &Message,
    answer: Result<u64, Refused>,
    plain: Result<u64, u32>,
) {
    let row = message.kind().and_then(row);
    let (Some(row), Some(text)) = (row, message.own_text()) else {
        return;
    };
    let fault = first_fault(text).map(|(_, fault)| fault);
    let number = answer.err().map(Refused::number);
    match (message.rules.profile, fault) {
        (Profile::Plain, Some(_)) if number.is_none() => {
            tally.note("not UTF-8 and written plain", TEXTS[row]);
        }
        (Profile::Strict, None) if number.is_none() => {
            tally.note("UTF-8 and written strict", TEXTS[row]);
        }
        (Profile::Strict, Some(fault)) => {
            if number == Some(21) {
                tally.note(NOT_UTF8[row][1], fault_name(fault));
            }
            if let Some(order) = order_of(number, plain) {
                tally.note(GIVEN_WITH, order);
            }
        }
        _ => {}
    }
}

/// In which order the writer looked at 21 and at another fault of what it was given.
fn order_of(number: Option<u32>, plain: Result<u64, u32>) -> Option<&'static str> {
    match (number?, plain) {
        (21, Ok(_)) => Some("21 alone"),
        (21, Err(14)) => Some("21 before 14"),
        (3, _) => Some("3 before 21"),
        (4, _) => Some("4 before 21"),
        (5, _) => Some("5 before 21"),
        (8, _) => Some("8 before 21"),
        (10, _) => Some("10 before 21"),
        (18, _) => Some("18 before 21"),
        _ => None,
    }
}
