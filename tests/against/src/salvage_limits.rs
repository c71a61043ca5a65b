//! What is saved of some short streams (document 02, E2), of streams around the limit of 1,000,000 messages and of
//! streams of more than 2^32 bytes, beside answers worked out by hand.

use crate::case::{raw_rules, Case};
use crate::limits::LONGEST_TEXT;
use crate::salvage::plain_salvaged;
use crate::tally::{Outcome, Tally};
use cotterleaf::raw;
use second_reader::{self as second, Refused, Rules};

/// As many of the largest texts as make 2^32 bytes.
const LARGEST_TEXTS: usize = 16;
const FOUR_GIB: usize = LARGEST_TEXTS * (LONGEST_TEXT + 6);

/// All of them.
pub fn limits(tally: &mut Tally) -> Outcome {
    short_lines(tally)?;
    around_the_most(tally)?;
    past_32_bits(tally)
}

/// Streams, and what must be saved of each: so many messages and bytes, and whether a close is added.
const LINES: [(&[u8], usize, usize, bool); 14] = [
    (&[], 0, 0, true),
    (&[4], 0, 0, true),
    (&[4, 0], 1, 2, false),
    (&[4, 0, 0], 1, 2, false),
    (&[4, 0, 4, 0], 1, 2, false),
    (&[4, 0, 5, 0, 0, 0, 0, 0], 1, 2, false),
    // A text that ends in the bytes of a close is none.
    (&[5, 0, 2, 0, 0, 0, 4], 0, 0, true),
    (&[5, 0, 2, 0, 0, 0, 4, 0], 1, 8, true),
    (&[5, 0, 2, 0, 0, 0, 4, 0, 6, 0], 1, 8, true),
    (&[5, 0, 2, 0, 0, 0, 4, 0, 4, 0], 2, 10, false),
    // Nor is the close behind a fault.
    (&[6, 0, 4, 0], 0, 0, true),
    (&[5, 0, 0, 0, 0, 0, 0xF0, 3, 4, 0], 1, 6, true),
    (&[3, 0, 0, 0, 0, 0, 3, 0, 0, 0, 0, 0, 4, 0], 1, 6, true),
    (&[3, 0, 0, 0, 0, 0, 2, 0, 0, 0, 0, 0, 4, 0], 1, 6, true),
];

fn short_lines(tally: &mut Tally) -> Outcome {
    for (bytes, messages_kept, kept, close_added) in LINES {
        let close: &[u8] = if close_added { &[4, 0] } else { &[] };
        let saved = [&bytes[..kept], close].concat();
        let expected = raw::mrd_salvaged {
            refusal: 0,
            messages_kept,
            bytes_not_kept: bytes.len() - kept,
            length: saved.len(),
            close_added,
        };
        for rules in Rules::ALL {
            tally.rules = rules;
            let question = || format!("salvage of {bytes:02X?}");
            salvaged_as(tally, question, Case { rules, bytes }, expected, &saved)?;
            let second = second::Saved::of(rules, bytes);
            tally.same_value(question, expected, plain_salvaged(Ok(second.report)))?;
            tally.same_buffer(question, &saved, &second.stream)?;
        }
    }
    Ok(())
}

/// A stream of so many empty texts with something behind them, and what must be saved of it.
struct AroundTheMost {
    name: &'static str,
    texts: usize,
    behind: &'static [u8],
    messages_kept: usize,
    bytes_not_kept: usize,
    close_added: bool,
}

const fn closed_with(
    name: &'static str,
    texts: usize,
    behind: &'static [u8],
    (messages_kept, bytes_not_kept): (usize, usize),
) -> AroundTheMost {
    AroundTheMost {
        name,
        texts,
        behind,
        messages_kept,
        bytes_not_kept,
        close_added: true,
    }
}

/// The same with a close of its own.
const fn closed(
    name: &'static str,
    texts: usize,
    behind: &'static [u8],
    bytes_not_kept: usize,
) -> AroundTheMost {
    AroundTheMost {
        name,
        texts,
        behind,
        messages_kept: texts + 1,
        bytes_not_kept,
        close_added: false,
    }
}

const TEXT: &[u8] = &[5, 0, 0, 0, 0, 0];

/// Not UTF-8: a text like any other in the plain profile, a fault in the strict one.
const BAD_TEXT: &[u8] = &[5, 0, 1, 0, 0, 0, 0xFF];

/// A close, and a text behind it.
const TEXT_BEHIND: &[u8] = &[4, 0, 5, 0, 0, 0, 0, 0];

/// With an added close 999,999 messages are kept, with one of its own a stream has 1,000,000.
const AROUND: [AroundTheMost; 14] = [
    closed_with("999,998 texts", 999_998, &[], (999_998, 0)),
    closed_with("999,999 texts", 999_999, &[], (999_999, 0)),
    closed_with("999,999 and a byte", 999_999, &[5], (999_999, 1)),
    closed_with("999,999 and data", 999_999, &[0xF0, 3], (999_999, 2)),
    closed_with("999,999 and a bad text", 999_999, BAD_TEXT, (999_999, 7)),
    closed_with("1,000,000 texts", 1_000_000, &[], (999_999, 6)),
    closed_with("1,000,000 and a byte", 1_000_000, &[5], (999_999, 7)),
    closed_with("1,000,000 and a close", 1_000_000, &[4, 0], (999_999, 8)),
    closed_with("1,000,000 and a text", 1_000_000, TEXT, (999_999, 12)),
    closed("999,998 and a close", 999_998, &[4, 0], 0),
    closed("999,999 and a close", 999_999, &[4, 0], 0),
    closed("999,999, a close and a byte", 999_999, &[4, 0, 0], 1),
    closed("999,999 and two closes", 999_999, &[4, 0, 4, 0], 2),
    closed("999,999, a close and a text", 999_999, TEXT_BEHIND, 6),
];

/// The group of these streams, and their names.
pub const GROUP: &str = "salvage around 1,000,000 messages";
pub const NAMES: &[&str] = &{
    let mut names = [""; AROUND.len()];
    let mut i = 0;
    while i < AROUND.len() {
        names[i] = AROUND[i].name;
        i += 1;
    }
    names
};

/// What is saved of streams around the limit of 1,000,000 messages. The second reader, which takes its time, is asked
/// under one of the rules for each.
fn around_the_most(tally: &mut Tally) -> Outcome {
    let texts = TEXT.repeat(1_000_000);
    for (i, around) in AROUND.iter().enumerate() {
        let bytes = [&texts[..6 * around.texts], around.behind].concat();
        for (j, rules) in Rules::ALL.into_iter().enumerate() {
            let case = Case {
                rules,
                bytes: &bytes,
            };
            saved_around(tally, case, around, i % 4 == j)?;
        }
        tally.note(GROUP, around.name);
    }
    Ok(())
}

fn saved_around(tally: &mut Tally, case: Case, around: &AroundTheMost, by_second: bool) -> Outcome {
    tally.rules = case.rules;
    let kept = case.bytes.len() - around.bytes_not_kept;
    let close: &[u8] = if around.close_added { &[4, 0] } else { &[] };
    let saved = [&case.bytes[..kept], close].concat();
    let expected = raw::mrd_salvaged {
        refusal: 0,
        messages_kept: around.messages_kept,
        bytes_not_kept: around.bytes_not_kept,
        length: saved.len(),
        close_added: around.close_added,
    };
    let question = || format!("salvage around 1,000,000 messages: {}", around.name);
    salvaged_as(tally, question, case, expected, &saved)?;
    let records = around.messages_kept + usize::from(around.close_added);
    let check = case.with(&saved).library().check();
    tally.same_value(question, check, Ok(records))?;
    if by_second {
        let second = second::Saved::of(case.rules, case.bytes);
        tally.same_value(question, expected, plain_salvaged(Ok(second.report)))?;
        tally.same_buffer(question, &saved, &second.stream)?;
    }
    Ok(())
}

/// The library's report, and its salvage into a room that is exact and into one that is a byte short.
fn salvaged_as(
    tally: &Tally,
    question: impl Fn() -> String,
    case: Case,
    expected: raw::mrd_salvaged,
    saved: &[u8],
) -> Outcome {
    let rules = raw_rules(case.rules);
    let report = raw::salvage_report(rules, case.bytes);
    tally.same_value(&question, report, expected)?;
    let mut out = vec![0xEE; saved.len()];
    let short = &mut out[..saved.len() - 1];
    let refused = plain_salvaged(Err(Refused::Other(14)));
    tally.same_value(&question, raw::salvage(rules, case.bytes, short), refused)?;
    let untouched = out.iter().all(|&byte| byte == 0xEE);
    tally.same_value(&question, untouched, true)?;
    let answer = raw::salvage(rules, case.bytes, &mut out);
    tally.same_value(&question, answer, expected)?;
    tally.same_buffer(&question, &out, saved)
}

/// Sixteen of the largest texts, which have 2^32 bytes, a short one, and half an id. Of all this address space little is
/// written to.
fn more_than_32_bits_count() -> Vec<u8> {
    let mut bytes = vec![0; FOUR_GIB + 8];
    for text in 0..LARGEST_TEXTS {
        let front = &mut bytes[text * (LONGEST_TEXT + 6)..][..6];
        front[0] = 5;
        front[2..].copy_from_slice(&(LONGEST_TEXT as u32).to_le_bytes());
    }
    bytes[FOUR_GIB..].copy_from_slice(&[5, 0, 1, 0, 0, 0, b'a', 5]);
    bytes
}

/// A stream that has more bytes than 32 bits count: all but one of them are kept, or next to none.
fn past_32_bits(tally: &mut Tally) -> Outcome {
    let mut bytes = more_than_32_bits_count();
    let expected = raw::mrd_salvaged {
        messages_kept: LARGEST_TEXTS + 1,
        bytes_not_kept: 1,
        length: FOUR_GIB + 7 + 2,
        close_added: true,
        ..raw::mrd_salvaged::default()
    };
    // The strict profile would read all of it.
    for rules in Rules::PLAIN {
        tally.rules = rules;
        let question = || "salvage that keeps more than 2^32 bytes".to_string();
        let report = raw::salvage_report(raw_rules(rules), &bytes);
        tally.same_value(question, report, expected)?;
        let refused = plain_salvaged(Err(Refused::Other(14)));
        let short = raw::salvage(raw_rules(rules), &bytes, &mut [0; 100]);
        tally.same_value(question, short, refused)?;
    }
    // An unknown id in the place of the first text, and then a close.
    bytes[0] = 6;
    next_to_none(tally, &bytes, 0)?;
    bytes[0] = 4;
    next_to_none(tally, &bytes, 1)
}

/// A close is saved of it: an added one, or its own.
fn next_to_none(tally: &mut Tally, bytes: &[u8], messages_kept: usize) -> Outcome {
    let expected = raw::mrd_salvaged {
        refusal: 0,
        messages_kept,
        bytes_not_kept: bytes.len() - 2 * messages_kept,
        length: 2,
        close_added: messages_kept == 0,
    };
    for rules in Rules::ALL {
        tally.rules = rules;
        let case = Case { rules, bytes };
        let question = || "salvage that keeps next to none of 2^32 bytes".to_string();
        salvaged_as(tally, question, case, expected, &[4, 0])?;
    }
    Ok(())
}
