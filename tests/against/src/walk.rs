//! The check and the walk: every step over a stream, the answer from each cursor on, and made-up cursors.

use crate::aligned;
use crate::answers::{self, Answer};
use crate::attribute_length;
use crate::case::Case;
use crate::tally::{Difference, Family, Outcome, Tally};
use cotterleaf::{Cursor, Step, Stream};
use second_reader::{self as second, Kind, Record, Refusal, Refused, MOST_MESSAGES};
use streams::Rng;

/// What the second reader says of a stream: the records before any fault, and the answer.
pub struct Read {
    pub records: Vec<Record>,
    pub answer: Result<u64, Refusal>,
}

impl Read {
    pub fn of(case: Case) -> Read {
        let (records, refusal) = second::records_before_fault(case.rules, case.bytes);
        let answer = match refusal {
            None => Ok(records.len() as u64),
            Some(refusal) => Err(refusal),
        };
        Read { records, answer }
    }

    pub fn count(&self) -> u64 {
        self.records.len() as u64
    }

    /// Whether the last record is a close, as it is where nothing or what follows a close is refused.
    pub fn is_closed(&self) -> bool {
        let last = self.records.last();
        last.is_some_and(|record| record.detail.kind() == Kind::Close)
    }
}

/// What a step meets, in the second reader's words.
#[derive(Debug, PartialEq)]
enum Met {
    Record(Record),
    End(Answer<u64>),
}

/// Compares one step of the library and gives the cursor after it, where it hands out a record.
fn same_step(
    tally: &mut Tally,
    stream: &Stream,
    cursor: Cursor,
    expected: Met,
) -> Result<Option<Cursor>, Difference> {
    let (met, next) = match stream.step(cursor) {
        Step::Record(here, next) => (Met::Record(answers::record(here)), Some(next)),
        Step::End(end) => (Met::End(answers::number(end)), None),
    };
    let number = match expected {
        Met::End(Err(refused)) => refused.number(),
        _ => 0,
    };
    tally.same_value(|| format!("step at {cursor:?}"), met, expected)?;
    tally.count(Family::Walk, number);
    Ok(next)
}

/// Compares the answer of the rest from a cursor on.
fn same_rest(tally: &mut Tally, stream: &Stream, cursor: Cursor, answer: Answer<u64>) -> Outcome {
    let rest = answers::number(stream.check_from(cursor));
    let question = || format!("check from {cursor:?}");
    tally.same(Family::Walk, question, rest, answer)
}

/// The stream's answer, and each step of the walk over it. From some of the cursors the rest is checked too,
/// whose answer is the stream's.
pub fn walk(tally: &mut Tally, rng: &mut Rng, case: Case, read: &Read) -> Outcome {
    let stream = case.library();
    let answer = read.answer.map_err(Refused::from);
    let checked = answers::number(stream.check());
    tally.same(Family::Check, || "check".to_string(), checked, answer)?;
    let mut cursor = Cursor::beginning();
    for record in &read.records {
        let next = same_step(tally, &stream, cursor, Met::Record(*record))?;
        cursor = next.expect("a record comes with the cursor after it");
        tally.note_kind(record.detail);
        attribute_length::note(tally, case.bytes, record);
        if rng.one_in(4 + read.count() / 4) {
            same_rest(tally, &stream, cursor, answer)?;
        }
    }
    same_step(tally, &stream, cursor, Met::End(answer))?;
    let mut yielded = 0;
    for record in stream.records().flatten() {
        aligned::header_by_name(tally, case, &record)?;
        yielded += 1;
    }
    let question = || "records that the iterator yields".to_string();
    tally.same_value(question, yielded, read.count())
}

/// A cursor that no walk needs to have met.
fn drawn_cursor(rng: &mut Rng, bytes: &[u8], read: &Read) -> Cursor {
    let start = match rng.below(4) {
        0 => rng.below(bytes.len() as u64 + 1),
        1 => bytes.len() as u64 + rng.pick(&[0, 1, 1 << 40]),
        _ => match read.records.len() as u64 {
            0 => 0,
            count => read.records[rng.below(count) as usize].start,
        },
    };
    let number = match rng.below(4) {
        0 => MOST_MESSAGES - 1 - rng.below(4),
        1 => MOST_MESSAGES + rng.pick(&[0, 1, 1 << 40]),
        _ => rng.below(1_000),
    };
    let phase = rng.pick(&[0, 1, 2, 2, 3, 4, 257, u32::MAX]);
    Cursor {
        number: number as usize,
        start: start as usize,
        phase,
    }
}

/// What the second reader says from a cursor on. It knows no cursors, so it reads what is left behind a message
/// that brings the order to the same phase; the numbers are moved, and 1,000,000 messages counted, by hand.
fn read_from(case: Case, cursor: Cursor) -> Read {
    let front: &[u8] = match cursor.phase {
        0 => &[],
        1 => &[2, 0, 0, 0, 0, 0],
        2 => &[3, 0, 0, 0, 0, 0],
        _ => &[4, 0],
    };
    let rest = case.bytes.get(cursor.start..).unwrap_or(&[]);
    let mut read = Read::of(case.with(&[front, rest].concat()));
    let closed = read.is_closed();
    let fronts = usize::from(!front.is_empty());
    read.records.drain(..fronts);
    let number = |n: u64| n - fronts as u64 + cursor.number as u64;
    let byte = |b: u64| b - front.len() as u64 + cursor.start as u64;
    for record in &mut read.records {
        record.number = number(record.number);
        record.start = byte(record.start);
    }
    read.answer = match read.answer {
        Ok(count) => Ok(number(count)),
        Err(refusal) => Err(Refusal {
            number: refusal.number,
            record: number(refusal.record),
            byte: byte(refusal.byte),
        }),
    };
    count_to_the_limit(&mut read, cursor, closed);
    read
}

/// Refuses with 19 the first message that begins after 1,000,000, unless the checks before it refuse it.
fn count_to_the_limit(read: &mut Read, cursor: Cursor, closed: bool) {
    let allowed = MOST_MESSAGES.saturating_sub(cursor.number as u64) as usize;
    let begins = match (read.records.get(allowed), read.answer) {
        (Some(record), _) => record.start,
        (None, Err(refusal))
            if read.records.len() == allowed && refusal.number != 13 && !closed =>
        {
            refusal.byte
        }
        _ => return,
    };
    read.records.truncate(allowed);
    read.answer = Err(Refusal {
        number: 19,
        record: (cursor.number + allowed) as u64,
        byte: begins,
    });
}

/// The step at a made-up cursor, and the answer from it and from the next on.
pub fn made_up_cursor(tally: &mut Tally, rng: &mut Rng, case: Case, read: &Read) -> Outcome {
    let stream = case.library();
    let cursor = drawn_cursor(rng, case.bytes, read);
    let expected = read_from(case, cursor);
    let answer = expected.answer.map_err(Refused::from);
    same_rest(tally, &stream, cursor, answer)?;
    let met = match expected.records.first() {
        Some(&record) => Met::Record(record),
        None => Met::End(answer),
    };
    match same_step(tally, &stream, cursor, met)? {
        Some(next) => same_rest(tally, &stream, next, answer),
        None => Ok(()),
    }
}
