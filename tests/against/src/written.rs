//! What is written from a stream: the normal form, the index file and the columns. Both readers write into
//! buffers of the same drawn content, given from their middle, and the whole buffers are compared.

use crate::aligned;
use crate::answers;
use crate::case::Case;
use crate::tally::{Family, Outcome, Tally};
use crate::walk::Read;
use second_reader::{self as second, Refused};
use streams::Rng;

/// Places before and after a given output, which must keep their content.
const MARGIN: usize = 5;

/// A room for `needed` places: as many, fewer or more.
fn room(tally: &mut Tally, rng: &mut Rng, needed: usize) -> usize {
    match rng.below(4) {
        0 if needed > 0 => {
            tally.note("room", "short");
            match rng.below(2) {
                0 => needed - 1,
                _ => rng.below(needed as u64) as usize,
            }
        }
        1 => {
            tally.note("room", "long");
            needed + 1 + rng.size(60) as usize
        }
        _ => {
            tally.note("room", "exact");
            needed
        }
    }
}

/// The normal form and the index file, whichever `family` says, into a room around the bytes that it needs.
pub fn bytes_written(
    tally: &mut Tally,
    rng: &mut Rng,
    family: Family,
    case: Case,
    read: &Read,
) -> Outcome {
    let Case { rules, bytes } = case;
    let needed = match family {
        Family::NormalForm => bytes.len(),
        _ => 23 + 17 * read.records.len(),
    };
    let room = room(tally, rng, needed);
    let mut library = rng.bytes(room + 2 * MARGIN);
    let mut second = library.clone();
    let out = &mut library[MARGIN..MARGIN + room];
    let answer = match family {
        Family::NormalForm => case.library().normal_form(out),
        _ => case.library().write_index(out),
    };
    let out = &mut second[MARGIN..MARGIN + room];
    let expected: Result<u64, Refused> = match family {
        Family::NormalForm => second::normal_form(rules, bytes, out),
        _ => second::write_index(rules, bytes, out),
    };
    let question = || format!("{} into {room} bytes", family.name());
    tally.same(family, question, answers::number(answer), expected)?;
    tally.same_buffer(question, &library, &second)?;
    if family == Family::WriteIndex && expected.is_ok() {
        aligned::note_counters(tally, case, &read.records, "in an index file");
    }
    Ok(())
}

/// Three columns with rooms around the places that the records need.
pub fn columns_filled(tally: &mut Tally, rng: &mut Rng, case: Case, read: &Read) -> Outcome {
    let rooms = [(); 3].map(|()| room(tally, rng, read.records.len()));
    let [a, b, c] = rooms;
    let mut starts: Vec<u64> = (0..a + 2 * MARGIN).map(|_| rng.number()).collect();
    let mut ids: Vec<u16> = (0..b + 2 * MARGIN).map(|_| rng.number() as u16).collect();
    let mut counters: Vec<u32> = (0..c + 2 * MARGIN).map(|_| rng.number() as u32).collect();
    let (mut starts_2, mut ids_2, mut counters_2) = (starts.clone(), ids.clone(), counters.clone());
    let answer = case.library().fill_columns(
        &mut starts[MARGIN..MARGIN + a],
        &mut ids[MARGIN..MARGIN + b],
        &mut counters[MARGIN..MARGIN + c],
    );
    let expected = second::fill_columns(
        case.rules,
        case.bytes,
        &mut starts_2[MARGIN..MARGIN + a],
        &mut ids_2[MARGIN..MARGIN + b],
        &mut counters_2[MARGIN..MARGIN + c],
    );
    let question = || format!("columns of {rooms:?} places");
    let answer = answers::number(answer);
    tally.same(Family::FillColumns, question, answer, expected)?;
    tally.same_buffer(question, &starts, &starts_2)?;
    tally.same_buffer(question, &ids, &ids_2)?;
    tally.same_buffer(question, &counters, &counters_2)?;
    if expected.is_ok() {
        aligned::note_counters(tally, case, &read.records, "in columns");
    }
    Ok(())
}

/// A stream and its normal form hold the same records, and the normal form is its own.
pub fn same_meaning(tally: &Tally, case: Case) -> Outcome {
    let Case { rules, bytes } = case;
    let mut normal = vec![0; bytes.len()];
    if case.library().normal_form(&mut normal).is_err() {
        return Ok(());
    }
    let [own, normals] = [bytes, &normal[..]].map(|bytes| second::contents(rules, bytes));
    let question = || "records of the normal form".to_string();
    tally.same_value(question, normals, own)?;
    let mut again = vec![0; bytes.len()];
    let answer = case.with(&normal).library().normal_form(&mut again);
    let question = || "normal form of the normal form".to_string();
    tally.same_value(question, answer, Ok(bytes.len()))?;
    tally.same_buffer(question, &again, &normal)
}
