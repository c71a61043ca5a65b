//! The questions about the record where a walk stands, or where a cursor from the stream's own columns does, against
//! the second reader's answers by number.

use crate::answers;
use crate::asked::{name_of, second_view, GivenIndex};
use crate::case::{library_rules, Case};
use crate::tally::{Family, Outcome, Tally};
use crate::walk::Read;
use cotterleaf::{Cursor, Part, Refusal, Step, Stream};
use second_reader as second;

/// The cursor before record n, or that of the end or the fault where the stream has fewer.
fn cursor_before(stream: &Stream, n: u64) -> Cursor {
    let mut cursor = Cursor::beginning();
    for _ in 0..n {
        match stream.step(cursor) {
            Step::Record(_, next) => cursor = next,
            Step::End(_) => break,
        }
    }
    cursor
}

/// A view and a field where the walk stands before record n, and at the cursor for it from the columns. Of a refused
/// stream the answer at the fault alone is compared: the second reader gives no views of the records before it.
pub fn asked_at(
    tally: &mut Tally,
    case: Case,
    read: &Read,
    (n, part): (u64, Part),
    (m, offset): (u64, u64),
) -> Outcome {
    let stream = case.library();
    if let Err(refusal) = read.answer {
        let cursor = cursor_before(&stream, read.count());
        view_at(tally, case, Ok(cursor), part, Err(refusal.into()))?;
        return field_at(tally, case, Ok(cursor), offset, Err(refusal.into()));
    }
    let (starts, ids) = columns(case, read);
    let walked = |n| Ok(cursor_before(&stream, n));
    let under = |rules, n| Cursor::for_record(library_rules(rules), &starts, &ids, n as usize);
    let indexed = |n| under(case.rules, n);
    // The columns alone make the cursor: no text is looked at.
    let other_profile = under(case.rules.with_other_profile(), n);
    let question = || format!("cursor for record {n} in the other profile");
    tally.same_value(question, other_profile, indexed(n))?;
    let none = GivenIndex::None;
    let by_number = second_view(case, none.second(), n, part);
    view_at(tally, case, walked(n), part, by_number)?;
    view_at(tally, case, indexed(n), part, by_number)?;
    let by_number = second::field(case.rules, case.bytes, none.second(), m, offset);
    field_at(tally, case, walked(m), offset, by_number)?;
    field_at(tally, case, indexed(m), offset, by_number)
}

/// Starts and ids of an accepted stream, as the second reader has them.
fn columns(Case { rules, bytes }: Case, read: &Read) -> (Vec<u64>, Vec<u16>) {
    let count = read.records.len();
    let (mut starts, mut ids) = (vec![0; count], vec![0; count]);
    let filled = second::fill_columns(rules, bytes, &mut starts, &mut ids, &mut vec![0; count]);
    assert_eq!(filled, Ok(count as u64));
    (starts, ids)
}

fn view_at(
    tally: &mut Tally,
    case: Case,
    cursor: Result<Cursor, Refusal>,
    part: Part,
    expected: answers::Answer<second::Part>,
) -> Outcome {
    let stream = case.library();
    let place = cursor.and_then(|cursor| stream.view_place_at(cursor, part));
    let place = place.map(answers::part);
    let view = cursor.and_then(|cursor| stream.view_at(cursor, part));
    let by_address = view.map(|view| answers::part_by_address(case.bytes, view));
    let question = || format!("{part:?} at {cursor:?}");
    if expected.is_ok() {
        tally.note("view where a walk stands", name_of(part));
    }
    let place = place.map_err(answers::refused);
    tally.same(Family::View, question, place, expected)?;
    let by_address = by_address.map_err(answers::refused);
    tally.same(Family::View, question, by_address, expected)
}

fn field_at(
    tally: &mut Tally,
    case: Case,
    cursor: Result<Cursor, Refusal>,
    offset: u64,
    expected: answers::Answer<second::Field>,
) -> Outcome {
    let stream = case.library();
    let field = cursor.and_then(|cursor| stream.field_at(cursor, offset as usize));
    let field = field.map(answers::field);
    let question = || format!("field {offset} at {cursor:?}");
    tally.same(
        Family::Field,
        question,
        field.map_err(answers::refused),
        expected,
    )
}
