//! `list`: a line for each record.

use super::Asked;
use crate::ahead::Ahead;
use crate::answer::{Answers, Status};
use crate::args::Listed;
use crate::fault::Fault;
use crate::names::KindName;
use crate::progress::Bytes;
use crate::records::{record_members, write_numbers, write_place, HEADING};
use cotterleaf::{RecordAt, Refusal};

pub fn run(asked: &Asked, answers: &mut Answers, given: &Listed) -> Result<Status, Fault> {
    let (span, kinds) = (given.span, &given.kind);
    answers.line(format_args!("{HEADING}"))?;
    let wanted = |record: &RecordAt| {
        record.number >= span.from
            && (kinds.is_empty() || kinds.contains(&KindName::of(&record.kind)))
    };
    let mut listed = 0;
    let shown = Bytes::beside_lines(asked);
    let verdict = walked(asked, shown, |record| {
        if span.is_full(listed) {
            return Ok(false);
        }
        if wanted(record) {
            listed += 1;
            say_record(answers, record)?;
        }
        Ok(true)
    })?;
    asked.input.unchanged()?;
    answers.object(|| {
        let mut object = asked.begun(&verdict);
        object.insert("listed".into(), listed.into());
        object
    })?;
    asked.say_verdict(answers, &verdict)?;
    Ok(Status::sound_if(verdict.is_ok()))
}

fn say_record(answers: &mut Answers, record: &RecordAt) -> Result<(), Fault> {
    answers.object(|| record_members(record))?;
    answers.words(|out| {
        write_place(out, record)?;
        write_numbers(out, record)?;
        out.write_all(b"\n")
    })
}

/// Walks over the records for as long as it is told to go on, and gives the verdict of the whole stream all the same.
pub fn walked(
    asked: &Asked,
    mut shown: Bytes,
    mut look: impl FnMut(&RecordAt) -> Result<bool, Fault>,
) -> Result<Result<usize, Refusal>, Fault> {
    let stream = asked.stream();
    let mut ahead = Ahead::of(asked.input);
    let mut records = 0;
    for record in stream.records() {
        let record = match record {
            Ok(record) => record,
            Err(refusal) => return Ok(Err(refusal)),
        };
        records += 1;
        shown.more(record.size as u64);
        ahead.pass(&record);
        if !look(&record)? {
            return Ok(stream.check_from(record.cursor()));
        }
    }
    // A walk that ends without a refusal has met every record of an accepted stream.
    Ok(Ok(records))
}
