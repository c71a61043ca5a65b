//! `index`, `normal` and `salvage`: what the library writes of a stream, put in place when it is whole.

use super::Asked;
use crate::answer::{Answers, Members, Status};
use crate::fault::Fault;
use crate::output::{Output, Place};
use crate::progress::during;
use crate::records::counted;
use cotterleaf::{Refusal, Salvage, Stream};
use serde_json::json;

/// A command that writes.
pub type Write = fn(&Asked, &mut Answers, Place) -> Result<Status, Fault>;

/// How long the index of a stream with so many records is.
pub fn index_length(records: usize) -> usize {
    23 + 17 * records
}

pub fn index(asked: &Asked, answers: &mut Answers, place: Place) -> Result<Status, Fault> {
    written(
        asked,
        answers,
        place,
        "index",
        index_length,
        |stream, out| stream.write_index(out),
    )
}

pub fn normal(asked: &Asked, answers: &mut Answers, place: Place) -> Result<Status, Fault> {
    let length = asked.input.bytes().len();
    let length = |_| length;
    written(
        asked,
        answers,
        place,
        "normal form",
        length,
        |stream, out| stream.normal_form(out),
    )
}

/// Checks, so that the length is known and a refused stream costs no room; then has the library write.
fn written(
    asked: &Asked,
    answers: &mut Answers,
    place: Place,
    what: &str,
    length: impl FnOnce(usize) -> usize,
    write: impl FnOnce(Stream, &mut [u8]) -> Result<usize, Refusal>,
) -> Result<Status, Fault> {
    let verdict = asked.verdict();
    let records = match verdict {
        Ok(records) => records,
        Err(refusal) => return asked.refused(answers, refusal),
    };
    let name = place.name.clone();
    let mut output = Output::new(place, length(records))?;
    let length = during("writing", || write(asked.stream(), output.bytes()));
    let length = match length {
        Ok(length) => length,
        Err(refusal) => return asked.refused(answers, refusal),
    };
    asked.input.unchanged()?;
    during("keeping", || output.put_in_place())?;
    answers.object(|| with_output(asked.begun(&verdict), &name, length))?;
    answers.line(format_args!(
        "{name}: the {what} of {}, {}, {length} bytes",
        asked.input.name,
        counted(records as u64, "record")
    ))?;
    Ok(Status::Sound)
}

/// Where an output is, and how long.
pub fn with_output(mut object: Members, name: &str, length: usize) -> Members {
    object.insert("output".into(), name.into());
    object.insert("output_bytes".into(), length.into());
    object
}

/// A refused stream is what this is for: what is written is sound.
pub fn salvage(asked: &Asked, answers: &mut Answers, place: Place) -> Result<Status, Fault> {
    let stream = asked.stream();
    let verdict = asked.verdict();
    let report = during("looking", || stream.salvage_report());
    let name = place.name.clone();
    let mut output = Output::new(place, report.length)?;
    let salvage = during("writing", || stream.salvage(output.bytes()));
    asked.input.unchanged()?;
    let salvage = match salvage {
        Ok(salvage) => salvage,
        Err(refusal) => return asked.refused(answers, refusal),
    };
    during("keeping", || output.put_in_place())?;
    answers.object(|| salvaged(asked.begun(&verdict), &name, &salvage))?;
    asked.say_verdict(answers, &verdict)?;
    say_salvage(answers, &name, &salvage)?;
    Ok(Status::Sound)
}

fn salvaged(object: Members, name: &str, salvage: &Salvage) -> Members {
    let mut object = with_output(object, name, salvage.length);
    object.extend(crate::answer::members(json!({
        "messages_kept": salvage.messages_kept,
        "bytes_not_kept": salvage.bytes_not_kept,
        "close_added": salvage.close_added,
    })));
    object
}

fn say_salvage(answers: &mut Answers, name: &str, salvage: &Salvage) -> Result<(), Fault> {
    let close = match salvage.close_added {
        true => "a close was added",
        false => "its own close is kept",
    };
    answers.line(format_args!(
        "{name}: {} kept, {close}, {} bytes; {} not kept",
        counted(salvage.messages_kept as u64, "message"),
        salvage.length,
        counted(salvage.bytes_not_kept as u64, "byte")
    ))
}
