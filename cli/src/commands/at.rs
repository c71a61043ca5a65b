//! `at`: which record and part a byte belongs to.

use super::Asked;
use crate::answer::{Answers, Members, Status};
use crate::fault::Fault;
use crate::header::element_word;
use crate::names::KindName;
use crate::pieces::Piece;
use crate::records::place_members;
use crate::values::{field_value, field_word};
use cotterleaf::{Field, HeaderPiece, MessagePart, PartAt, Refusal};
use serde_json::json;

/// A header element that a byte belongs to.
struct Element {
    name: String,
    offset: usize,
    size: usize,
    value: Field,
}

pub fn run(asked: &Asked, answers: &mut Answers, byte: usize) -> Result<Status, Fault> {
    let found = asked.stream().part_at(byte);
    let found = found.and_then(|found| Ok((element(asked, &found)?, found)));
    let (element, found) = match found {
        Ok(found) => found,
        Err(refusal) => return asked.refused(answers, refusal),
    };
    asked.input.unchanged()?;
    answers.object(|| object(asked, byte, &found, element.as_ref()))?;
    say(answers, byte, &found, element.as_ref())?;
    Ok(Status::Sound)
}

fn element(asked: &Asked, found: &PartAt) -> Result<Option<Element>, Refusal> {
    let MessagePart::Header(HeaderPiece::Element { offset, size }) = found.part else {
        return Ok(None);
    };
    Ok(Some(Element {
        name: element_word(asked.rules, &found.record.kind, offset),
        offset,
        size,
        value: asked.stream().field(found.record.number, offset)?,
    }))
}

fn object(asked: &Asked, byte: usize, found: &PartAt, element: Option<&Element>) -> Members {
    let mut object = asked.begun(&Ok(0));
    object.remove("records");
    object.extend(place_members(&found.record));
    object.insert("byte".into(), byte.into());
    object.insert("within".into(), Piece::around(found).object());
    if let Some(element) = element {
        let element = json!({
            "name": element.name,
            "offset": element.offset,
            "size": element.size,
            "value": field_value(element.value),
        });
        object.insert("element".into(), element);
    }
    if found.part == MessagePart::Header(HeaderPiece::Filler) {
        object.insert("filler".into(), true.into());
    }
    object
}

fn say(
    answers: &mut Answers,
    byte: usize,
    found: &PartAt,
    element: Option<&Element>,
) -> Result<(), Fault> {
    let record = &found.record;
    answers.line(format_args!(
        "byte {byte}: record {}, {}, {} bytes from byte {}",
        record.number,
        KindName::of(&record.kind).word(),
        record.size,
        record.start
    ))?;
    let within = Piece::around(found);
    answers.line(format_args!(
        "  {within}, {} bytes from byte {}: byte {} of it",
        within.at.len(),
        within.at.start,
        byte - within.at.start
    ))?;
    match (element, found.part) {
        (Some(element), _) => answers.line(format_args!(
            "  {} at offset {}: {}",
            element.name,
            element.offset,
            field_word(element.value)
        )),
        (None, MessagePart::Header(_)) => {
            answers.line(format_args!("  filler, which means nothing"))
        }
        _ => Ok(()),
    }
}
