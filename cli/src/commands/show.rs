//! `show`: everything about one record.

use super::Asked;
use crate::answer::{Answers, Members, Status};
use crate::fault::Fault;
use crate::header::{elements, flags, header_object, Element};
use crate::names::{bare_flag_word, flag_words, set_flags, KindName};
use crate::pieces::{pieces, Piece};
use crate::records::{record_members, write_numbers};
use crate::values::write_text;
use cotterleaf::{Kind, Part, RecordAt, Refusal};
use serde_json::Value;
use std::borrow::Cow;
use std::io::{Result as Written, Write};

pub fn run(asked: &Asked, answers: &mut Answers, number: usize) -> Result<Status, Fault> {
    // The place by its number has the refusals; the walk to it has the cursor, at which the rest costs no walk.
    if let Err(refusal) = asked.stream().place(number) {
        return asked.refused(answers, refusal);
    }
    let record = asked.stream().records().nth(number);
    let shown = record.map(|record| record.and_then(|record| Shown::of(asked, record)));
    asked.input.unchanged()?;
    let Some(Ok(shown)) = shown else {
        return Err(Fault(format!("record {number} was not the same twice")));
    };
    answers.object(|| {
        let mut object = asked.begun(&Ok(0));
        object.remove("records");
        object.extend(shown.members());
        object
    })?;
    answers.words(|out| shown.write(out))?;
    Ok(Status::Sound)
}

/// What a record holds.
struct Shown<'a> {
    record: RecordAt<'a>,
    header: Vec<Element>,
    pieces: Vec<Piece>,
    text: Option<&'a [u8]>,
}

impl<'a> Shown<'a> {
    fn of(asked: &Asked<'a>, record: RecordAt<'a>) -> Result<Shown<'a>, Refusal> {
        let texts = [Part::Name, Part::Text, Part::Attributes];
        Ok(Shown {
            header: elements(asked.rules, &record)?,
            pieces: pieces(&asked.stream(), &record)?,
            text: texts.into_iter().find_map(|part| record.view(part).ok()),
            record,
        })
    }

    /// The flags of its header by name; none of a kind without a header.
    fn flags(&self) -> Option<Vec<String>> {
        let flags = flags(&self.header)?;
        Some(match self.record.kind {
            Kind::Acquisition { .. } => flag_words(flags),
            _ => set_flags(flags).map(bare_flag_word).collect(),
        })
    }

    fn members(&self) -> Members {
        let mut object = record_members(&self.record);
        if let Some(flags) = self.flags() {
            object.insert("flags".into(), flags.into());
            object.insert("header".into(), header_object(&self.header));
        }
        let parts: Vec<Value> = self.pieces.iter().map(Piece::object).collect();
        object.insert("parts".into(), parts.into());
        if let Some(text) = self.text {
            let text = String::from_utf8_lossy(text);
            object.insert("utf8".into(), matches!(text, Cow::Borrowed(_)).into());
            object.insert("text".into(), text.into());
        }
        object
    }

    fn write(&self, out: &mut dyn Write) -> Written<()> {
        let record = &self.record;
        let kind = KindName::of(&record.kind).word();
        write!(
            out,
            "record {}: {kind}, {} bytes",
            record.number, record.size
        )?;
        write!(out, " from byte {}", record.start)?;
        write_numbers(out, record)?;
        writeln!(out)?;
        self.write_header(out)?;
        writeln!(out, "parts")?;
        for piece in &self.pieces {
            let (start, size) = (piece.at.start, piece.at.len());
            writeln!(out, "  {piece:<26} {start:>13} {size:>11} bytes")?;
        }
        match self.text {
            None | Some([]) => Ok(()),
            Some(text) => {
                writeln!(out, "text")?;
                write_text(out, text)?;
                writeln!(out)
            }
        }
    }

    fn write_header(&self, out: &mut dyn Write) -> Written<()> {
        if self.header.is_empty() {
            return Ok(());
        }
        writeln!(out, "header")?;
        for element in &self.header {
            write!(out, "  {:<26} {}", element.name, element.words())?;
            if element.name == "flags" {
                for flag in self.flags().unwrap_or_default() {
                    write!(out, " {flag}")?;
                }
            }
            writeln!(out)?;
        }
        Ok(())
    }
}
