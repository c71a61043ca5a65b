//! `extract`: one part of a record, as it lies in the stream or as an array for NumPy.

use super::written::with_output;
use super::{beside, Asked};
use crate::answer::{Answers, Status};
use crate::args::{Extracted, Options};
use crate::fault::Fault;
use crate::names::PartName;
use crate::npy;
use crate::output::Place;
use crate::pieces::Piece;
use cotterleaf::{Kind, Refusal};
use std::ffi::OsStr;
use std::io::{stdout, IsTerminal};
use std::path::Path;

/// What is to be taken out.
struct Wanted {
    number: usize,
    part: PartName,
    channel: Option<usize>,
    npy: bool,
}

pub fn run(options: &Options, given: &Extracted) -> Result<Status, Fault> {
    let wanted = Wanted::of(given);
    let place = wanted.has_a_meaning().and_then(|()| wanted.place(given));
    let file = &given.record.input.file;
    beside(options, "extract", file, place, |asked, answers, place| {
        wanted.taken(asked, answers, place)
    })
}

impl Wanted {
    fn of(given: &Extracted) -> Wanted {
        let named = given.output.as_deref().and_then(Path::extension);
        Wanted {
            number: given.record.number,
            part: given.part,
            channel: given.channel,
            npy: given.npy || named == Some(OsStr::new("npy")),
        }
    }

    /// Where it goes. A terminal is spared what is no text, unless it is named.
    fn place(&self, given: &Extracted) -> Result<Place, Fault> {
        match &given.output {
            Some(path) => Place::of(path, given.force),
            None if stdout().is_terminal() && (self.npy || !self.part.is_text()) => Err(Fault(
                "these bytes are no text for a terminal; -o X writes a file, -o - shows them all the same".into(),
            )),
            None => Ok(Place::standard()),
        }
    }

    fn has_a_meaning(&self) -> Result<(), Fault> {
        match self.part {
            PartName::Channel => Ok(()),
            part if self.channel.is_some() => Err(Fault(format!(
                "--channel is for --part channel, not for --part {}",
                part.word()
            ))),
            part if self.npy && part.is_text() => Err(Fault(format!(
                "--part {} is text and no array; leave --npy out, and name the output otherwise than .npy",
                part.word()
            ))),
            _ => Ok(()),
        }
    }

    /// The part's place, and the array's header before it.
    fn found(&self, asked: &Asked) -> Result<(Piece, Vec<u8>), Refusal> {
        let stream = asked.stream();
        let kind = stream.place(self.number)?.kind;
        let part = self.part.part(self.channel.unwrap_or(0));
        let mut at = stream.view_place(self.number, part)?;
        let all = self.part == PartName::Channel && self.channel.is_none();
        if let (
            true,
            Kind::Acquisition {
                active_channels, ..
            },
        ) = (all, kind)
        {
            let last = self.part.part(usize::from(active_channels) - 1);
            at.end = stream.view_place(self.number, last)?.end;
        }
        let header = match self.npy {
            true => npy::header(&kind, part, all).expect("what is no text is an array"),
            false => Vec::new(),
        };
        let piece = match all {
            true => Piece::channels(at),
            false => Piece::shown(part, at),
        };
        Ok((piece, header))
    }

    fn taken(&self, asked: &Asked, answers: &mut Answers, place: Place) -> Result<Status, Fault> {
        let (piece, header) = match self.found(asked) {
            Ok(found) => found,
            Err(refusal) => return asked.refused(answers, refusal),
        };
        let (name, silent) = (place.name.clone(), place.is_standard());
        let bytes = &asked.input.bytes()[piece.at.clone()];
        place.write(&[&header, bytes], || asked.input.unchanged())?;
        let length = header.len() + bytes.len();
        answers.object(|| {
            let mut object = with_output(asked.begun(&Ok(0)), &name, length);
            object.remove("records");
            object.insert("record".into(), self.number.into());
            object.insert("within".into(), piece.object());
            let format = if self.npy { "npy" } else { "raw" };
            object.insert("format".into(), format.into());
            object
        })?;
        if !silent {
            let number = self.number;
            answers.line(format_args!(
                "{name}: {piece} of record {number}, {length} bytes"
            ))?;
        }
        Ok(Status::Sound)
    }
}
