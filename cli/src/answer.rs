//! How answers are given: in words, as JSON, or not at all.

use crate::fault::Fault;
use crate::system::LastLines;
use crate::values::write_text;
use cotterleaf::Refusal;
use serde_json::{json, Map, Value};
use std::fmt::Arguments;
use std::io::{self, BufWriter, Write};

/// How a run ends.
#[derive(Clone, Copy, Debug, PartialEq, Eq, PartialOrd, Ord)]
pub enum Status {
    /// The stream is accepted, and the question has its answer.
    Sound = 0,
    /// The stream is refused, or what was looked for is not so.
    Different = 1,
    /// Something could not be read or written, and that has been said.
    Failed = 2,
}

impl Status {
    /// Sound exactly if this holds.
    pub fn sound_if(holds: bool) -> Status {
        match holds {
            true => Status::Sound,
            false => Status::Different,
        }
    }
}

/// The form that was asked for.
#[derive(Clone, Copy, PartialEq, Eq)]
pub enum Form {
    Words,
    Json,
    Nothing,
}

/// Where answers go, in their form.
pub struct Answers {
    form: Form,
    to: To,
    out: BufWriter<Box<dyn Write>>,
}

/// Standard output or standard error.
#[derive(Clone, Copy)]
enum To {
    Output = 1,
    Error = 2,
}

/// The members of a JSON object.
pub type Members = Map<String, Value>;

/// The members of an object that is written down as one.
pub fn members(object: Value) -> Members {
    match object {
        Value::Object(members) => members,
        other => unreachable!("an object, not {other}"),
    }
}

impl Answers {
    /// To standard output.
    pub fn new(form: Form) -> Answers {
        Answers::to(form, To::Output, Box::new(io::stdout()))
    }

    /// To standard error, as standard output has the output itself.
    pub fn aside(form: Form) -> Answers {
        Answers::to(form, To::Error, Box::new(io::stderr()))
    }

    fn to(form: Form, to: To, out: Box<dyn Write>) -> Answers {
        Answers {
            form,
            to,
            out: BufWriter::with_capacity(1 << 16, out),
        }
    }

    /// A line in words; nothing in another form. A file's name may hold anything, as a text may.
    pub fn line(&mut self, words: Arguments<'_>) -> Result<(), Fault> {
        self.words(|out| {
            write_text(out, words.to_string().as_bytes())?;
            out.write_all(b"\n")
        })
    }

    /// Words that are written piece by piece; nothing in another form.
    pub fn words(
        &mut self,
        write: impl FnOnce(&mut dyn Write) -> io::Result<()>,
    ) -> Result<(), Fault> {
        if self.form != Form::Words {
            return Ok(());
        }
        let written = write(&mut self.out);
        self.said(written)
    }

    /// An object, as a line; nothing in another form.
    pub fn object(&mut self, members: impl FnOnce() -> Members) -> Result<(), Fault> {
        if self.form != Form::Json {
            return Ok(());
        }
        let written = serde_json::to_writer(&mut self.out, &members());
        let written = written.map_err(io::Error::from);
        let written = written.and_then(|()| self.out.write_all(b"\n"));
        self.said(written)
    }

    /// A fault as the lines in which it is said, where it can't be said in the usual way.
    pub fn last_lines(&self, command: &str, file: &str, fault: &Fault) -> LastLines {
        let mut lines = vec![(To::Error as i32, fault.line())];
        if self.form == Form::Json {
            let object = Value::Object(error_members(command, file, fault));
            lines.push((self.to as i32, format!("{object}\n").into_bytes()));
        }
        lines
    }

    /// Everything that was answered is out.
    pub fn end(&mut self) -> Result<(), Fault> {
        let flushed = self.out.flush();
        self.said(flushed)
    }

    fn said(&self, written: io::Result<()>) -> Result<(), Fault> {
        let name = match self.to {
            To::Output => "standard output",
            To::Error => "standard error",
        };
        written.map_err(|error| Fault::writing(name, &error))
    }
}

/// A fault as an object.
pub fn error_members(command: &str, file: &str, fault: &Fault) -> Members {
    members(json!({ "command": command, "file": file, "error": fault.0 }))
}

/// A refusal as an object.
pub fn refusal_object(refusal: &Refusal) -> Value {
    let mut object = members(json!({
        "number": refusal.number,
        "what": refusal.what(),
        "remedy": refusal.remedy(),
    }));
    if let Some(place) = refusal.place {
        object.insert("record".into(), place.record.into());
        object.insert("byte".into(), place.byte.into());
    }
    Value::Object(object)
}

/// What every answer about a stream begins with: command, file, length and the verdict. A refusal that an accepted
/// stream gives to a question is beside `accepted`.
pub fn begun(command: &str, file: &str, bytes: usize, verdict: &Result<usize, Refusal>) -> Members {
    let mut object = members(json!({
        "command": command,
        "file": file,
        "bytes": bytes,
    }));
    match verdict {
        Ok(records) => {
            object.insert("accepted".into(), true.into());
            object.insert("records".into(), (*records).into());
        }
        Err(refusal) => {
            // Only a refusal of the stream itself has a place.
            object.insert("accepted".into(), refusal.place.is_none().into());
            object.insert("refusal".into(), refusal_object(refusal));
        }
    }
    object
}
