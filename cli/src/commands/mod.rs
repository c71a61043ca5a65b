//! The commands, one file for each, and what they have in common: an input, its rules, and where answers go.

mod at;
mod check;
mod extract;
mod find;
mod gaps;
mod info;
mod list;
mod show;
mod verify;
mod written;

use crate::answer::{begun, error_members, Answers, Form, Members, Status};
use crate::args::{self, Command, CommandLine, Options};
use crate::fault::Fault;
use crate::input::Input;
use crate::manual;
use crate::output::Place;
use crate::progress;
use crate::records::counted;
use crate::system;
use clap::CommandFactory;
use cotterleaf::{Refusal, Rules, Stream};
use std::path::Path;

/// One question about one input.
pub struct Asked<'a> {
    pub command: &'static str,
    pub rules: Rules,
    pub input: &'a Input,
}

impl<'a> Asked<'a> {
    pub fn stream(&self) -> Stream<'a> {
        Stream::new(self.rules, self.input.bytes())
    }

    /// The verdict of the library.
    pub fn verdict(&self) -> Result<usize, Refusal> {
        progress::during("checking", || self.stream().check())
    }

    /// The members that the answer begins with.
    pub fn begun(&self, verdict: &Result<usize, Refusal>) -> Members {
        begun(
            self.command,
            &self.input.name,
            self.input.bytes().len(),
            verdict,
        )
    }

    /// An answer that is a refusal alone.
    pub fn refused(&self, answers: &mut Answers, refusal: Refusal) -> Result<Status, Fault> {
        self.input.unchanged()?;
        answers.object(|| self.begun(&Err(refusal)))?;
        answers.line(format_args!("{}: {refusal}", self.input.name))?;
        Ok(Status::Different)
    }

    /// The verdict as a line.
    pub fn say_verdict(
        &self,
        answers: &mut Answers,
        verdict: &Result<usize, Refusal>,
    ) -> Result<(), Fault> {
        let name = &self.input.name;
        match verdict {
            Ok(records) => {
                let records = counted(*records as u64, "record");
                let bytes = self.input.bytes().len();
                answers.line(format_args!("{name}: accepted, {records}, {bytes} bytes"))
            }
            Err(refusal) => answers.line(format_args!("{name}: {refusal}")),
        }
    }
}

impl Options {
    pub fn form(&self) -> Form {
        match (self.quiet, self.json) {
            (true, _) => Form::Nothing,
            (false, true) => Form::Json,
            (false, false) => Form::Words,
        }
    }
}

/// Answers about one input with one command.
fn answered(
    options: &Options,
    command: &'static str,
    path: &Path,
    answers: &mut Answers,
    ask: impl FnOnce(&Asked, &mut Answers) -> Result<Status, Fault>,
) -> Result<Status, Fault> {
    let file = path.to_string_lossy();
    let done = Input::open(path).and_then(|input| {
        say_if_shorter(answers, command, &file, &file);
        let asked = Asked {
            command,
            rules: options.rules(),
            input: &input,
        };
        let done = ask(&asked, answers).and_then(|status| answers.end().map(|()| status));
        done.or_else(|fault| {
            // What could not be done with a file that changed may well be due to that.
            input.unchanged()?;
            Err(fault)
        })
    });
    done.map_err(|fault| failed(command, &file, answers, fault))
}

/// Makes a fault an object too, where objects are asked for.
fn failed(command: &str, file: &str, answers: &mut Answers, fault: Fault) -> Fault {
    // Where answers themselves can't be written, the sentence on standard error remains.
    let _ = answers.object(|| error_members(command, file, &fault));
    let _ = answers.end();
    fault
}

/// Has it said where a file, or one of two, gets shorter while it is read.
fn say_if_shorter(answers: &Answers, command: &str, file: &str, read: &str) {
    let fault = Fault(format!(
        "{read} changed while it was read, or its disk failed: it became shorter; nothing was put in place; run again \
         when nothing writes to it"
    ));
    system::say_if_shorter(answers.last_lines(command, file, &fault));
}

/// Answers beside an output, whose place is looked at before anything is read.
fn beside(
    options: &Options,
    command: &'static str,
    file: &Path,
    place: Result<Place, Fault>,
    ask: impl FnOnce(&Asked, &mut Answers, Place) -> Result<Status, Fault>,
) -> Result<Status, Fault> {
    let mut answers = match &place {
        Ok(place) if place.is_standard() => Answers::aside(options.form()),
        _ => Answers::new(options.form()),
    };
    let place = place.map_err(|fault| {
        let file = file.to_string_lossy();
        failed(command, &file, &mut answers, fault)
    })?;
    answered(options, command, file, &mut answers, |asked, answers| {
        ask(asked, answers, place)
    })
}

/// Something that is about no recording.
fn printed(text: &[u8]) -> Result<Status, Fault> {
    Place::standard().write(&[text], || Ok(()))?;
    Ok(Status::Sound)
}

/// A command that only answers.
fn read(
    options: &Options,
    command: &'static str,
    input: &args::File,
    ask: impl FnOnce(&Asked, &mut Answers) -> Result<Status, Fault>,
) -> Result<Status, Fault> {
    let mut answers = Answers::new(options.form());
    answered(options, command, &input.file, &mut answers, ask)
}

/// A command that writes what the library makes of a whole stream.
fn write(
    options: &Options,
    command: &'static str,
    given: &args::Written,
    write: written::Write,
) -> Result<Status, Fault> {
    let place = Place::of(&given.output, given.force);
    beside(options, command, &given.input.file, place, write)
}

/// Runs the command that was given.
pub fn run(given: &CommandLine) -> Result<Status, Fault> {
    let options = &given.options;
    match &given.command {
        Command::Info(input) => read(options, "info", input, info::run),
        Command::Check(given) => check::run(options, &given.files),
        Command::List(given) => read(options, "list", &given.input, |asked, answers| {
            list::run(asked, answers, given)
        }),
        Command::Show(given) => read(options, "show", &given.input, |asked, answers| {
            show::run(asked, answers, given.number)
        }),
        Command::Find(given) => read(options, "find", &given.input, |asked, answers| {
            find::run(asked, answers, given)
        }),
        Command::Gaps(input) => read(options, "gaps", input, gaps::run),
        Command::Extract(given) => extract::run(options, given),
        Command::At(given) => read(options, "at", &given.input, |asked, answers| {
            at::run(asked, answers, given.byte)
        }),
        Command::Index(given) => write(options, "index", given, written::index),
        Command::Verify(given) => read(options, "verify", &given.input, |asked, answers| {
            verify::run(asked, answers, &given.index)
        }),
        Command::Normal(given) => write(options, "normal", given, written::normal),
        Command::Salvage(given) => write(options, "salvage", given, written::salvage),
        Command::Completions { shell } => printed(&completions(*shell)),
        Command::Manual => printed(manual::page(&described()).as_bytes()),
    }
}

/// The command line with all that clap adds to it.
fn described() -> clap::Command {
    let mut command = CommandLine::command();
    command.build();
    command
}

fn completions(shell: clap_complete::Shell) -> Vec<u8> {
    let mut made = Vec::new();
    clap_complete::generate(shell, &mut CommandLine::command(), "cotterleaf", &mut made);
    made
}
