//! `check`: the verdict for each file.

use super::{answered, Asked};
use crate::answer::{Answers, Members, Status};
use crate::args::Options;
use crate::fault::Fault;
use crate::input::STANDARD;
use cotterleaf::{Layout, Refusal, Stream};
use std::path::PathBuf;

/// Each file by itself: one that can't be read does not keep the others from being checked.
pub fn run(options: &Options, files: &[PathBuf]) -> Result<Status, Fault> {
    let standard = files.iter().filter(|file| file.as_os_str() == STANDARD);
    if standard.count() > 1 {
        return Err(Fault(
            "standard input can be read only once; give - once".into(),
        ));
    }
    let mut answers = Answers::new(options.form());
    let mut worst = Status::Sound;
    for file in files {
        let status = answered(options, "check", file, &mut answers, check);
        worst = worst.max(status.unwrap_or_else(|fault| {
            fault.say();
            Status::Failed
        }));
    }
    Ok(worst)
}

fn check(asked: &Asked, answers: &mut Answers) -> Result<Status, Fault> {
    let verdict = asked.verdict();
    let other = other_layout(asked, &verdict);
    asked.input.unchanged()?;
    answers.object(|| judged(asked, &verdict, other))?;
    asked.say_verdict(answers, &verdict)?;
    say_other_layout(asked, answers, other)?;
    Ok(Status::sound_if(verdict.is_ok()))
}

/// The verdict, and of a refused stream whether the other layout accepts it.
pub fn judged(asked: &Asked, verdict: &Result<usize, Refusal>, other: Option<Layout>) -> Members {
    let mut object = asked.begun(verdict);
    if verdict.is_err() {
        object.insert("other_layout_accepted".into(), other.is_some().into());
    }
    object
}

/// The layout with which a refused stream is accepted, if the other one does.
pub fn other_layout(asked: &Asked, verdict: &Result<usize, Refusal>) -> Option<Layout> {
    verdict.as_ref().err()?;
    let mut rules = asked.rules;
    rules.layout = match rules.layout {
        Layout::Packed => Layout::Aligned,
        Layout::Aligned => Layout::Packed,
    };
    let other = Stream::new(rules, asked.input.bytes());
    other.check().ok().map(|_| rules.layout)
}

/// What to do where the layout was the wrong one.
pub fn say_other_layout(
    asked: &Asked,
    answers: &mut Answers,
    other: Option<Layout>,
) -> Result<(), Fault> {
    let Some(layout) = other else {
        return Ok(());
    };
    let name = &asked.input.name;
    let layout = layout_word(layout);
    answers.line(format_args!(
        "{name}: with --layout {layout} it is accepted"
    ))
}

pub fn layout_word(layout: Layout) -> &'static str {
    match layout {
        Layout::Packed => "packed",
        Layout::Aligned => "aligned",
    }
}
