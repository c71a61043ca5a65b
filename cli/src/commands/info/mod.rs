//! `info`: what a person wants to know of a recording first.

mod collected;
mod object;
mod words;

use super::check::{judged, other_layout, say_other_layout};
use super::list::walked;
use super::Asked;
use crate::answer::{Answers, Status};
use crate::fault::Fault;
use crate::progress::Bytes;
use collected::Collected;

pub fn run(asked: &Asked, answers: &mut Answers) -> Result<Status, Fault> {
    let mut collected = Collected::default();
    let verdict = walked(asked, Bytes::over(asked), |record| {
        collected.add(record);
        Ok(true)
    })?;
    let other = other_layout(asked, &verdict);
    asked.input.unchanged()?;
    answers.object(|| {
        let mut object = judged(asked, &verdict, other);
        object.extend(object::rules_members(asked.rules));
        object.extend(object::collected_members(&collected));
        object
    })?;
    asked.say_verdict(answers, &verdict)?;
    say_other_layout(asked, answers, other)?;
    if verdict.is_err() {
        answers.line(format_args!("before the fault:"))?;
    }
    answers.words(|out| words::write(out, &collected))?;
    Ok(Status::sound_if(verdict.is_ok()))
}
