//! `verify`: whether a kept index is the one that the stream yields.

use super::{say_if_shorter, Asked};
use crate::answer::{Answers, Status};
use crate::fault::Fault;
use crate::input::{Input, STANDARD};
use crate::records::counted;
use cotterleaf::{refused, Index, Refusal};
use serde_json::json;
use std::path::Path;

pub fn run(asked: &Asked, answers: &mut Answers, path: &Path) -> Result<Status, Fault> {
    if asked.input.name == STANDARD && path.as_os_str() == STANDARD {
        return Err(Fault(
            "standard input can be read only once; name the recording or the index".into(),
        ));
    }
    let index = Input::open(path)?;
    let (file, both) = (
        &asked.input.name,
        format!("{} or {}", asked.input.name, index.name),
    );
    say_if_shorter(answers, asked.command, file, &both);
    let matched = asked.stream().matches(Index::File(index.bytes()));
    let verdict = match matched {
        Ok(()) => asked.verdict(),
        Err(refusal) => Err(refusal),
    };
    let difference = match verdict {
        Err(refusal) if refusal.number == refused::INDEX_DIFFERS => {
            first_difference(asked, index.bytes())
        }
        _ => None,
    };
    asked.input.unchanged()?;
    index.unchanged()?;
    answers.object(|| {
        let mut object = asked.begun(&verdict);
        object.insert("index".into(), index.name.as_str().into());
        if object["accepted"] == true {
            object.insert("matches".into(), verdict.is_ok().into());
        }
        if let Some(byte) = difference {
            object.insert("difference".into(), json!({ "byte": byte }));
        }
        object
    })?;
    say(asked, answers, &index.name, &verdict, difference)?;
    Ok(Status::sound_if(verdict.is_ok()))
}

/// The first byte in which an index is not the stream's own, or at which it ends too early or goes on too long.
fn first_difference(asked: &Asked, given: &[u8]) -> Option<usize> {
    let own = own_index(asked).ok()?;
    let pairs = own.iter().zip(given);
    let differing = pairs.take_while(|(own, given)| own == given).count();
    Some(differing)
}

/// The index that the stream yields.
fn own_index(asked: &Asked) -> Result<Vec<u8>, Refusal> {
    let stream = asked.stream();
    let mut index = vec![0; super::written::index_length(stream.check()?)];
    stream.write_index(&mut index)?;
    Ok(index)
}

fn say(
    asked: &Asked,
    answers: &mut Answers,
    index: &str,
    verdict: &Result<usize, Refusal>,
    difference: Option<usize>,
) -> Result<(), Fault> {
    let name = &asked.input.name;
    match (verdict, difference) {
        (Ok(records), _) => answers.line(format_args!(
            "{index}: the index of {name}, {}",
            counted(*records as u64, "record")
        )),
        (Err(refusal), Some(byte)) => answers.line(format_args!(
            "{index}: not the index of {name}: its byte {byte} is the first that differs; {refusal}"
        )),
        (Err(refusal), None) => answers.line(format_args!("{name}: {refusal}")),
    }
}
