//! `gaps`: where scan counters do not go up by one.

use super::list::walked;
use super::Asked;
use crate::answer::{members, Answers, Members, Status};
use crate::fault::Fault;
use crate::progress::Bytes;
use crate::records::counted;
use crate::steps::{Readout, Sort, Steps, Stray};
use cotterleaf::Refusal;
use serde_json::{json, Value};

/// How many of each were met.
#[derive(Default)]
pub struct Tally {
    pub readouts: u64,
    pub gaps: u64,
    pub missing: u64,
    pub repeats: u64,
    pub steps_back: u64,
}

impl Tally {
    pub fn count(&mut self, stray: &Stray) {
        match stray.sort() {
            Sort::Gap => self.gaps += 1,
            Sort::Repeat => self.repeats += 1,
            Sort::Back => self.steps_back += 1,
        }
        self.missing += stray.missing();
    }

    fn is_clean(&self) -> bool {
        self.gaps + self.repeats + self.steps_back == 0
    }
}

pub fn run(asked: &Asked, answers: &mut Answers) -> Result<Status, Fault> {
    let (mut steps, mut tally) = (Steps::default(), Tally::default());
    let verdict = walked(asked, Bytes::beside_lines(asked), |record| {
        if let Some(readout) = Readout::of(record) {
            tally.readouts += 1;
            if let Some(stray) = steps.to(readout) {
                tally.count(&stray);
                say_stray(answers, &stray)?;
            }
        }
        Ok(true)
    })?;
    asked.input.unchanged()?;
    answers.object(|| tallied(asked, &verdict, &tally))?;
    say_tally(asked, answers, &tally)?;
    if let Err(refusal) = &verdict {
        answers.line(format_args!("{}: {refusal}", asked.input.name))?;
    }
    Ok(Status::sound_if(verdict.is_ok() && tally.is_clean()))
}

fn tallied(asked: &Asked, verdict: &Result<usize, Refusal>, tally: &Tally) -> Members {
    let mut object = asked.begun(verdict);
    object.extend(members(json!({
        "readouts": tally.readouts,
        "gaps": tally.gaps,
        "missing": tally.missing,
        "repeats": tally.repeats,
        "steps_back": tally.steps_back,
    })));
    object
}

fn say_tally(asked: &Asked, answers: &mut Answers, tally: &Tally) -> Result<(), Fault> {
    answers.line(format_args!(
        "{}: {}, {} ({} missing), {}, {}",
        asked.input.name,
        counted(tally.readouts, "readout"),
        counted(tally.gaps, "gap"),
        tally.missing,
        counted(tally.repeats, "repeat"),
        match tally.steps_back {
            1 => "1 step back".to_string(),
            steps => format!("{steps} steps back"),
        },
    ))
}

fn readout_object(readout: &Readout) -> Value {
    json!({
        "record": readout.record,
        "scan_counter": readout.scan_counter,
        "measurement_uid": readout.measurement_uid,
    })
}

fn say_stray(answers: &mut Answers, stray: &Stray) -> Result<(), Fault> {
    let Stray { from, to, .. } = stray;
    answers.object(|| {
        let mut object = members(json!({
            "step": sort_word(stray.sort()),
            "counter_step": stray.counter_step,
            "from": readout_object(from),
            "to": readout_object(to),
        }));
        if stray.sort() == Sort::Gap {
            object.insert("missing".into(), stray.missing().into());
        }
        object
    })?;
    let what = match stray.sort() {
        Sort::Gap => format!("gap, {} missing", stray.missing()),
        Sort::Repeat => "repeat".to_string(),
        Sort::Back => format!("back by {}", stray.counter_step.unsigned_abs()),
    };
    let uid = match from.measurement_uid == to.measurement_uid {
        true => String::new(),
        false => format!(
            ", as measurement uid {} follows {}",
            to.measurement_uid, from.measurement_uid
        ),
    };
    answers.line(format_args!(
        "record {} to {}: scan counter {} to {}: {what}{uid}",
        from.record, to.record, from.scan_counter, to.scan_counter
    ))
}

fn sort_word(sort: Sort) -> &'static str {
    match sort {
        Sort::Gap => "gap",
        Sort::Repeat => "repeat",
        Sort::Back => "back",
    }
}
