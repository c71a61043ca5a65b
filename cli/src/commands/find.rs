//! `find`: readouts by counters, scan counter and flags.

use super::list::walked;
use super::Asked;
use crate::answer::{Answers, Status};
use crate::args::Wanted;
use crate::fault::Fault;
use crate::names::flag_words;
use crate::progress::Bytes;
use crate::records::{by_counter, record_members, write_numbers, write_place, HEADING};
use cotterleaf::{flag_test, AcquisitionHeader, RecordAt, COUNTER_NAMES};
use std::io::{Result as Written, Write};

impl Wanted {
    fn is_met_by(&self, header: &AcquisitionHeader) -> bool {
        let counter = self.scan_counter;
        counter.map_or(true, |asked| header.scan_counter() == asked)
            && self.counters.match_with(&header.counters())
            && self
                .flag
                .iter()
                .all(|flag| flag_test(header.flags(), flag.0))
    }
}

/// A question about a stream: a refused one gets its refusal and nothing else.
pub fn run(asked: &Asked, answers: &mut Answers, wanted: &Wanted) -> Result<Status, Fault> {
    let span = wanted.span;
    let verdict = asked.verdict();
    if let Err(refusal) = verdict {
        return asked.refused(answers, refusal);
    }
    let mut found = 0;
    let _ = walked(asked, Bytes::beside_lines(asked), |record| {
        if span.is_full(found) {
            return Ok(false);
        }
        let header = record.acquisition();
        let header = header.filter(|header| wanted.is_met_by(header));
        if let Some(header) = header.filter(|_| record.number >= span.from) {
            if found == 0 {
                answers.line(format_args!("{HEADING}"))?;
            }
            found += 1;
            say_readout(answers, record, &header)?;
        }
        Ok(true)
    })?;
    asked.input.unchanged()?;
    answers.object(|| {
        let mut object = asked.begun(&verdict);
        object.insert("found".into(), found.into());
        object
    })?;
    answers.line(format_args!("{}: {found} found", asked.input.name))?;
    Ok(Status::sound_if(found > 0))
}

fn say_readout(
    answers: &mut Answers,
    record: &RecordAt,
    header: &AcquisitionHeader,
) -> Result<(), Fault> {
    let counters = header.counters();
    answers.object(|| {
        let mut object = record_members(record);
        object.insert("measurement_uid".into(), header.measurement_uid().into());
        object.insert("flags".into(), flag_words(header.flags()).into());
        object.insert("counters".into(), by_counter(|i| counters[i]));
        object
    })?;
    answers.words(|out| {
        write_place(out, record)?;
        write_numbers(out, record)?;
        write_counters(out, &counters)?;
        for flag in flag_words(header.flags()) {
            write!(out, ", {flag}")?;
        }
        out.write_all(b"\n")
    })
}

/// The counters that are not 0.
fn write_counters(out: &mut dyn Write, counters: &[u16; 17]) -> Written<()> {
    let named = COUNTER_NAMES.iter().zip(counters);
    for (name, counter) in named.filter(|(_, counter)| **counter != 0) {
        write!(out, ", {name} {counter}")?;
    }
    Ok(())
}
