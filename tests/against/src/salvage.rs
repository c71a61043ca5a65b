//! What is saved of a stream (document 02, E2): the report, and the saved stream in rooms of all sorts, by both readers;
//! and of what the library saves, that it is what the request promises: accepted, the front of what was given, as long
//! as it can be, and saved again as it is.

use crate::answers::{self, Answer};
use crate::case::{raw_rules, Case};
use crate::salvage_met;
use crate::tally::{Family, Outcome, Tally};
use crate::walk::Read;
use cotterleaf::{raw, Index};
use second_reader::{self as second, Detail, Kind, Record, Rules, Salvage, Saved, NAME_FIELD};
use streams::{filler, stated, Rng};

/// Bytes before and after a given output, which must keep their content.
const MARGIN: usize = 5;

/// A stream of up to this many bytes may be asked whether a longer front of it is accepted, for each.
const SHORT: usize = 400;

/// Asks about one stream.
pub fn ask(tally: &mut Tally, rng: &mut Rng, case: Case, read: &Read) -> Outcome {
    let salvaged = Salvaged::of(case, read);
    salvaged.report(tally)?;
    salvaged.rooms(tally, rng)?;
    salvaged.accepted(tally)?;
    salvaged.again(tally)?;
    if rng.one_in(8) {
        salvaged.beside_an_index(tally)?;
    }
    if case.bytes.len() <= SHORT && rng.one_in(8) {
        salvaged.no_longer_run(tally)?;
    }
    salvaged.note(tally);
    Ok(())
}

/// A stream, and what the second reader saves of it.
struct Salvaged<'a> {
    case: Case<'a>,
    read: &'a Read,
    saved: Saved,
    /// What the stream's own answer is, as the table of salvages has it.
    row: &'static str,
}

impl<'a> Salvaged<'a> {
    fn of(case: Case<'a>, read: &'a Read) -> Salvaged<'a> {
        Salvaged {
            case,
            read,
            saved: Saved::of(case.rules, case.bytes),
            row: salvage_met::row_of(read),
        }
    }

    /// How many bytes of the stream are kept.
    fn kept(&self) -> usize {
        self.case.bytes.len() - self.saved.report.bytes_not_kept as usize
    }

    /// The records that are kept. Where more are said to be than there are, the check of what is saved shows it.
    fn kept_records(&self) -> &'a [Record] {
        let kept = self.saved.report.messages_kept as usize;
        let records = &self.read.records;
        records.get(..kept).unwrap_or(records)
    }

    /// The report with nothing lent, as the plain struct and in the wrapper's words.
    fn report(&self, tally: &Tally) -> Outcome {
        let expected = self.saved.report;
        let question = || "mrd_salvage_report".to_string();
        let library = raw::salvage_report(raw_rules(self.case.rules), self.case.bytes);
        tally.same_value(question, library, plain_salvaged(Ok(expected)))?;
        let report = self.case.library().salvage_report();
        let question = || "report of a salvage".to_string();
        tally.same_value(question, in_second_words(report), expected)?;
        // A file can be cut and closed by the report alone.
        let cut = [&self.case.bytes[report.kept()], report.added()].concat();
        let question = || "the stream cut and closed by its report".to_string();
        tally.same_buffer(question, &cut, &self.saved.stream)
    }

    /// Into rooms that are exact, a byte short, empty, longer and shorter, of which one is tried by the wrapper too.
    fn rooms(&self, tally: &mut Tally, rng: &mut Rng) -> Outcome {
        let length = self.saved.stream.len();
        let longer = length + 1 + rng.size(60) as usize;
        let shorter = rng.below(length as u64) as usize;
        let rooms = [length, length - 1, 0, longer, shorter];
        let content = rng.bytes(longer + 2 * MARGIN);
        for room in rooms {
            self.plain_struct(tally, &content[..room + 2 * MARGIN])?;
        }
        let room = rng.pick(&rooms);
        self.wrapped(tally, &content[..room + 2 * MARGIN])
    }

    /// The C function with an output of this content, given without its margins: every member, and the whole output.
    fn plain_struct(&self, tally: &mut Tally, content: &[u8]) -> Outcome {
        let room = MARGIN..content.len() - MARGIN;
        let [mut library, mut second] = [content.to_vec(), content.to_vec()];
        let out = &mut library[room.clone()];
        let answer = raw::salvage(raw_rules(self.case.rules), self.case.bytes, out);
        let expected = self.saved.write(&mut second[room.clone()]);
        let question = || format!("mrd_salvage into {} bytes", room.len());
        tally.same_value(question, answer, plain_salvaged(expected))?;
        tally.count(Family::Salvage, answer.refusal);
        tally.same_buffer(question, &library, &second)
    }

    /// The same by the wrapper.
    fn wrapped(&self, tally: &mut Tally, content: &[u8]) -> Outcome {
        let room = MARGIN..content.len() - MARGIN;
        let [mut library, mut second] = [content.to_vec(), content.to_vec()];
        let answer = self.case.library().salvage(&mut library[room.clone()]);
        let answer = answer.map(in_second_words).map_err(answers::refused);
        let expected = second::salvage(self.case.rules, self.case.bytes, &mut second[room.clone()]);
        let question = || format!("salvage into {} bytes", room.len());
        tally.same(Family::Salvage, question, answer, expected)?;
        tally.same_buffer(question, &library, &second)
    }

    /// What was saved is accepted, with the records that stood before the fault and a close; its bytes are the
    /// stream's own, from the front on, and all of them where the stream is accepted.
    fn accepted(&self, tally: &Tally) -> Outcome {
        let saved = self.case.with(&self.saved.stream);
        let report = self.saved.report;
        same_records(tally, saved, self.kept_records(), report.close_added)?;
        let question = || "the front of the saved stream".to_string();
        let kept = self.kept();
        tally.same_buffer(question, &saved.bytes[..kept], &self.case.bytes[..kept])?;
        if self.read.answer.is_ok() {
            let question = || "an accepted stream saved".to_string();
            tally.same_buffer(question, saved.bytes, self.case.bytes)?;
        }
        Ok(())
    }

    /// Saved once more it stays as it is: nothing is lost and nothing added.
    fn again(&self, tally: &Tally) -> Outcome {
        let saved = &self.saved.stream[..];
        let report = self.saved.report;
        let expected = raw::mrd_salvaged {
            messages_kept: (report.messages_kept + u64::from(report.close_added)) as usize,
            length: saved.len(),
            ..raw::mrd_salvaged::default()
        };
        let mut out = vec![0xEE; saved.len()];
        let answer = raw::salvage(raw_rules(self.case.rules), saved, &mut out);
        let question = || "salvage of the saved stream".to_string();
        tally.same_value(question, answer, expected)?;
        tally.same_buffer(question, &out, saved)
    }

    /// An index that is not the stream's own changes nothing: it is not looked at.
    fn beside_an_index(&self, tally: &mut Tally) -> Outcome {
        let stream = self.case.library().with(Index::File(&[]));
        let question = || "report of a salvage, given an empty file".to_string();
        let report = in_second_words(stream.salvage_report());
        tally.same_value(question, report, self.saved.report)?;
        let mut out = vec![0xEE; self.saved.stream.len()];
        let answer = stream.salvage(&mut out).map(in_second_words);
        let question = || "salvage, given an empty file".to_string();
        tally.same_value(question, answer, Ok(self.saved.report))?;
        tally.same_buffer(question, &out, &self.saved.stream)?;
        tally.note("wrong index beside a salvage", "not looked at");
        Ok(())
    }

    /// No longer front of the stream, alone or with a close, is one that the library accepts.
    fn no_longer_run(&self, tally: &mut Tally) -> Outcome {
        for longer in self.kept() + 1..=self.case.bytes.len() {
            let front = &self.case.bytes[..longer];
            let closed = [front, &[4, 0]].concat();
            for (bytes, how) in [(front, "alone"), (&closed, "with a close")] {
                let accepted = self.case.with(bytes).library().check().is_ok();
                let question = || format!("whether {longer} bytes are accepted {how}");
                tally.same_value(question, accepted, false)?;
                tally.note("longer front refused", how);
            }
        }
        Ok(())
    }

    /// Notes what sort of stream it was.
    fn note(&self, tally: &mut Tally) {
        let Salvage {
            messages_kept,
            close_added,
            ..
        } = self.saved.report;
        for (met, column) in [
            (true, "salvaged"),
            (close_added, "close added"),
            (messages_kept == 0, "nothing kept"),
        ] {
            if met {
                tally.salvages.note(self.case.rules, self.row, column);
            }
        }
        if self.row == salvage_met::AFTER_A_CLOSE {
            let after = &self.case.bytes[self.kept()..];
            tally.note("what follows a close", what_follows(self.case.rules, after));
        }
        let group = match close_added {
            true => "kept as stored, with an added close",
            false => "kept as stored, with its own close",
        };
        for record in self.kept_records() {
            if let Some(what) = stored_otherwise(self.case, record) {
                tally.note(group, what);
            }
        }
    }
}

/// The library's check and walk over a saved stream: these records, and a close behind them where one was added.
pub fn same_records(tally: &Tally, saved: Case, kept: &[Record], close_added: bool) -> Outcome {
    let mut records = kept.to_vec();
    if close_added {
        let end = records.last().map_or(0, |last| last.start + last.size);
        records.push(Record {
            number: records.len() as u64,
            start: end,
            size: 2,
            detail: Detail::Close,
        });
    }
    let stream = saved.library();
    let question = || "check of the saved stream".to_string();
    let count = answers::number(stream.check());
    tally.same_value(question, count, Ok(records.len() as u64))?;
    let mut walked = Vec::with_capacity(records.len());
    for record in stream.records().flatten() {
        walked.push(answers::record(*record));
    }
    let question = || "records of the saved stream".to_string();
    tally.same_buffer(question, &walked, &records)
}

/// What stands behind a close, taken by itself.
fn what_follows(rules: Rules, after: &[u8]) -> &'static str {
    let (records, refusal) = second::records_before_fault(rules, after);
    match (records.first(), refusal) {
        (Some(first), _) if first.detail.kind() == Kind::Close => "a close",
        (Some(_), _) => "another message",
        (None, Some(refusal)) if refusal.number == 1 => "one byte",
        (None, Some(refusal)) if refusal.number == 2 => "an unknown id",
        (None, _) => "a faulty message",
    }
}

/// Which bytes of a record the normal form would have another of.
fn stored_otherwise(case: Case, record: &Record) -> Option<&'static str> {
    let message = &case.bytes[record.start as usize..][..record.size as usize];
    match record.detail {
        Detail::ConfigurationName { length } => {
            let rest = &message[2..][..NAME_FIELD][length as usize..];
            let filled = rest.iter().any(|&byte| byte != 0);
            filled.then_some("filler of a name")
        }
        Detail::Image {
            attribute_length: 1..,
            ..
        } => (stated::of(case.bytes, record) == 0).then_some("0 in an image header"),
        Detail::Waveform { .. } => {
            let places = filler::places_of(case.rules, record);
            let filled = places.iter().any(|&at| case.bytes[at] != 0);
            filled.then_some("filler of a waveform header")
        }
        _ => None,
    }
}

/// The library's report.
fn in_second_words(report: cotterleaf::Salvage) -> Salvage {
    Salvage {
        messages_kept: report.messages_kept as u64,
        bytes_not_kept: report.bytes_not_kept as u64,
        close_added: report.close_added,
        length: report.length as u64,
    }
}

/// The plain struct that the C functions must give: on a refusal all but the number is 0.
pub fn plain_salvaged(answer: Answer<Salvage>) -> raw::mrd_salvaged {
    match answer {
        Ok(report) => raw::mrd_salvaged {
            refusal: 0,
            messages_kept: report.messages_kept as usize,
            bytes_not_kept: report.bytes_not_kept as usize,
            length: report.length as usize,
            close_added: report.close_added,
        },
        Err(refused) => raw::mrd_salvaged {
            refusal: refused.number(),
            ..raw::mrd_salvaged::default()
        },
    }
}
