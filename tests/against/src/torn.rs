//! Streams torn at every byte (document 02, E2): of each tear the messages that end at or before it are saved, and a
//! close where none is among them. So are short drawn streams, those of samples/ and those of field_data/.

use crate::case::{raw_rules, Case};
use crate::salvage::{plain_salvaged, same_records};
use crate::strict::NUMBERS;
use crate::tally::{Difference, Outcome, Tally};
use crate::walk::Read;
use cotterleaf::raw;
use second_reader::{self as second, Kind, Record, Rules, Saved};
use streams::Rng;

/// A drawn stream of up to this many bytes is torn often, an accepted one of up to so many more now and then.
const SHORT: usize = 300;
const LONGER: usize = 2_500;

/// Bytes before and after the output, which must keep their content.
const MARGIN: usize = 5;

/// The streams that stand in files, all of which are torn.
pub const FILES: [(&str, &[u8]); 5] = [
    (
        "all_kinds.mrd",
        include_bytes!("../../../samples/all_kinds.mrd"),
    ),
    (
        "configuration_text.mrd",
        include_bytes!("../../../samples/configuration_text.mrd"),
    ),
    (
        "aligned_waveforms.mrd",
        include_bytes!("../../../samples/aligned_waveforms.mrd"),
    ),
    (
        "phantom.mrd",
        include_bytes!("../../../field_data/phantom.mrd"),
    ),
    (
        "phantom_aligned.mrd",
        include_bytes!("../../../field_data/phantom_aligned.mrd"),
    ),
];

/// Tears some of the drawn streams.
pub fn ask(tally: &mut Tally, rng: &mut Rng, case: Case, read: &Read) -> Outcome {
    let (share, what) = match (read.answer, case.bytes.len()) {
        (Ok(_), ..=SHORT) => (8, "accepted and short"),
        (Ok(_), ..=LONGER) => (100, "accepted and longer"),
        (Err(_), ..=SHORT) => (20, "refused and short"),
        _ => return Ok(()),
    };
    if rng.one_in(share) {
        at_every_byte(tally, case, &read.records)?;
        tally.note("drawn stream torn at every byte", what);
    }
    Ok(())
}

/// A difference, and the file in which it was met.
pub type InFile = (&'static str, Difference);

/// Tears each of the files under all rules, on all processors.
pub fn files() -> Result<Tally, InFile> {
    let threads = std::thread::available_parallelism().map_or(1, usize::from);
    let shares = std::thread::scope(|scope| {
        let running: Vec<_> = (0..threads)
            .map(|share| scope.spawn(move || some_files(share, threads)))
            .collect();
        running
            .into_iter()
            .map(|thread| thread.join().expect("no panic"))
            .collect::<Vec<_>>()
    });
    let mut all = Tally::default();
    for share in shares {
        all.add(share?);
    }
    Ok(all)
}

/// The same for one of so many shares.
fn some_files(share: usize, shares: usize) -> Result<Tally, InFile> {
    let mut tally = Tally::default();
    let cases = FILES
        .iter()
        .flat_map(|file| Rules::ALL.map(|rules| (file, rules)));
    for ((name, bytes), rules) in cases.skip(share).step_by(shares) {
        let case = Case { rules, bytes };
        tally.rules = rules;
        let torn = at_every_byte(&mut tally, case, &Read::of(case).records);
        torn.map_err(|difference| (*name, difference))?;
        tally.note("file torn at every byte", name);
    }
    Ok(tally)
}

/// What must be saved of all tears between the ends of two messages.
struct Kept<'a> {
    /// The messages that end at or before the tear.
    records: &'a [Record],
    /// Where the last of them ends.
    end: usize,
    closed: bool,
    /// Their bytes, and a close where none is among them.
    saved: Vec<u8>,
}

impl<'a> Kept<'a> {
    fn of(bytes: &[u8], records: &'a [Record]) -> Kept<'a> {
        let last = records.last();
        let end = last.map_or(0, |last| last.start + last.size) as usize;
        let closed = last.is_some_and(|last| last.detail.kind() == Kind::Close);
        let close: &[u8] = if closed { &[] } else { &[4, 0] };
        Kept {
            records,
            end,
            closed,
            saved: [&bytes[..end], close].concat(),
        }
    }

    fn report(&self, tear: usize) -> second::Salvage {
        second::Salvage {
            messages_kept: self.records.len() as u64,
            bytes_not_kept: (tear - self.end) as u64,
            close_added: !self.closed,
            length: self.saved.len() as u64,
        }
    }
}

/// Every tear of a stream, the whole stream last. `records` are those before its fault, if it has one.
fn at_every_byte(tally: &mut Tally, case: Case, records: &[Record]) -> Outcome {
    let mut kept = Kept::of(case.bytes, &[]);
    accepted(tally, case, &kept)?;
    for tear in 0..=case.bytes.len() {
        let torn = case.with(&case.bytes[..tear]);
        let next = records.get(kept.records.len());
        if let Some(next) = next {
            refused_at(tally, torn, next)?;
        }
        if next.is_some_and(|next| next.start + next.size == tear as u64) {
            kept = Kept::of(case.bytes, &records[..kept.records.len() + 1]);
            accepted(tally, case, &kept)?;
        }
        torn_at(tally, torn, &kept)?;
    }
    Ok(())
}

/// The library's own answer about a stream that is torn in this message, or where it ends.
fn refused_at(tally: &mut Tally, torn: Case, message: &Record) -> Outcome {
    let kind = message.detail.kind();
    let fixed_part = 2 + kind.fixed_size(torn.rules);
    let into = torn.bytes.len() - message.start as usize;
    let (place, number) = match into {
        _ if into == message.size as usize && kind == Kind::Close => ("behind the close", 0),
        _ if into == message.size as usize => ("between two messages", 13),
        0 => ("before the first message", 13),
        1 => ("within an id", 1),
        _ if into < fixed_part => ("within a fixed part", 3),
        _ => ("behind a fixed part", 11),
    };
    let answer = torn.library().check();
    let given = answer.map_or_else(|refusal| refusal.number, |_| 0);
    let question = || format!("check of a stream torn {place}");
    tally.same_value(question, given, number)?;
    tally.note("tear", place);
    let row = match number {
        0 => "accepted",
        _ => NUMBERS[number as usize],
    };
    tally.salvages.note(torn.rules, row, "torn");
    Ok(())
}

/// The library accepts what is saved of these tears: the stream's records up to there, and the close.
fn accepted(tally: &Tally, case: Case, kept: &Kept) -> Outcome {
    same_records(tally, case.with(&kept.saved), kept.records, !kept.closed)
}

/// Both readers save just that.
fn torn_at(tally: &mut Tally, torn: Case, kept: &Kept) -> Outcome {
    let tear = torn.bytes.len();
    let report = kept.report(tear);
    let second = Saved::of(torn.rules, torn.bytes);
    let question = || format!("salvage of the first {tear} bytes, by the second reader");
    tally.same_value(question, second.report, report)?;
    tally.same_buffer(question, &second.stream, &kept.saved)?;

    let question = || format!("salvage of the first {tear} bytes");
    let rules = raw_rules(torn.rules);
    let library = raw::salvage_report(rules, torn.bytes);
    tally.same_value(question, library, plain_salvaged(Ok(report)))?;
    let mut out = vec![0xEE; kept.saved.len() + 2 * MARGIN];
    let library = raw::salvage(rules, torn.bytes, &mut out[MARGIN..][..kept.saved.len()]);
    tally.same_value(question, library, plain_salvaged(Ok(report)))?;
    let (before, rest) = out.split_at(MARGIN);
    let (saved, after) = rest.split_at(kept.saved.len());
    tally.same_buffer(question, saved, &kept.saved)?;
    let question = || format!("what lies around the salvage of the first {tear} bytes");
    tally.same_value(question, [before, after], [&[0xEE; MARGIN][..]; 2])
}
