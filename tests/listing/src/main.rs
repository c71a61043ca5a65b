//! Runs the listing program on many streams and compares its standard output, byte for byte,
//! with what documents 01 and 02 say, as the second reader works it out.
//!
//!     listing [count of drawn streams] [seed] [path of the program]
//!
//! Without a path it is the environment's MRD_LIST, else target/bin/mrd_list of the repository.

mod cases;
mod program;

use cases::Case;
use program::Program;
use second_reader::{Detail, Kind, Mask, Rules};
use std::collections::BTreeMap;
use std::path::PathBuf;
use std::process::ExitCode;
use streams::program::{number_argument, shown};
use streams::{short_refusals, text_at, Rng, TEXTED};

/// What a mask says. Where it differs, the acquisition's line ends in it.
const MASKS: [&str; 3] = ["not stated", "agreeing", "differing"];

fn name_of(mask: Mask) -> &'static str {
    match mask {
        Mask::NotStated => MASKS[0],
        Mask::Agrees { .. } => MASKS[1],
        Mask::Differs { .. } => MASKS[2],
    }
}

/// How often each outcome was met in runs that agreed.
#[derive(Default)]
struct Tally {
    runs: u64,
    accepted: u64,
    over_the_limit: u64,
    refusals: BTreeMap<u32, u64>,
    kinds: BTreeMap<Kind, u64>,
    masks: BTreeMap<&'static str, u64>,
    layouts: BTreeMap<&'static str, u64>,
    /// Kinds with a text that is not UTF-8, in accepted streams.
    not_utf8: BTreeMap<Kind, u64>,
    ends: BTreeMap<i32, u64>,
}

/// What the program, which reads every stream as packed, does with one of aligned waveform headers.
const LAYOUTS: [&str; 2] = ["listed as packed", "refused as packed"];

/// The refusals that the program knows: it is packed and plain.
fn refusals() -> &'static [u32] {
    short_refusals(Rules::PACKED)
}

impl Tally {
    fn note(&mut self, input: &[u8]) {
        self.runs += 1;
        if input.len() > second_reader::listing::MOST_INPUT {
            self.over_the_limit += 1;
            return;
        }
        self.note_aligned(input);
        match second_reader::records(Rules::PACKED, input) {
            Ok(records) => {
                self.accepted += 1;
                self.note_not_utf8(input);
                for record in records {
                    *self.kinds.entry(record.detail.kind()).or_default() += 1;
                    if let Detail::Acquisition { mask, .. } = record.detail {
                        *self.masks.entry(name_of(mask)).or_default() += 1;
                    }
                }
            }
            Err(refusal) => *self.refusals.entry(refusal.number).or_default() += 1,
        }
    }

    /// Notes a stream that is accepted with aligned waveform headers, unless it has no waveform.
    fn note_aligned(&mut self, input: &[u8]) {
        if let Ok(aligned) = second_reader::contents(Rules::ALIGNED, input) {
            let what = match second_reader::contents(Rules::PACKED, input) {
                Ok(packed) if packed == aligned => return,
                Ok(_) => LAYOUTS[0],
                Err(_) => LAYOUTS[1],
            };
            *self.layouts.entry(what).or_default() += 1;
        }
    }

    /// Notes an accepted stream that the strict profile refuses, by the kind of the first text that is not UTF-8.
    fn note_not_utf8(&mut self, input: &[u8]) {
        if let Err(refusal) = second_reader::check(Rules::PACKED.strict(), input) {
            let at = text_at(input, refusal).expect("21 is for texts");
            *self.not_utf8.entry(at.kind).or_default() += 1;
        }
    }

    fn print(&self) {
        println!(
            "{} runs: {} accepted, {} refused, {} over the limit",
            self.runs,
            self.accepted,
            self.refusals.values().sum::<u64>(),
            self.over_the_limit
        );
        for number in refusals() {
            let times = self.refusals.get(number).unwrap_or(&0);
            println!("refusal {number}: {times}");
        }
        for kind in Kind::ALL {
            let times = self.kinds.get(&kind).unwrap_or(&0);
            println!("kind {} ({kind:?}): {times} records listed", kind.id());
        }
        for mask in MASKS {
            let times = self.masks.get(mask).unwrap_or(&0);
            println!("mask {mask}: {times} acquisitions listed");
        }
        for layout in LAYOUTS {
            let times = self.layouts.get(layout).unwrap_or(&0);
            println!("stream with aligned waveforms {layout}: {times}");
        }
        for kind in TEXTED {
            let times = self.not_utf8.get(&kind).unwrap_or(&0);
            println!(
                "text of kind {} that is not UTF-8: {times} streams listed",
                kind.id()
            );
        }
        for (code, times) in &self.ends {
            println!("exit code {code}: {times}");
        }
    }

    /// What a run over many streams must meet and did not.
    fn missing(&self) -> Vec<String> {
        let mut missing = Vec::new();
        for number in refusals() {
            if !self.refusals.contains_key(number) {
                missing.push(format!("refusal {number}"));
            }
        }
        for kind in Kind::ALL {
            if !self.kinds.contains_key(&kind) {
                missing.push(format!("kind {}", kind.id()));
            }
        }
        for mask in MASKS {
            if !self.masks.contains_key(mask) {
                missing.push(format!("a mask that is {mask}"));
            }
        }
        for layout in LAYOUTS {
            if !self.layouts.contains_key(layout) {
                missing.push(format!("a stream with aligned waveforms {layout}"));
            }
        }
        for kind in TEXTED {
            if !self.not_utf8.contains_key(&kind) {
                missing.push(format!(
                    "a listed text of kind {} that is not UTF-8",
                    kind.id()
                ));
            }
        }
        if self.over_the_limit == 0 {
            missing.push("input over the limit".to_string());
        }
        missing
    }
}

/// What is wrong with the program's run on this case, if anything. The exit code comes back too,
/// for the tally: document 01 does not fix it.
fn difference(program: &Program, case: &Case) -> Result<i32, String> {
    let output = program
        .run(&case.input, case.delivery)
        .map_err(|error| format!("{}: {error}", program.path.display()))?;
    let expected = second_reader::listing(&case.input);
    if output.stdout != expected.as_bytes() {
        return Err(format!(
            "expected:\n{}printed:\n{}",
            shortened(&expected),
            shortened(&String::from_utf8_lossy(&output.stdout))
        ));
    }
    output
        .status
        .code()
        .ok_or_else(|| format!("the program ended by {}", output.status))
}

/// What is wrong with the program's run on an input that is over the limit and never ends, if anything.
fn endless_difference(program: &Program, on: bool) -> Result<(), String> {
    let limit = second_reader::listing::MOST_INPUT;
    let output = program
        .run_endless(&vec![0; limit + 1], on)
        .map_err(|error| format!("{}: {error}", program.path.display()))?;
    let expected = second_reader::listing(&vec![0; limit + 1]);
    match output == expected.as_bytes() {
        true => Ok(()),
        false => Err(format!("printed: {}", String::from_utf8_lossy(&output))),
    }
}

fn shortened(text: &str) -> String {
    match text.char_indices().nth(1_000) {
        Some((at, _)) => format!("{} ..\n", &text[..at]),
        None => text.to_string(),
    }
}

/// A shorter input that still shows a difference, by taking out runs of bytes.
fn shortest_difference(program: &Program, case: &Case) -> Case {
    let mut best = Case {
        what: case.what.clone(),
        input: case.input.clone(),
        delivery: case.delivery,
    };
    let mut tries = 2_000;
    let mut run = best.input.len() / 2;
    while run > 0 && tries > 0 {
        let mut at = 0;
        while at < best.input.len() && tries > 0 {
            tries -= 1;
            let mut input = best.input.clone();
            input.drain(at..(at + run).min(input.len()));
            let candidate = Case {
                what: best.what.clone(),
                input,
                delivery: best.delivery,
            };
            if difference(program, &candidate).is_err() {
                best = candidate;
            } else {
                at += run;
            }
        }
        run /= 2;
    }
    best
}

fn report(program: &Program, case: &Case, difference_found: &str) {
    println!(
        "DIFFERENCE, {} ({} bytes):\n{difference_found}",
        case.what,
        case.input.len()
    );
    let shortest = shortest_difference(program, case);
    println!(
        "shortest input found, {} bytes: {}",
        shortest.input.len(),
        shown(&shortest.input)
    );
    if let Err(text) = difference(program, &shortest) {
        println!("{text}");
    }
}

fn program_path() -> PathBuf {
    match std::env::args()
        .nth(3)
        .or_else(|| std::env::var("MRD_LIST").ok())
    {
        Some(path) => path.into(),
        None => concat!(env!("CARGO_MANIFEST_DIR"), "/../../target/bin/mrd_list").into(),
    }
}

/// Runs the program on these inputs, up to the first that shows a difference, which is reported.
fn agree(program: &Program, cases: impl Iterator<Item = Case>, tally: &mut Tally) -> bool {
    for case in cases {
        match difference(program, &case) {
            Ok(code) => {
                tally.note(&case.input);
                *tally.ends.entry(code).or_default() += 1;
            }
            Err(found) => {
                report(program, &case, &found);
                return false;
            }
        }
    }
    true
}

fn main() -> ExitCode {
    let count = number_argument(1, 4_000);
    let seed = number_argument(2, 1);
    let program = Program {
        path: program_path(),
    };

    let mut rng = Rng::new(seed);
    let fixed = cases::fixed(&mut rng);
    let drawn = (0..count).map(|number| cases::drawn(&mut rng, number));

    let mut tally = Tally::default();
    if !agree(&program, fixed.into_iter().chain(drawn), &mut tally) {
        println!("listing: FAILED after {} runs (seed {seed})", tally.runs);
        return ExitCode::FAILURE;
    }
    // One byte too many and no end yet; and bytes without end.
    let endless = endless_difference(&program, false).and(endless_difference(&program, true));
    if let Err(found) = endless {
        println!("listing: FAILED on an endless input: {found}");
        return ExitCode::FAILURE;
    }
    tally.print();
    let missing = tally.missing();
    if !missing.is_empty() {
        println!("listing: FAILED, never met: {}", missing.join(", "));
        return ExitCode::FAILURE;
    }
    println!(
        "listing: ok, {} runs without a difference (seed {seed})",
        tally.runs
    );
    ExitCode::SUCCESS
}
