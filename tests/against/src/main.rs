//! Asks the library, through its Rust wrapper, and the second reader the same questions about many drawn streams
//! and compares every answer and every output byte. Each stream is asked about under the layout of waveform headers
//! and the profile of texts that it was made for, and many also under the other one of either.
//!
//!     against [count of streams] [seed] [first stream]
//!
//! A first stream other than 0 runs these streams alone, to look at a difference again: neither the limits are
//! tried then, nor are the streams in files torn, nor must everything be met.

mod aligned;
mod answers;
mod asked;
mod at_cursor;
mod attribute_length;
mod case;
mod limits;
mod part_at;
mod parts_met;
mod plain;
mod salvage;
mod salvage_limits;
mod salvage_met;
mod scalars;
mod stream;
mod strict;
mod tally;
mod torn;
mod walk;
mod writer;
mod written;

use case::Case;
use second_reader::Rules;
use std::process::ExitCode;
use std::time::Instant;
use streams::program::{number_argument, shown};
use streams::{Rng, FOR_BOTH_LAYOUTS};
use tally::{rules_name, Difference, Outcome, Tally};

/// The numbers of one stream follow from the seed and its own number alone, so that it can be drawn again.
fn rng_of(seed: u64, number: u64) -> Rng {
    let mixed = Rng::new(seed).number();
    Rng::new(mixed ^ Rng::new(number).number())
}

/// A drawn stream, what it is, and the rules that it was made for.
struct Drawn {
    rules: Rules,
    what: String,
    bytes: Vec<u8>,
}

/// Most streams are short, so that many are tried; a long one comes now and then.
fn drawn(rng: &mut Rng, number: u64) -> Drawn {
    let limit = match rng.below(200) {
        0 | 1 => 65_536,
        2..=29 => 8_000,
        30..=69 => 200,
        _ => 2_000,
    };
    let rules = rng.pick(&Rules::ALL);
    let (what, bytes) = streams::drawn(rules, rng, number, limit);
    Drawn { rules, what, bytes }
}

fn ask_all(tally: &mut Tally, rng: &mut Rng, number: u64, drawn: &Drawn) -> Outcome {
    let Drawn { rules, what, bytes } = drawn;
    let case = |rules| Case { rules, bytes };
    stream::ask(tally, rng, case(*rules))?;
    if what == FOR_BOTH_LAYOUTS || rng.one_in(4) {
        stream::ask(tally, rng, case(rules.with_other_layout()))?;
        aligned::note_both(tally, *rules, bytes);
    }
    if rng.one_in(4) {
        stream::ask(tally, rng, case(rules.with_other_profile()))?;
        strict::note_both(tally, *rules, bytes);
    }
    writer::message_written(tally, rng, *rules, number)?;
    scalars::flags_and_counters(tally, rng)?;
    tally.streams += 1;
    Ok(())
}

/// A stream about which the two readers differ.
struct Found {
    number: u64,
    made_for: String,
    bytes: Vec<u8>,
    difference: Difference,
}

/// Asks about these streams, up to the first difference.
fn ask_about(seed: u64, numbers: impl Iterator<Item = u64>) -> Result<Tally, Found> {
    let mut tally = Tally::default();
    for number in numbers {
        let mut rng = rng_of(seed, number);
        let drawn = drawn(&mut rng, number);
        if let Err(difference) = ask_all(&mut tally, &mut rng, number, &drawn) {
            return Err(Found {
                number,
                made_for: format!("{}, {}", rules_name(drawn.rules), drawn.what),
                bytes: drawn.bytes,
                difference,
            });
        }
    }
    Ok(tally)
}

/// The same on all processors, each with every so many-th stream: what is met is the same on any number of them,
/// and of several differences the one of the earliest stream is given.
fn ask_about_all(seed: u64, first: u64, count: u64) -> Result<Tally, Found> {
    let threads = std::thread::available_parallelism().map_or(1, usize::from);
    let shares = std::thread::scope(|scope| {
        let running: Vec<_> = (0..threads as u64)
            .map(|share| (first + share..first + count).step_by(threads))
            .map(|numbers| scope.spawn(move || ask_about(seed, numbers)))
            .collect();
        running
            .into_iter()
            .map(|thread| thread.join().expect("no panic"))
            .collect::<Vec<_>>()
    });
    let mut all = Tally::default();
    let mut earliest: Option<Found> = None;
    for share in shares {
        match share {
            Ok(tally) => all.add(tally),
            Err(found) if earliest.as_ref().is_some_and(|e| e.number < found.number) => {}
            Err(found) => earliest = Some(found),
        }
    }
    earliest.map_or(Ok(all), Err)
}

fn report(where_: &str, bytes: &[u8], difference: &Difference) {
    println!("DIFFERENCE, {where_}, {} bytes", bytes.len());
    println!("question: {}", difference.question);
    println!("library:  {}", difference.library);
    println!("second:   {}", difference.second);
    println!("stream:   {}", shown(bytes));
}

fn main() -> ExitCode {
    let count = number_argument(1, 300_000);
    let seed = number_argument(2, 1);
    let first = number_argument(3, 0);
    let begun = Instant::now();
    let mut tally = Tally::default();
    if first == 0 {
        let mut rng = rng_of(seed, u64::MAX);
        if let Err((bytes, difference)) = limits::limits(&mut tally, &mut rng) {
            report(&format!("seed {seed}, limits"), &bytes, &difference);
            return ExitCode::FAILURE;
        }
        match torn::files() {
            Ok(met) => tally.add(met),
            Err((file, difference)) => {
                report(&format!("{file} torn"), &[], &difference);
                return ExitCode::FAILURE;
            }
        }
    }
    match ask_about_all(seed, first, count) {
        Ok(met) => tally.add(met),
        Err(found) => {
            let where_ = format!("seed {seed}, stream {} ({})", found.number, found.made_for);
            report(&where_, &found.bytes, &found.difference);
            return ExitCode::FAILURE;
        }
    }
    tally.print();
    let missing = tally.missing();
    if first == 0 && !missing.is_empty() {
        println!("against: FAILED, never met: {}", missing.join(", "));
        return ExitCode::FAILURE;
    }
    println!(
        "against: ok, {} streams without a difference (seed {seed}, {} s)",
        tally.streams,
        begun.elapsed().as_secs()
    );
    ExitCode::SUCCESS
}
