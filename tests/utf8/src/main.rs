//! Every text of up to three bytes, sequences of four at every place of a longer one, and many drawn texts, in each kind
//! that has text: through the library's check and its writer in both profiles, beside Rust's own `std::str::from_utf8`.
//! It shares nothing with the second reader's way to tell UTF-8.
//!
//!     utf8 [count of drawn texts] [seed]

mod place;

use place::{places, Place};
use second_reader::Kind;
use std::process::ExitCode;
use std::time::Instant;
use streams::program::{number_argument, shown};
use streams::{texts, Rng};

/// Drawn texts are at most this long.
const LONGEST: usize = 200;

/// How many texts of up to three bytes are UTF-8: of each length those of characters of one byte, and of one and two,
/// and of three.
const UTF8_OF_THREE: u64 =
    1 + 128 + (128 * 128 + 1_920) + (128 * 128 * 128 + 2 * 128 * 1_920 + 61_440);

/// How many of them are as names, which end at their first zero: a name of one or two bytes less may have any bytes
/// after it.
const NAMES_OF_THREE: u64 = {
    let [one, two] = [127, 127 * 127 + 1_920];
    let three = 127 * 127 * 127 + 2 * 127 * 1_920 + 61_440;
    1 + (one + 1) + (two + one + 256) + (three + two + 256 * one + 65_536)
};

/// A text that the library answers otherwise, and how.
struct Found {
    kind: Kind,
    text: Vec<u8>,
    what: String,
}

/// What was compared: texts, and how many of them the strict profile accepts, as texts and as names.
#[derive(Clone, Copy, Default)]
struct Met {
    texts: u64,
    accepted: u64,
    names: u64,
}

impl Met {
    fn add(&mut self, other: Met) {
        self.texts += other.texts;
        self.accepted += other.accepted;
        self.names += other.names;
    }

    /// Compares one text in every kind.
    fn ask(&mut self, places: &mut [Place; 5], text: &[u8], room: bool) -> Result<(), Found> {
        self.texts += 1;
        for place in places {
            let kind = place.kind;
            let accepted = place.same(text, room).map_err(|difference| Found {
                kind,
                text: text.to_vec(),
                what: difference.0,
            })?;
            match kind {
                Kind::ConfigurationName => self.names += u64::from(accepted),
                Kind::Text => self.accepted += u64::from(accepted),
                _ => {}
            }
        }
        Ok(())
    }
}

/// All texts of up to three bytes whose first is one of these; the empty one belongs to the first share.
fn up_to_three(share: Share) -> Result<Met, Found> {
    let mut met = Met::default();
    let [mut one, mut two, mut three] = [1, 2, 3].map(places);
    if share.number == 0 {
        met.ask(&mut places(0), &[], true)?;
    }
    for a in share.of(256).map(|a| a as u8) {
        met.ask(&mut one, &[a], true)?;
        for b in 0..=u8::MAX {
            met.ask(&mut two, &[a, b], true)?;
            for c in 0..=u8::MAX {
                met.ask(&mut three, &[a, b, c], false)?;
            }
        }
    }
    Ok(met)
}

/// Bytes on both sides of each edge of what may go on in a character.
const SECOND: [u8; 11] = [
    0x00, 0x41, 0x7F, 0x80, 0x8F, 0x90, 0x9F, 0xA0, 0xBF, 0xC0, 0xF4,
];
const LATER: [u8; 4] = [0x7F, 0x80, 0xBF, 0xC2];

/// This character over and over; what is left over has characters of one byte.
fn repeated(character: &str, length: usize) -> Vec<u8> {
    let mut text = character.repeat(length / character.len()).into_bytes();
    text.resize(length, b'z');
    text
}

/// Sequences of four bytes at each place of a text of some blocks: any first byte, and later ones at the edges. What is
/// around them has characters of one byte, or of three.
fn at_each_place(share: Share) -> Result<Met, Found> {
    const LENGTH: usize = 76;
    let mut met = Met::default();
    let mut places = places(LENGTH);
    let later: Vec<[u8; 2]> = LATER.iter().flat_map(|&c| LATER.map(|d| [c, d])).collect();
    for (at, around) in (0..=36).flat_map(|at| ["a", "€"].map(|around| (at, around))) {
        let [before, after] = [at, LENGTH - at - 4].map(|length| repeated(around, length));
        let mut text = [before, vec![0; 4], after].concat();
        for first in share.of(256).map(|first| first as u8) {
            for second in SECOND {
                for &[third, fourth] in &later {
                    text[at..at + 4].copy_from_slice(&[first, second, third, fourth]);
                    met.ask(&mut places, &text, false)?;
                }
            }
        }
    }
    Ok(met)
}

/// A drawn text: UTF-8, the same with some bytes changed, one with a fault, or any bytes.
fn drawn(rng: &mut Rng) -> Vec<u8> {
    let length = 4 + rng.below(LONGEST as u64 - 3) as usize;
    let mut text = match rng.below(8) {
        0 => rng.bytes(length),
        1 | 2 => texts::any_bad(rng, length),
        _ => texts::good(rng, length),
    };
    for _ in 0..rng.below(3) {
        let at = rng.below(text.len() as u64) as usize;
        text[at] = match rng.below(2) {
            0 => rng.number() as u8,
            _ => text[at] ^ 1 << rng.below(8),
        };
    }
    text.truncate(LONGEST);
    text
}

fn drawn_texts(share: Share, count: u64, seed: u64) -> Result<Met, Found> {
    let mut met = Met::default();
    let mut by_length: Vec<[Place; 5]> = (0..=LONGEST).map(places).collect();
    for number in share.of(count) {
        let mut rng = Rng::new(Rng::new(seed).number() ^ Rng::new(number).number());
        let text = drawn(&mut rng);
        met.ask(&mut by_length[text.len()], &text, number % 16 == 0)?;
    }
    Ok(met)
}

/// Every so many-th of some numbers.
#[derive(Clone, Copy)]
struct Share {
    number: u64,
    shares: u64,
}

impl Share {
    fn of(self, count: u64) -> impl Iterator<Item = u64> {
        (self.number..count).step_by(self.shares as usize)
    }
}

/// What all processors together meet.
fn on_all(work: impl Fn(Share) -> Result<Met, Found> + Sync) -> Result<Met, Found> {
    let shares = std::thread::available_parallelism().map_or(1, usize::from) as u64;
    let work = &work;
    let done = std::thread::scope(|scope| {
        let running: Vec<_> = (0..shares)
            .map(|number| scope.spawn(move || work(Share { number, shares })))
            .collect();
        let join = |thread: std::thread::ScopedJoinHandle<_>| thread.join().expect("no panic");
        running.into_iter().map(join).collect::<Vec<_>>()
    });
    let mut all = Met::default();
    for met in done {
        all.add(met?);
    }
    Ok(all)
}

/// All of them, and what of them must have been met.
fn compared(count: u64, seed: u64) -> Result<u64, Found> {
    let three = on_all(up_to_three)?;
    assert_eq!(three.texts, 1 + (1 << 8) + (1 << 16) + (1 << 24));
    assert_eq!(
        (three.accepted, three.names),
        (UTF8_OF_THREE, NAMES_OF_THREE)
    );
    let longer = [
        on_all(at_each_place)?,
        on_all(|share| drawn_texts(share, count, seed))?,
    ];
    for met in longer {
        println!("{} texts, {} of them UTF-8", met.texts, met.accepted);
        // Either answer is no rare one.
        assert!(met.accepted > met.texts / 50 && met.accepted < met.texts - met.texts / 50);
    }
    Ok(three.texts + longer[0].texts + longer[1].texts)
}

fn main() -> ExitCode {
    let count = number_argument(1, 2_000_000);
    let seed = number_argument(2, 1);
    let begun = Instant::now();
    match compared(count, seed) {
        Ok(texts) => {
            let seconds = begun.elapsed().as_secs();
            println!("utf8: ok, {texts} texts in 5 kinds each (seed {seed}, {seconds} s)");
            ExitCode::SUCCESS
        }
        Err(found) => {
            println!("DIFFERENCE, {:?}: {}", found.kind, found.what);
            println!("text: {}", shown(&found.text));
            ExitCode::FAILURE
        }
    }
}
