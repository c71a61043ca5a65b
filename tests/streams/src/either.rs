//! Streams that both layouts of waveform headers accept, with different records (document 02, E3).
//!
//! The numbers of samples and channels lie at different places of the two headers, so that a waveform can say one
//! size packed and another aligned.

use crate::messages::{message, Message};
use crate::rng::Rng;
use crate::texts;
use crate::well_formed::joined;
use second_reader::{numbers, Kind, Profile, Rules, Table};

fn table(rules: Rules) -> &'static Table {
    Kind::Waveform
        .table(rules)
        .expect("a waveform has a header")
}

/// Puts a header element into a waveform message, given from its id on.
fn put(rules: Rules, waveform: &mut [u8], name: &str, number: u64) {
    let entry = table(rules).entry(name).expect("an entry of a waveform");
    numbers::put(waveform, 2 + entry.offset, entry.element.size(), number);
}

/// Lets a waveform say that it has `count` numbers of data, in any number of channels.
fn put_count(rules: Rules, rng: &mut Rng, waveform: &mut [u8], count: u64) {
    let channels = match count {
        0 => rng.pick(&[0, 1, 65_535]),
        _ => loop {
            let channels = 1 + rng.below(count.min(30));
            if count / channels * channels == count {
                break channels;
            }
        },
    };
    let samples = match (count, channels) {
        (0, 0) => rng.pick(&[0, 1, 65_535]),
        (0, _) => 0,
        _ => count / channels,
    };
    put(rules, waveform, "number_of_samples", samples);
    put(rules, waveform, "channels", channels);
}

/// A waveform's bytes before its data.
fn front(rules: Rules) -> u64 {
    2 + table(rules).size as u64
}

/// Random bytes of that length that begin as a waveform does.
fn waveform_of(rng: &mut Rng, length: u64) -> Vec<u8> {
    let mut bytes = rng.bytes(length as usize);
    numbers::put(&mut bytes, 0, 2, u64::from(Kind::Waveform.id()));
    put(Rules::PACKED, &mut bytes, "version", 1);
    bytes
}

/// One waveform of one size in both layouts: the longer header has fewer numbers behind it.
fn of_one_size(rng: &mut Rng) -> Vec<u8> {
    let count = rng.size(60);
    let length = front(Rules::ALIGNED) + 4 * count;
    let mut bytes = waveform_of(rng, length);
    for rules in Rules::PLAIN {
        put_count(rules, rng, &mut bytes, (length - front(rules)) / 4);
    }
    if rng.one_in(2) {
        // Now and then both have one scan counter, and so one index.
        let counter = table(Rules::ALIGNED).whole(&bytes[2..], "scan_counter", 0);
        put(Rules::PACKED, &mut bytes, "scan_counter", counter);
    }
    bytes
}

/// A waveform and a text under the rules `two`, and one waveform that covers both under the others.
fn one_or_two(rng: &mut Rng, two: Rules) -> Vec<u8> {
    let one = two.with_other_layout();
    let count = rng.size(60);
    let shorter = front(two) + 4 * count;
    // With such a text both sizes are a header and whole numbers of four bytes.
    let text = 2 + 4 * rng.size(20);
    let longer = shorter + 6 + text;
    let mut bytes = waveform_of(rng, longer);
    numbers::put(&mut bytes, shorter as usize, 2, u64::from(Kind::Text.id()));
    numbers::put(&mut bytes, shorter as usize + 2, 4, text);
    if two.profile == Profile::Strict {
        let good = texts::good(rng, text as usize);
        bytes[shorter as usize + 6..].copy_from_slice(&good);
    }
    put_count(two, rng, &mut bytes, count);
    put_count(one, rng, &mut bytes, (longer - front(one)) / 4);
    bytes
}

/// A stream of some thousand bytes with one to four such waveforms, which both layouts accept in this profile.
pub fn accepted_by_both(profile: Profile, rng: &mut Rng) -> Vec<u8> {
    let [packed, aligned] = Rules::PLAIN.map(|plain| Rules { profile, ..plain });
    // Without a waveform a message is the same in both.
    let rules = packed;
    let mut stream = Vec::new();
    if rng.one_in(2) {
        let configuration = rng.pick(&[Kind::ConfigurationName, Kind::ConfigurationText]);
        stream.extend(message(rules, rng, configuration, 60).bytes());
    }
    stream.extend(message(rules, rng, Kind::HeaderText, 60).bytes());
    for _ in 0..1 + rng.below(4) {
        if rng.one_in(2) {
            let kind = rng.pick(&[Kind::Text, Kind::Acquisition, Kind::Image]);
            stream.extend(message(rules, rng, kind, 100).bytes());
        }
        let waveform = match rng.below(4) {
            0 => one_or_two(rng, packed),
            1 => one_or_two(rng, aligned),
            _ => of_one_size(rng),
        };
        stream.extend(waveform);
    }
    stream.extend(joined(&[Message::empty(rules, Kind::Close.id())]));
    stream
}
