//! The inputs that the listing program is run on.

use crate::program::Delivery;
use second_reader::listing::MOST_INPUT;
use second_reader::utf8::Fault;
use second_reader::{Kind, Rules};
use streams::*;

pub struct Case {
    pub what: String,
    pub input: Vec<u8>,
    pub delivery: Delivery,
}

fn piped(what: impl Into<String>, input: Vec<u8>) -> Case {
    Case {
        what: what.into(),
        input,
        delivery: Delivery::Pipe,
    }
}

/// The inputs of every run.
pub fn fixed(rng: &mut Rng) -> Vec<Case> {
    let mut cases = examples();
    cases.extend(shortest());
    cases.extend(around_the_limit());
    for rules in Rules::PLAIN {
        cases.extend(each_cut_and_flip(rng, rules));
    }
    cases.extend(not_utf8(rng));
    cases.extend(wrapping_images(rng));
    cases
}

/// The examples of document 01 that have at most 65,536 bytes.
fn examples() -> Vec<Case> {
    let examples: [&[u8]; 11] = [
        &[4, 0],
        &[],
        &[4],
        &[4, 0, 0],
        &[6, 0],
        &[3, 0, 0, 0, 0],
        &[3, 0, 1, 0, 0, 0],
        &[5, 0, 0, 0, 0, 0],
        &[0xF0, 0x03],
        &[3, 0, 0, 0, 0, 0, 4, 0],
        &[3, 0, 0, 0, 0, 0, 0xF0, 0x03],
    ];
    examples
        .iter()
        .map(|bytes| piped("example of the paper", bytes.to_vec()))
        .collect()
}

/// Every input of one byte, and inputs of two bytes around the known ids.
fn shortest() -> Vec<Case> {
    let mut cases: Vec<Case> = (0..=u8::MAX)
        .map(|byte| piped("one byte", vec![byte]))
        .collect();
    for kind in Kind::ALL {
        for id in [
            kind.id(),
            kind.id() - 1,
            kind.id() + 1,
            kind.id().swap_bytes(),
        ] {
            cases.push(piped("an id alone", id.to_le_bytes().to_vec()));
        }
    }
    cases
}

fn close() -> Message {
    Message::empty(Rules::PACKED, Kind::Close.id())
}

/// An accepted stream of exactly `length` bytes: one text and the close.
fn text_of_length(length: usize) -> Vec<u8> {
    let mut message = Message::empty(Rules::PACKED, Kind::Text.id());
    message.text = vec![b'x'; length - 6 - 2];
    joined(&[message, close()])
}

/// Inputs at the limit and over it, accepted and refused ones, however delivered.
fn around_the_limit() -> Vec<Case> {
    let mut cases = Vec::new();
    let deliveries = [Delivery::Pipe, Delivery::File, Delivery::Pieces(10_000)];
    for delivery in deliveries {
        for length in [
            MOST_INPUT - 1,
            MOST_INPUT,
            MOST_INPUT + 1,
            2 * MOST_INPUT,
            1_000_000,
        ] {
            let inputs = [
                text_of_length(length),
                vec![0; length],
                [vec![4, 0], vec![0; length - 2]].concat(),
                [5, 0, 0, 0, 0, 0]
                    .into_iter()
                    .cycle()
                    .take(length)
                    .collect(),
            ];
            for input in inputs {
                cases.push(Case {
                    what: format!("{length} bytes, {delivery:?}"),
                    input,
                    delivery,
                });
            }
        }
    }
    // As many records as fit.
    let mut most_records = [5, 0, 0, 0, 0, 0].repeat(10_922);
    most_records.extend([4, 0]);
    cases.push(piped("10,923 records", most_records));
    cases
}

/// A short stream of five kinds with a waveform of this layout, cut after each byte and with each of its bits flipped.
fn each_cut_and_flip(rng: &mut Rng, rules: Rules) -> Vec<Case> {
    let mut cases = Vec::new();
    let mut waveform = messages::waveform(rules, rng, 0);
    waveform.set("number_of_samples", 0, 1);
    waveform.set("channels", 0, 2);
    messages::fill_parts(rng, &mut waveform);
    let text = |kind: Kind, bytes: &[u8]| {
        let mut message = Message::empty(rules, kind.id());
        message.text = bytes.to_vec();
        message
    };
    let stream = joined(&[
        text(Kind::ConfigurationText, b"c"),
        text(Kind::HeaderText, b"hd"),
        waveform,
        text(Kind::Text, b""),
        close(),
    ]);
    for length in 0..=stream.len() {
        cases.push(piped(
            format!("{:?}, cut after byte {length}", rules.layout),
            stream[..length].to_vec(),
        ));
    }
    for bit in 0..8 * stream.len() {
        let mut input = stream.clone();
        input[bit / 8] ^= 1 << (bit % 8);
        let what = format!("{:?}, bit {bit} flipped", rules.layout);
        cases.push(piped(what, input));
    }
    cases
}

/// One drawn input: well formed, damaged, or made for one refusal number; every third with aligned waveforms, which
/// the program reads as packed ones.
pub fn drawn(rng: &mut Rng, number: u64) -> Case {
    let limit = rng.pick(&[200, 2_000, 2_000, 8_000, 65_536]);
    let rules = rng.pick(&[Rules::PACKED, Rules::PACKED, Rules::ALIGNED]);
    let (what, input) = streams::drawn(rules, rng, number, limit);
    let what = format!("{:?}, {what}", rules.layout);
    let delivery = match rng.below(40) {
        0 => Delivery::Pieces(1 + input.len() / (1 + rng.below(10) as usize)),
        1 => Delivery::File,
        _ => Delivery::Pipe,
    };
    Case {
        what,
        input,
        delivery,
    }
}

/// Streams with a fault of UTF-8 in the text of each kind that has one: the program knows no strict profile.
fn not_utf8(rng: &mut Rng) -> Vec<Case> {
    let mut cases = Vec::new();
    for kind in TEXTED {
        for fault in Fault::ALL {
            let mut message = messages::message(Rules::PACKED, rng, kind, 60);
            let text = texts::bad(rng, fault, 40);
            message.set_own_text(texts::without_zeros(text));
            let header = Message::empty(Rules::PACKED, Kind::HeaderText.id());
            let front = if kind.is_data() { vec![header] } else { vec![] };
            let stream = [front, vec![message, close()]].concat();
            cases.push(piped(format!("{kind:?}, {fault:?}"), joined(&stream)));
        }
    }
    cases
}

/// Images whose size would be small if it wrapped at 64 bits.
fn wrapping_images(rng: &mut Rng) -> Vec<Case> {
    huge_images(Rules::PACKED, rng, 40_000)
        .into_iter()
        .map(|input| piped("image past 64 bits", input))
        .collect()
}
