//! What names, texts and attributes hold (document 02, E9): UTF-8 of characters of one to four bytes, or bytes that
//! are not UTF-8 by a fault of each sort. Lengths lie often around multiples of 32, as code may go by blocks.

use crate::rng::Rng;
use second_reader::utf8::Fault;
use second_reader::{Profile, Rules};
use std::ops::RangeInclusive;

/// The numbers of characters of one, two, three and four bytes, surrogates among them.
const NUMBERS: [(u32, u32); 4] = [
    (0, 0x7F),
    (0x80, 0x7FF),
    (0x800, 0xFFFF),
    (0x1_0000, 0x10_FFFF),
];

/// Numbers at the edges of what RFC 3629 lets stand, and two that other rules keep out.
const EDGES: [u32; 15] = [
    0, 0x7F, 0x80, 0x7FF, 0x800, 0xFFF, 0x1000, 0xD7FF, 0xE000, 0xFEFF, 0xFFFE, 0xFFFF, 0x1_0000,
    0x3_FFFF, 0x10_FFFF,
];

/// A character of this many bytes.
fn character(rng: &mut Rng, octets: usize) -> char {
    let (first, last) = NUMBERS[octets - 1];
    loop {
        let number = match rng.below(3) {
            0 => rng.pick(&EDGES),
            _ => first + rng.below(u64::from(last - first) + 1) as u32,
        };
        let drawn = char::from_u32(number).filter(|_| (first..=last).contains(&number));
        if let Some(character) = drawn {
            return character;
        }
    }
}

fn bytes_of(character: char) -> Vec<u8> {
    character.to_string().into_bytes()
}

/// Of how many bytes the characters of a text are.
#[derive(Clone, Copy)]
enum Widths {
    One,
    Of(usize),
    Any,
}

fn put_characters(rng: &mut Rng, text: &mut Vec<u8>, length: usize, widths: Widths) {
    let end = text.len() + length;
    while text.len() < end {
        let octets = match widths {
            Widths::One => 1,
            Widths::Of(octets) => octets,
            Widths::Any => 1 + rng.below(4) as usize,
        };
        let fits = octets.min(end - text.len());
        let character = character(rng, fits);
        text.extend_from_slice(character.encode_utf8(&mut [0; 4]).as_bytes());
    }
}

/// UTF-8 of exactly this many bytes: of one byte each but for at most one character, of one width, or of any.
pub fn good(rng: &mut Rng, length: usize) -> Vec<u8> {
    let mut text = Vec::new();
    match rng.below(4) {
        0 => {
            let octets = (2 + rng.below(3) as usize).min(length.max(1));
            let before = rng.below((length.saturating_sub(octets) + 1) as u64) as usize;
            put_characters(rng, &mut text, before, Widths::One);
            put_characters(rng, &mut text, octets.min(length), Widths::Of(octets));
        }
        1 => {
            let octets = 1 + rng.below(4) as usize;
            put_characters(rng, &mut text, length, Widths::Of(octets));
        }
        _ => put_characters(rng, &mut text, length, Widths::Any),
    }
    let left = length - text.len();
    put_characters(rng, &mut text, left, Widths::One);
    text
}

fn between(rng: &mut Rng, range: RangeInclusive<u8>) -> u8 {
    range.start() + rng.below(range.len() as u64) as u8
}

/// An octet that goes on in a character.
fn continuation(rng: &mut Rng) -> u8 {
    between(rng, 0x80..=0xBF)
}

/// A character of two to four bytes in two pieces, neither of them empty.
pub fn split_character(rng: &mut Rng) -> (Vec<u8>, Vec<u8>) {
    let octets = 2 + rng.below(3) as usize;
    let mut half = bytes_of(character(rng, octets));
    let rest = half.split_off(1 + rng.below(octets as u64 - 1) as usize);
    (half, rest)
}

/// A sequence whose first two octets are drawn from these, and `more` that go on.
fn sequence(
    rng: &mut Rng,
    first: RangeInclusive<u8>,
    second: RangeInclusive<u8>,
    more: usize,
) -> Vec<u8> {
    let mut sequence = vec![between(rng, first), between(rng, second)];
    sequence.extend((0..more).map(|_| continuation(rng)));
    sequence
}

/// The bytes of one fault, and of what makes it one.
fn faulty(rng: &mut Rng, fault: Fault) -> Vec<u8> {
    match fault {
        Fault::Continuation => vec![continuation(rng)],
        Fault::NoForm if rng.one_in(2) => vec![between(rng, 0xF8..=0xFF)],
        // What were sequences of five and six octets before RFC 3629.
        Fault::NoForm => sequence(rng, 0xF8..=0xFD, 0x80..=0xBF, 3),
        Fault::CutByEnd => split_character(rng).0,
        Fault::CutByOther => {
            let octets = 1 + rng.below(4) as usize;
            [split_character(rng).0, bytes_of(character(rng, octets))].concat()
        }
        Fault::OverlongTwo => sequence(rng, 0xC0..=0xC1, 0x80..=0xBF, 0),
        Fault::OverlongThree => sequence(rng, 0xE0..=0xE0, 0x80..=0x9F, 1),
        Fault::OverlongFour => sequence(rng, 0xF0..=0xF0, 0x80..=0x8F, 2),
        Fault::Surrogate => sequence(rng, 0xED..=0xED, 0xA0..=0xBF, 1),
        Fault::Above if rng.one_in(2) => sequence(rng, 0xF4..=0xF4, 0x90..=0xBF, 2),
        Fault::Above => sequence(rng, 0xF5..=0xF7, 0x80..=0xBF, 2),
    }
}

/// Bytes that are UTF-8 up to a fault of this sort: as many as asked for, or as the fault needs.
pub fn bad(rng: &mut Rng, fault: Fault, length: usize) -> Vec<u8> {
    let faulty = faulty(rng, fault);
    let room = length.saturating_sub(faulty.len());
    let before = match fault {
        Fault::CutByEnd => room,
        _ => rng.below(room as u64 + 1) as usize,
    };
    [good(rng, before), faulty, good(rng, room - before)].concat()
}

/// The same by a fault of any sort.
pub fn any_bad(rng: &mut Rng, length: usize) -> Vec<u8> {
    let fault = rng.pick(&Fault::ALL);
    bad(rng, fault, length)
}

/// A text that these rules accept, of about this many bytes: in the plain profile any bytes.
pub fn accepted(rules: Rules, rng: &mut Rng, length: usize) -> Vec<u8> {
    match (rules.profile, rng.below(3)) {
        (Profile::Strict, _) | (Profile::Plain, 0) => good(rng, length),
        (Profile::Plain, 1) => any_bad(rng, length),
        (Profile::Plain, _) => rng.bytes(length),
    }
}

/// The same without a zero, as a name is. A zero is a character of its own, so that another of one byte can stand for
/// it.
pub fn accepted_name(rules: Rules, rng: &mut Rng, length: usize) -> Vec<u8> {
    without_zeros(accepted(rules, rng, length))
}

pub fn without_zeros(text: Vec<u8>) -> Vec<u8> {
    text.into_iter().map(|byte| byte.max(1)).collect()
}

/// A length of at most `most`: small ones, some up to it, and many around multiples of 32.
pub fn length(rng: &mut Rng, most: u64) -> usize {
    let length = match rng.below(4) {
        0 => 32 * (1 + rng.below(6)) + rng.below(3) - 1,
        _ => rng.size(most),
    };
    length.min(most) as usize
}
