//! What an image header says of its attributes (document 02, E1): the true length or 0, or in a faulty stream
//! some other number.

use crate::rng::Rng;
use second_reader::{numbers, Detail, Record};

/// The byte of an image message where its header says its attribute length.
const STATED: usize = 2 + 194;

/// The byte where its 8-byte attribute length starts.
const TRUE: usize = 2 + 198;

/// What a sound header says: the length, or every third time 0, as one scanner family leaves it. Of a length that
/// four bytes do not hold it can only say 0.
pub fn sound(rng: &mut Rng, length: u64) -> u64 {
    if length > u64::from(u32::MAX) || rng.one_in(3) {
        0
    } else {
        length
    }
}

/// What no header may say of attributes of this length: a number that is neither the length nor 0.
pub fn wrong(rng: &mut Rng, length: u64) -> u64 {
    loop {
        let number = match rng.below(4) {
            0 => length + 1,
            1 => length.saturating_sub(1),
            2 => length ^ 1 << rng.below(32),
            _ => rng.number() >> 32,
        };
        if number != 0 && number != length {
            return number;
        }
    }
}

/// A length of 2^32 or more with this low word.
fn past_32_bits(rng: &mut Rng, low_word: u64) -> u64 {
    low_word | 1 << (32 + rng.below(32))
}

/// What a header says and the 8-byte length, refused with 9; one of the two is mostly as given.
pub fn refused(rng: &mut Rng, length: u64) -> (u64, u64) {
    let stated = length.max(1);
    match rng.below(6) {
        // The low word.
        0 => (stated, past_32_bits(rng, stated)),
        1 => (wrong(rng, length), past_32_bits(rng, length)),
        2 => (stated, wrong(rng, stated)),
        3 => (stated, 0),
        _ => (wrong(rng, length), length),
    }
}

/// The same, and lengths of 2^32 or more whose header says 0 or the low word, which may be 0 too.
pub fn drawn(rng: &mut Rng, length: u64) -> (u64, u64) {
    match rng.below(4) {
        0 => (0, past_32_bits(rng, length)),
        1 => (length, past_32_bits(rng, length)),
        _ => refused(rng, length),
    }
}

/// Puts both numbers into an image message.
pub fn put(image: &mut [u8], stated: u64, length: u64) {
    numbers::put(image, STATED, 4, stated);
    numbers::put(image, TRUE, 8, length);
}

/// Both numbers of an image message: what its header says, and the 8-byte length.
pub fn both(image: &[u8]) -> (u64, u64) {
    (
        numbers::read(image, STATED, 4),
        numbers::read(image, TRUE, 8),
    )
}

/// What the header of an image says in this stream.
pub fn of(stream: &[u8], image: &Record) -> u64 {
    both(&stream[image.start as usize..]).0
}

/// Lets the header of an image say another number.
pub fn set(stream: &mut [u8], image: &Record, number: u64) {
    numbers::put(stream, image.start as usize + STATED, 4, number);
}

/// The images among these records, with their attribute lengths.
pub fn images(records: &[Record]) -> Vec<(Record, u64)> {
    let image = |record: &Record| match record.detail {
        Detail::Image {
            attribute_length, ..
        } => Some((*record, attribute_length)),
        _ => None,
    };
    records.iter().filter_map(image).collect()
}
