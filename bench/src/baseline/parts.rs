//! Which record and part a byte belongs to. It walks the whole stream once, because the stream's refusal comes before
//! any other answer.

use super::headers::Kind;
use super::questions::element_around;
use super::reader::{Record, Records};
use super::{Refusal, ACQUISITION_HEADER, IMAGE_HEADER, NAME_FIELD, WAVEFORM_HEADER};
use cotterleaf::raw;

/// What a byte belongs to.
#[derive(Clone, Copy, Debug, PartialEq, Eq)]
pub struct Belongs {
    /// The record's number.
    pub record: usize,
    /// The part by its number in C, and of a channel's samples the channel.
    pub part: u32,
    pub channel: usize,
    /// Where the part lies.
    pub start: usize,
    pub length: usize,
    /// Of a header: where the element starts, and its size.
    pub element: (usize, usize),
}

/// What follows the id of a message, in order: each part with its length, and all channels as one.
fn after_id(kind: &Kind) -> [(u32, usize); 4] {
    let none = (0, 0);
    let (first, second) = kind.parts();
    let (first, second) = (first as usize, second as usize);
    match *kind {
        Kind::Name { length } => [
            (raw::MRD_PART_NAME, length),
            (raw::MRD_PART_NAME_REST, NAME_FIELD - length),
            none,
            none,
        ],
        Kind::Text { .. } => [
            (raw::MRD_PART_LENGTH, 4),
            (raw::MRD_PART_TEXT, second),
            none,
            none,
        ],
        Kind::Close => [none; 4],
        Kind::Acquisition { .. } => [
            (raw::MRD_PART_HEADER, ACQUISITION_HEADER),
            (raw::MRD_PART_TRAJECTORY, first),
            (raw::MRD_PART_CHANNEL, second),
            none,
        ],
        Kind::Image { .. } => [
            (raw::MRD_PART_HEADER, IMAGE_HEADER),
            (raw::MRD_PART_LENGTH, 8),
            (raw::MRD_PART_ATTRIBUTES, first),
            (raw::MRD_PART_PIXELS, second),
        ],
        Kind::Waveform { .. } => [
            (raw::MRD_PART_HEADER, WAVEFORM_HEADER),
            (raw::MRD_PART_WAVEFORM, second),
            none,
            none,
        ],
    }
}

/// The part of a record that a byte of it belongs to.
fn part_of(record: &Record, byte: usize) -> Belongs {
    let mut found = Belongs {
        record: record.number,
        part: raw::MRD_PART_ID,
        channel: 0,
        start: record.start,
        length: 2,
        element: (0, 0),
    };
    for (part, length) in after_id(&record.kind) {
        if byte < found.start + found.length {
            break;
        }
        found.start += found.length;
        (found.part, found.length) = (part, length);
    }
    match record.kind {
        Kind::Acquisition { samples, .. } if found.part == raw::MRD_PART_CHANNEL => {
            found.length = usize::from(samples) * 8;
            found.channel = (byte - found.start) / found.length;
            found.start += found.channel * found.length;
        }
        kind if found.part == raw::MRD_PART_HEADER => {
            found.element = element_around(&kind, byte - found.start);
        }
        _ => {}
    }
    found
}

/// The record and part of a byte.
pub fn part_at(stream: &[u8], byte: usize) -> Result<Belongs, Refusal> {
    let mut found = None;
    for record in Records::of(stream) {
        let record = record?;
        if (record.start..record.start + record.size).contains(&byte) {
            found = Some(record);
        }
    }
    found
        .map(|record| part_of(&record, byte))
        .ok_or(Refusal::of(16))
}
