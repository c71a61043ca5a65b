//! The baseline: a reader and writer of MRD message streams as one writes them in Rust for speed, with
//! slices and `from_le_bytes`, the checks of documents 01 and 02 in their order, and no allocation.

pub mod headers;
pub mod index;
pub mod normal;
pub mod parts;
pub mod questions;
pub mod reader;
pub mod salvage;
pub mod strict;
pub mod writer;

/// A whole message, id included, may have at most this many bytes (check 10).
pub const LARGEST_MESSAGE: u64 = 268_435_456;

/// No message may begin after this many messages (check 19).
pub const MOST_MESSAGES: usize = 1_000_000;

/// A configuration name's field, its zero and filler included.
pub const NAME_FIELD: usize = 1_024;

pub const ACQUISITION_HEADER: usize = 340;
pub const IMAGE_HEADER: usize = 198;
pub const WAVEFORM_HEADER: usize = 32;

/// Where an image header says its attribute length, or 0; the eight bytes after the header decide.
pub const STATED_LENGTH: usize = 194;

/// A refusal's number; `record` and `byte` say where a stream is refused and are 0 otherwise.
#[derive(Clone, Copy, Debug, PartialEq, Eq)]
pub struct Refusal {
    pub number: u32,
    pub record: usize,
    pub byte: usize,
}

impl Refusal {
    /// One that is not about the stream itself.
    pub fn of(number: u32) -> Refusal {
        Refusal {
            number,
            record: 0,
            byte: 0,
        }
    }
}
