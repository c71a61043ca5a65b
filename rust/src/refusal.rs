//! Why a call was refused, and what it says to whoever reads it.

use crate::names::SENTENCES;
use std::fmt;

/// Where a stream is refused: the faulty message's record number from 0, and the byte where it starts. For 13
/// these are the record count and the stream's length.
#[derive(Clone, Copy, Debug, PartialEq, Eq, Hash)]
pub struct Fault {
    /// The record number.
    pub record: usize,
    /// The byte of the stream.
    pub byte: usize,
}

/// A refusal: its number, 1 to 21, and where, if the stream itself is refused (1 to 13, 19 and 21). What is
/// refused about a writer's message, an index, a record's or byte's number, a part or an output has no place.
#[derive(Clone, Copy, Debug, PartialEq, Eq, Hash)]
pub struct Refusal {
    /// The number of refusal: one of [`refused`](crate::refused).
    pub number: u32,
    /// Where the stream is refused.
    pub place: Option<Fault>,
}

impl Refusal {
    /// What is wrong, without a place.
    pub fn what(&self) -> &'static str {
        self.texts().0
    }

    /// What to do about it.
    pub fn remedy(&self) -> &'static str {
        self.texts().1
    }

    fn texts(&self) -> (&'static str, &'static str) {
        let known = (self.number as usize)
            .checked_sub(1)
            .and_then(|i| SENTENCES.get(i));
        *known.unwrap_or(&(
            "the number of refusal is unknown",
            "the library and this crate may be of different versions",
        ))
    }

    /// The refusal in an answer of the library; `Ok` where its number is 0.
    pub(crate) fn in_answer(number: u32, record: usize, byte: usize) -> Result<(), Refusal> {
        match number {
            0 => Ok(()),
            1..=13 | 19 | 21 => Err(Refusal {
                number,
                place: Some(Fault { record, byte }),
            }),
            _ => Err(Refusal {
                number,
                place: None,
            }),
        }
    }
}

impl fmt::Display for Refusal {
    fn fmt(&self, f: &mut fmt::Formatter<'_>) -> fmt::Result {
        write!(f, "refused {}", self.number)?;
        if let Some(Fault { record, byte }) = self.place {
            write!(f, " at record {record}, byte {byte}")?;
        }
        write!(f, ": {}; {}.", self.what(), self.remedy())
    }
}

impl std::error::Error for Refusal {}
