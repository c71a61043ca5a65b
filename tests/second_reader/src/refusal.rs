//! What a refusal tells.

/// Why a stream is refused: the number, the record number from 0 and the byte where the faulty
/// message starts. For 13 these are the record count and the stream length.
#[derive(Clone, Copy, Debug, PartialEq, Eq)]
pub struct Refusal {
    pub number: u32,
    pub record: u64,
    pub byte: u64,
}

/// Why a question, the normal form or the index gets no answer. A stream refusal keeps its
/// record and byte; every other refusal is its number alone.
#[derive(Clone, Copy, Debug, PartialEq, Eq)]
pub enum Refused {
    Stream(Refusal),
    Other(u32),
}

impl Refused {
    pub fn number(self) -> u32 {
        match self {
            Refused::Stream(refusal) => refusal.number,
            Refused::Other(number) => number,
        }
    }
}

impl From<Refusal> for Refused {
    fn from(refusal: Refusal) -> Refused {
        Refused::Stream(refusal)
    }
}
