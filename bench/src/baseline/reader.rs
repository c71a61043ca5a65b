//! The walk over a stream: checks 1 to 13 and 19 in document 01's order.

use super::headers::{self, u32_at, u64_at, Kind};
use super::{Refusal, IMAGE_HEADER, LARGEST_MESSAGE, MOST_MESSAGES, NAME_FIELD};

#[derive(Clone, Copy, Debug, PartialEq, Eq)]
pub struct Record {
    pub number: usize,
    pub start: usize,
    pub size: usize,
    pub kind: Kind,
}

/// What a walk hands out of a record, by either reader.
#[derive(Clone, Copy, Debug, PartialEq, Eq)]
pub struct Met {
    pub start: usize,
    pub size: usize,
    pub id: u16,
    /// The number of what its mask says, and the ones counted.
    pub mask: (u16, u16),
}

impl Met {
    /// The mask is looked at here and not by the check, which has no use for it.
    #[inline]
    pub fn of(stream: &[u8], record: Record) -> Met {
        let mask = match record.kind {
            Kind::Acquisition { channels, .. } => {
                let header = stream[record.start + 2..].first_chunk();
                headers::mask(header.expect("an acquisition's header"), channels)
            }
            _ => (0, 0),
        };
        Met {
            start: record.start,
            size: record.size,
            id: record.kind.id(),
            mask,
        }
    }

    /// All of it in one number, so that none can be left out.
    #[inline]
    pub fn mixed(self) -> usize {
        let (mask, ones) = self.mask;
        self.start ^ self.size ^ usize::from(self.id) ^ usize::from(mask + (ones << 2))
    }
}

/// How far the order of messages has come.
#[derive(Clone, Copy, Debug, PartialEq, Eq, PartialOrd)]
enum Phase {
    Beginning,
    Configured,
    Header,
    Closed,
}

/// The records of a stream in order, and at a fault its refusal.
#[derive(Clone, Debug)]
pub struct Records<'a> {
    stream: &'a [u8],
    number: usize,
    start: usize,
    phase: Phase,
    refused: bool,
}

impl<'a> Records<'a> {
    pub fn of(stream: &'a [u8]) -> Records<'a> {
        Records {
            stream,
            number: 0,
            start: 0,
            phase: Phase::Beginning,
            refused: false,
        }
    }

    /// The walk that stands before this record, one of those after the header.
    pub fn before(stream: &'a [u8], record: &Record) -> Records<'a> {
        Records {
            stream,
            number: record.number,
            start: record.start,
            phase: Phase::Header,
            refused: false,
        }
    }

    pub fn stream(&self) -> &'a [u8] {
        self.stream
    }

    /// Where the walk stands before each record of an accepted stream.
    pub fn walks(mut self) -> Vec<Records<'a>> {
        let mut walks = vec![];
        loop {
            let here = self.clone();
            match self.next() {
                None => return walks,
                Some(_) => walks.push(here),
            }
        }
    }

    #[inline]
    fn judge(&self, left: &[u8]) -> Result<(Kind, Phase), u32> {
        if self.phase == Phase::Closed {
            return Err(12);
        }
        if left.is_empty() {
            return Err(13);
        }
        if self.number >= MOST_MESSAGES {
            return Err(19);
        }
        let (id, rest) = left.split_first_chunk().ok_or(1_u32)?;
        let id = u16::from_le_bytes(*id);
        let phase = next_phase(id, self.phase)?;
        let kind = kind_of(id, rest)?;
        if kind.size() > LARGEST_MESSAGE {
            return Err(10);
        }
        if kind.size() > left.len() as u64 {
            return Err(11);
        }
        Ok((kind, phase))
    }
}

/// Checks 2 and 12.
#[inline]
fn next_phase(id: u16, phase: Phase) -> Result<Phase, u32> {
    let (allowed, next) = match id {
        1 | 2 => (phase == Phase::Beginning, Phase::Configured),
        3 => (phase < Phase::Header, Phase::Header),
        4 => (true, Phase::Closed),
        5 => (true, phase),
        1008 | 1022 | 1026 => (phase == Phase::Header, phase),
        _ => return Err(2),
    };
    if allowed {
        Ok(next)
    } else {
        Err(12)
    }
}

/// Checks 3 to 9 of what follows a known id.
#[inline]
fn kind_of(id: u16, rest: &[u8]) -> Result<Kind, u32> {
    match id {
        1 => {
            let field = rest.get(..NAME_FIELD).ok_or(3_u32)?;
            let length = field.iter().position(|&byte| byte == 0).ok_or(5_u32)?;
            Ok(Kind::Name { length })
        }
        4 => Ok(Kind::Close),
        1008 => headers::acquisition(rest.first_chunk().ok_or(3_u32)?),
        1022 => {
            let fixed: &[u8; IMAGE_HEADER + 8] = rest.first_chunk().ok_or(3_u32)?;
            let header = fixed.first_chunk().expect("an image header");
            let attribute_length = u64_at(fixed, IMAGE_HEADER);
            let kind = headers::image(header, attribute_length)?;
            headers::says_length(header, attribute_length)?;
            Ok(kind)
        }
        1026 => headers::waveform(rest.first_chunk().ok_or(3_u32)?),
        _ => {
            let length = u32_at(rest.get(..4).ok_or(3_u32)?, 0);
            Ok(Kind::Text { id, length })
        }
    }
}

impl Iterator for Records<'_> {
    type Item = Result<Record, Refusal>;

    #[inline]
    fn next(&mut self) -> Option<Self::Item> {
        let left = &self.stream[self.start..];
        if self.refused || (self.phase == Phase::Closed && left.is_empty()) {
            return None;
        }
        let (number, start) = (self.number, self.start);
        match self.judge(left) {
            Ok((kind, phase)) => {
                let size = kind.size() as usize;
                self.number += 1;
                self.start += size;
                self.phase = phase;
                Some(Ok(Record {
                    number,
                    start,
                    size,
                    kind,
                }))
            }
            Err(refusal) => {
                self.refused = true;
                Some(Err(Refusal {
                    number: refusal,
                    record: number,
                    byte: start,
                }))
            }
        }
    }
}

/// The number of records of an accepted stream.
pub fn check(stream: &[u8]) -> Result<usize, Refusal> {
    let mut count = 0;
    for record in Records::of(stream) {
        record?;
        count += 1;
    }
    Ok(count)
}
