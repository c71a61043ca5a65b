//! Questions about one record. Each walks the whole stream once, because the stream's refusal comes
//! before any other answer.

use super::headers::{u16_at, u32_at, u64_at, Kind};
use super::reader::{Record, Records};
use super::Refusal;

#[derive(Clone, Copy, Debug, PartialEq, Eq)]
pub enum Field {
    Whole(u64),
    Signed(i32),
    Float(u32),
}

#[derive(Clone, Copy, PartialEq, Eq)]
enum Element {
    U16,
    U32,
    U64,
    I32,
    F32,
}

/// A run of elements: offset, count and type.
type Run = (usize, usize, Element);

const ACQUISITION: &[Run] = &[
    (0, 1, Element::U16),
    (2, 1, Element::U64),
    (10, 6, Element::U32),
    (34, 3, Element::U16),
    (40, 16, Element::U64),
    (168, 5, Element::U16),
    (178, 16, Element::F32),
    (242, 17, Element::U16),
    (276, 8, Element::I32),
    (308, 8, Element::F32),
];

const IMAGE: &[Run] = &[
    (0, 2, Element::U16),
    (4, 1, Element::U64),
    (12, 1, Element::U32),
    (16, 3, Element::U16),
    (22, 3, Element::F32),
    (34, 1, Element::U16),
    (36, 15, Element::F32),
    (96, 6, Element::U16),
    (108, 4, Element::U32),
    (124, 3, Element::U16),
    (130, 8, Element::I32),
    (162, 8, Element::F32),
    (194, 1, Element::U32),
];

const WAVEFORM: &[Run] = &[
    (0, 1, Element::U16),
    (2, 1, Element::U64),
    (10, 3, Element::U32),
    (22, 2, Element::U16),
    (26, 1, Element::F32),
    (30, 1, Element::U16),
];

impl Element {
    fn size(self) -> usize {
        match self {
            Element::U16 => 2,
            Element::U32 | Element::I32 | Element::F32 => 4,
            Element::U64 => 8,
        }
    }

    fn read(self, header: &[u8], offset: usize) -> Field {
        match self {
            Element::U16 => Field::Whole(u64::from(u16_at(header, offset))),
            Element::U32 => Field::Whole(u64::from(u32_at(header, offset))),
            Element::U64 => Field::Whole(u64_at(header, offset)),
            Element::I32 => Field::Signed(u32_at(header, offset) as i32),
            Element::F32 => Field::Float(u32_at(header, offset)),
        }
    }
}

/// The last run of a header that starts at an offset or before it.
fn run_at(kind: &Kind, offset: usize) -> Option<Run> {
    let runs = match kind {
        Kind::Acquisition { .. } => ACQUISITION,
        Kind::Image { .. } => IMAGE,
        Kind::Waveform { .. } => WAVEFORM,
        _ => return None,
    };
    let mut runs = runs.iter().rev().copied();
    runs.find(|&(start, ..)| start <= offset)
}

/// Where the element starts that has this byte of a header, and its size. A packed header has no filler.
pub fn element_around(kind: &Kind, at: usize) -> (usize, usize) {
    let (start, _, element) = run_at(kind, at).expect("a byte of a header");
    (at - (at - start) % element.size(), element.size())
}

fn element_at(kind: &Kind, offset: usize) -> Option<Element> {
    let (start, count, element) = run_at(kind, offset)?;
    let into = offset - start;
    (into.is_multiple_of(element.size()) && into / element.size() < count).then_some(element)
}

/// Place and kind of record `n`.
pub fn place(stream: &[u8], n: usize) -> Result<Record, Refusal> {
    let mut found = None;
    for record in Records::of(stream) {
        let record = record?;
        if record.number == n {
            found = Some(record);
        }
    }
    found.ok_or(Refusal::of(16))
}

/// The element of record `n`'s header that starts at `offset`.
pub fn field(stream: &[u8], n: usize, offset: usize) -> Result<Field, Refusal> {
    let record = place(stream, n)?;
    let element = element_at(&record.kind, offset).ok_or(Refusal::of(20))?;
    Ok(element.read(&stream[record.start + 2..], offset))
}

/// The element at `offset` of the header of the record that is due where the walk stands.
pub fn field_at(walk: &Records, offset: usize) -> Result<Field, Refusal> {
    let record = walk.clone().next().ok_or(Refusal::of(16))??;
    let element = element_at(&record.kind, offset).ok_or(Refusal::of(20))?;
    Ok(element.read(&walk.stream()[record.start + 2..], offset))
}

/// The number of the first acquisition from record `n` on with these counters.
pub fn find(stream: &[u8], n: usize, counters: &[u16; 17]) -> Result<usize, Refusal> {
    let mut found = None;
    for record in Records::of(stream) {
        let record = record?;
        if found.is_none()
            && record.number >= n
            && matches!(record.kind, Kind::Acquisition { .. })
            && has_counters(&stream[record.start + 2..], counters)
        {
            found = Some(record.number);
        }
    }
    found.ok_or(Refusal::of(16))
}

fn has_counters(header: &[u8], counters: &[u16; 17]) -> bool {
    let mut stored = header[242..276].chunks_exact(2);
    counters
        .iter()
        .all(|counter| stored.next() == Some(&counter.to_le_bytes()[..]))
}
