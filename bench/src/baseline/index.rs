//! The index of a stream as a file: written, and compared with a given one.

use super::headers::{u32_at, Kind};
use super::reader::{check, Record, Records};
use super::Refusal;

const FRONT: usize = 16;
const ENTRY: usize = 17;
const END: usize = 7;

fn front(stream: &[u8]) -> [u8; FRONT] {
    let mut bytes = [1, 2, 0, 1, 0, 2, 8, 0, 0, 0, 0, 0, 0, 0, 0, 0];
    bytes[8..].copy_from_slice(&(stream.len() as u64).to_le_bytes());
    bytes
}

fn entry(stream: &[u8], record: &Record) -> [u8; ENTRY] {
    let counter = match record.kind {
        Kind::Acquisition { .. } | Kind::Waveform { .. } => u32_at(stream, record.start + 16),
        _ => 0,
    };
    let mut bytes = [0; ENTRY];
    bytes[..3].copy_from_slice(&[3, 14, 0]);
    bytes[3..11].copy_from_slice(&(record.start as u64).to_le_bytes());
    bytes[11..13].copy_from_slice(&record.kind.id().to_le_bytes());
    bytes[13..].copy_from_slice(&counter.to_le_bytes());
    bytes
}

fn end(count: usize) -> [u8; END] {
    let mut bytes = [4, 4, 0, 0, 0, 0, 0];
    bytes[3..].copy_from_slice(&(count as u32).to_le_bytes());
    bytes
}

/// The length of the index file of a stream of so many records.
pub fn length(count: usize) -> usize {
    FRONT + ENTRY * count + END
}

/// Writes the index to the front of `out` and gives its length.
pub fn write_index(stream: &[u8], out: &mut [u8]) -> Result<usize, Refusal> {
    let count = check(stream)?;
    let file = out.get_mut(..length(count)).ok_or(Refusal::of(14))?;
    file[..FRONT].copy_from_slice(&front(stream));
    let (entries, last) = file[FRONT..].split_at_mut(ENTRY * count);
    for (place, record) in entries.chunks_exact_mut(ENTRY).zip(Records::of(stream)) {
        place.copy_from_slice(&entry(stream, &record?));
    }
    last.copy_from_slice(&end(count));
    Ok(length(count))
}

/// Whether a given file is the stream's index, in one walk; 15 where it is not.
pub fn index_matches(stream: &[u8], file: &[u8]) -> Result<(), Refusal> {
    let mut same = file.get(..FRONT) == Some(&front(stream)[..]);
    let mut at = FRONT;
    let mut count = 0;
    for record in Records::of(stream) {
        let record = record?;
        same = same && file.get(at..at + ENTRY) == Some(&entry(stream, &record)[..]);
        at += ENTRY;
        count += 1;
    }
    if same && file.get(at..) == Some(&end(count)[..]) {
        Ok(())
    } else {
        Err(Refusal::of(15))
    }
}
