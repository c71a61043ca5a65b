//! What is saved of a stream: its messages before the fault, copied as they are, and a close where they have none.

use super::headers::Kind;
use super::reader::Records;
use super::{Refusal, MOST_MESSAGES};

#[derive(Clone, Copy, Debug, PartialEq, Eq)]
pub struct Salvage {
    pub messages_kept: usize,
    pub bytes_not_kept: usize,
    pub close_added: bool,
    /// Of what is saved.
    pub length: usize,
}

/// The report, in the walk that checks the stream.
pub fn report(stream: &[u8]) -> Salvage {
    let (mut count, mut end, mut last, mut closed) = (0, 0, 0, false);
    for record in Records::of(stream).map_while(Result::ok) {
        count += 1;
        (last, end) = (record.start, record.start + record.size);
        closed = record.kind == Kind::Close;
    }
    if !closed && count == MOST_MESSAGES {
        // The last one makes way for the close.
        (count, end) = (count - 1, last);
    }
    Salvage {
        messages_kept: count,
        bytes_not_kept: stream.len() - end,
        close_added: !closed,
        length: if closed { end } else { end + 2 },
    }
}

/// Writes what is saved to the front of `out`; 14 where it is too short.
pub fn salvage(stream: &[u8], out: &mut [u8]) -> Result<Salvage, Refusal> {
    let report = report(stream);
    let out = out.get_mut(..report.length).ok_or(Refusal::of(14))?;
    let (kept, added) = out.split_at_mut(stream.len() - report.bytes_not_kept);
    kept.copy_from_slice(&stream[..kept.len()]);
    if report.close_added {
        added.copy_from_slice(&4_u16.to_le_bytes());
    }
    Ok(report)
}
