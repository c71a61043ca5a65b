//! What is saved of a torn recording (document 02, E2): the messages before the fault, unchanged, and a close where they
//! have none.

use crate::kinds::Kind;
use crate::refusal::Refused;
use crate::rules::Rules;
use crate::stream::records_before_fault;

/// The most messages that are kept where a close is added: with the close they are 1,000,000.
const MOST_KEPT: usize = 999_999;

/// The report on what was saved of a stream.
#[derive(Clone, Copy, Debug, PartialEq, Eq)]
pub struct Salvage {
    /// Messages of the stream itself: its own close is one of them, an added one is not.
    pub messages_kept: u64,
    /// Bytes of the stream itself.
    pub bytes_not_kept: u64,
    pub close_added: bool,
    /// The bytes of the saved stream, an added close among them.
    pub length: u64,
}

/// What was saved of a stream: itself a stream, and the report.
#[derive(Clone, Debug, PartialEq, Eq)]
pub struct Saved {
    pub stream: Vec<u8>,
    pub report: Salvage,
}

impl Saved {
    pub fn of(rules: Rules, stream: &[u8]) -> Saved {
        let (mut kept, _) = records_before_fault(rules, stream);
        // So they are where the stream is accepted, and where its fault is bytes after a close: nothing is added then.
        let closed = kept
            .last()
            .is_some_and(|last| last.detail.kind() == Kind::Close);
        if !closed {
            kept.truncate(MOST_KEPT);
        }
        let end = kept.last().map_or(0, |last| last.start + last.size) as usize;
        let mut saved = stream[..end].to_vec();
        if !closed {
            saved.extend(Kind::Close.id().to_le_bytes());
        }
        let report = Salvage {
            messages_kept: kept.len() as u64,
            bytes_not_kept: (stream.len() - end) as u64,
            close_added: !closed,
            length: saved.len() as u64,
        };
        Saved {
            stream: saved,
            report,
        }
    }

    /// Fills the front of `output` with the saved stream, or refuses with 14; the rest keeps its content.
    pub fn write(&self, output: &mut [u8]) -> Result<Salvage, Refused> {
        if output.len() < self.stream.len() {
            return Err(Refused::Other(14));
        }
        output[..self.stream.len()].copy_from_slice(&self.stream);
        Ok(self.report)
    }
}

/// Fills the front of `output` with what can be saved of any stream, and gives the report; 14 where that does not fit.
pub fn salvage(rules: Rules, stream: &[u8], output: &mut [u8]) -> Result<Salvage, Refused> {
    Saved::of(rules, stream).write(output)
}

/// The report alone, for which no output is needed.
pub fn salvage_report(rules: Rules, stream: &[u8]) -> Salvage {
    Saved::of(rules, stream).report
}
