//! What can be saved of a torn recording.

use crate::raw;
use crate::refusal::Refusal;
use crate::stream::Stream;
use std::ops::Range;

/// The bytes of a close, which ends a stream.
const CLOSE: [u8; 2] = [4, 0];

/// What is saved of a stream: every message before the first faulty one, unchanged, and then a close. Where the messages
/// before the fault have their close already, or nothing is refused, none is added. With an added close at most 999,999
/// messages are kept, so that the saved stream has no more than 1,000,000.
///
/// The saved stream is always accepted, under the same rules; an accepted stream comes back byte for byte.
#[derive(Clone, Copy, Debug, PartialEq, Eq, Hash)]
pub struct Salvage {
    /// The messages of the stream that are kept; an added close is not one of them.
    pub messages_kept: usize,
    /// The bytes of the stream that are not kept: those from the first message that is not kept on.
    pub bytes_not_kept: usize,
    /// Whether a close was added.
    pub close_added: bool,
    /// The length of the saved stream: the bytes kept, and 2 more where a close was added.
    pub length: usize,
}

impl Salvage {
    /// The bytes that are kept, from the stream's first on.
    pub fn kept(&self) -> Range<usize> {
        0..self.length - self.added().len()
    }

    /// What follows the bytes that are kept: a close where one was added, else nothing. A file can be saved where it
    /// stands: cut it to the length of [`kept`](Salvage::kept), and append these bytes.
    pub fn added(&self) -> &'static [u8] {
        if self.close_added {
            &CLOSE
        } else {
            &[]
        }
    }

    fn of_c(answer: &raw::mrd_salvaged) -> Result<Salvage, Refusal> {
        Refusal::in_answer(answer.refusal, 0, 0)?;
        Ok(Salvage {
            messages_kept: answer.messages_kept,
            bytes_not_kept: answer.bytes_not_kept,
            close_added: answer.close_added,
            length: answer.length,
        })
    }
}

impl Stream<'_> {
    /// Writes what can be saved of the stream to the front of `out`, and gives the report. 14 where `out` is too short,
    /// which it is not where it is 2 bytes longer than the stream; there is no other refusal: a refused stream is what
    /// this is for. An index is not looked at.
    ///
    /// ```
    /// use cotterleaf::{Refusal, Rules, Stream};
    ///
    /// // An empty header text, and a text that was cut off.
    /// let torn = [3, 0, 0, 0, 0, 0, 5, 0, 9, 0, 0, 0, b'h', b'i'];
    /// let stream = Stream::new(Rules::packed(), &torn);
    /// assert_eq!(stream.check().unwrap_err().number, 11);
    ///
    /// let mut saved = vec![0; stream.salvage_report().length];
    /// let salvage = stream.salvage(&mut saved)?;
    /// assert_eq!(saved, [3, 0, 0, 0, 0, 0, 4, 0]);
    /// assert_eq!((salvage.messages_kept, salvage.bytes_not_kept), (1, 8));
    /// assert!(salvage.close_added);
    /// assert_eq!(Stream::new(Rules::packed(), &saved).check(), Ok(2));
    /// # Ok::<(), Refusal>(())
    /// ```
    pub fn salvage(&self, out: &mut [u8]) -> Result<Salvage, Refusal> {
        Salvage::of_c(&raw::salvage(self.rules().given(), self.bytes(), out))
    }

    /// The report alone: what [`salvage`](Stream::salvage) would keep, and how long its output must be. It takes one
    /// walk over the stream, and refuses nothing.
    pub fn salvage_report(&self) -> Salvage {
        let report = raw::salvage_report(self.rules().given(), self.bytes());
        Salvage::of_c(&report).expect("a report is never refused")
    }
}
