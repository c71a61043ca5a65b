//! A stream and the questions about it.

use crate::index::Index;
use crate::raw;
use crate::record::{Field, Part, Record};
use crate::refusal::Refusal;
use crate::rules::Rules;
use crate::samples::Samples;
use std::ops::Range;

/// A whole stream, borrowed, the rules that it is read by, and the index given with it, if any.
///
/// Each question gives the stream's refusal first. [`place`](Stream::place), [`view`](Stream::view),
/// [`view_place`](Stream::view_place), [`field`](Stream::field) and [`find`](Stream::find) then give 15 where
/// an index is given that is not the stream's own; the other calls, [`part_at`](Stream::part_at) among them, do not look
/// at it.
#[derive(Clone, Copy, Debug, PartialEq, Eq)]
pub struct Stream<'a> {
    rules: Rules,
    bytes: &'a [u8],
    index: Option<Index<'a>>,
}

/// The number of records in a stream's answer.
pub(crate) fn counted(answer: &raw::mrd_checked) -> Result<usize, Refusal> {
    Refusal::in_answer(answer.refusal, answer.record, answer.byte)?;
    Ok(answer.count)
}

fn length_of(written: &raw::mrd_written) -> Result<usize, Refusal> {
    Refusal::in_answer(written.refusal, written.record, written.byte)?;
    Ok(written.length)
}

/// Where a view lies.
pub(crate) fn range_of(place: &raw::mrd_view_place) -> Result<Range<usize>, Refusal> {
    Refusal::in_answer(place.refusal, place.record, place.byte)?;
    Ok(place.start..place.start + place.length)
}

impl<'a> Stream<'a> {
    /// A stream without an index. Any bytes may be given.
    pub fn new(rules: Rules, bytes: &'a [u8]) -> Stream<'a> {
        Stream {
            rules,
            bytes,
            index: None,
        }
    }

    /// The same stream with an index given.
    pub fn with(self, index: Index<'a>) -> Stream<'a> {
        Stream {
            index: Some(index),
            ..self
        }
    }

    /// The rules that it is read by.
    pub fn rules(&self) -> Rules {
        self.rules
    }

    /// The bytes.
    pub fn bytes(&self) -> &'a [u8] {
        self.bytes
    }

    /// The number of records of an accepted stream.
    pub fn check(&self) -> Result<usize, Refusal> {
        counted(&raw::check(self.rules.given(), self.bytes))
    }

    /// Asks with an index given.
    fn ask(&self, question: raw::mrd_question, index: Index<'a>) -> raw::mrd_reply {
        match index {
            Index::File(file) => raw::ask_with_file(self.rules.given(), self.bytes, question, file),
            Index::Columns {
                starts,
                ids,
                counters,
            } => raw::ask_with_columns(
                self.rules.given(),
                self.bytes,
                question,
                starts,
                ids,
                counters,
            ),
        }
    }

    /// Place and kind of record `n`; 16 where there is none.
    pub fn place(&self, n: usize) -> Result<Record, Refusal> {
        let question = raw::mrd_question {
            what: raw::MRD_ASK_PLACE,
            number: n,
            ..Default::default()
        };
        Record::of_c(&match self.index {
            None => raw::place(self.rules.given(), self.bytes, n),
            Some(index) => self.ask(question, index).place,
        })
    }

    /// A part of record `n`, as that part of the bytes; 16 where there is no such record, 17 where it has
    /// no such part.
    pub fn view(&self, n: usize, part: Part) -> Result<&'a [u8], Refusal> {
        Ok(&self.bytes[self.view_place(n, part)?])
    }

    /// The samples of a channel of record `n`.
    pub fn samples(&self, n: usize, channel: usize) -> Result<Samples<'a>, Refusal> {
        Ok(Samples::of(self.view(n, Part::Channel(channel))?))
    }

    /// Where that part lies in the stream. An empty part still has its place.
    pub fn view_place(&self, n: usize, part: Part) -> Result<Range<usize>, Refusal> {
        let (part, channel) = part.numbers();
        let question = raw::mrd_question {
            what: raw::MRD_ASK_VIEW,
            number: n,
            part,
            channel,
            ..Default::default()
        };
        range_of(&match self.index {
            None => raw::view(self.rules.given(), self.bytes, n, part, channel),
            Some(index) => self.ask(question, index).view,
        })
    }

    /// The element of record `n`'s header that starts at `offset`, counted from the header's first byte; 16
    /// where there is no such record, 20 where no element starts there.
    pub fn field(&self, n: usize, offset: usize) -> Result<Field, Refusal> {
        let question = raw::mrd_question {
            what: raw::MRD_ASK_FIELD,
            number: n,
            offset,
            ..Default::default()
        };
        Field::of_c(&match self.index {
            None => raw::field(self.rules.given(), self.bytes, n, offset),
            Some(index) => self.ask(question, index).field,
        })
    }

    /// The number of the first acquisition from record `n` on with these seventeen counters; else 16.
    pub fn find(&self, n: usize, asked: &[u16; 17]) -> Result<usize, Refusal> {
        let question = raw::mrd_question {
            what: raw::MRD_ASK_FIND,
            number: n,
            counters: *asked,
            ..Default::default()
        };
        let found = match self.index {
            None => raw::find(self.rules.given(), self.bytes, n, asked),
            Some(index) => self.ask(question, index).found,
        };
        Refusal::in_answer(found.refusal, found.record, found.byte)?;
        Ok(found.number)
    }

    /// Whether an index is this stream's own; 15 where it is not.
    pub fn matches(&self, index: Index<'_>) -> Result<(), Refusal> {
        let matched = match index {
            Index::File(file) => raw::index_matches(self.rules.given(), self.bytes, file),
            Index::Columns {
                starts,
                ids,
                counters,
            } => raw::columns_match(self.rules.given(), self.bytes, starts, ids, counters),
        };
        Refusal::in_answer(matched.refusal, matched.record, matched.byte)
    }

    /// Writes the normal form to the front of `out` and gives its length, which is the stream's. Two streams
    /// with the same records under the same rules have the same normal form. 14 where `out` is too short.
    pub fn normal_form(&self, out: &mut [u8]) -> Result<usize, Refusal> {
        length_of(&raw::normal_form(self.rules.given(), self.bytes, out))
    }

    /// Writes the stream's index as a file to the front of `out` and gives its length: 23 bytes, and 17 for
    /// each record. 14 where `out` is too short.
    pub fn write_index(&self, out: &mut [u8]) -> Result<usize, Refusal> {
        length_of(&raw::write_index(self.rules.given(), self.bytes, out))
    }

    /// Fills the front of three columns with the stream's index and gives the number of records. 14 where a
    /// column is too short.
    pub fn fill_columns(
        &self,
        starts: &mut [u64],
        ids: &mut [u16],
        counters: &mut [u32],
    ) -> Result<usize, Refusal> {
        length_of(&raw::fill_columns(
            self.rules.given(),
            self.bytes,
            starts,
            ids,
            counters,
        ))
    }
}
