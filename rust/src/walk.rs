//! The walk over a stream, one record at each step.

use crate::headers::{AcquisitionHeader, ImageHeader, WaveformHeader};
use crate::raw;
use crate::record::{Field, Kind, Part, Record};
use crate::refusal::Refusal;
use crate::rules::{Layout, Rules};
use crate::samples::Samples;
use crate::stream::{counted, range_of, Stream};
use std::ops::Range;

/// A place in a walk. It may be kept and given back, also made up: any cursor gets some answer.
#[derive(Clone, Copy, Debug, PartialEq, Eq, Hash)]
pub struct Cursor {
    /// The number of the next record.
    pub number: usize,
    /// Its first byte.
    pub start: usize,
    /// 0 where at most texts came before, 1 after a configuration, 2 after the header, 3 (or above) after the
    /// close.
    pub phase: u32,
}

impl Cursor {
    /// The cursor before the first record.
    pub fn beginning() -> Cursor {
        Cursor::of(raw::beginning())
    }

    /// The cursor at record `n`, made from two columns of an index
    /// ([`fill_columns`](Stream::fill_columns)) at a bounded cost; 16 where one of them has no place `n`.
    ///
    /// The columns are believed: have [`matches`](Stream::matches) compare them with the stream once. Then
    /// [`view_at`](Stream::view_at) and [`field_at`](Stream::field_at) answer there what
    /// [`view`](Stream::view) and [`field`](Stream::field) do by number. The phase is 0 for a configuration or
    /// header and 2 for all else, so a walk may go on from it, but not from a text before the header.
    pub fn for_record(
        rules: Rules,
        starts: &[u64],
        ids: &[u16],
        n: usize,
    ) -> Result<Cursor, Refusal> {
        let answer = raw::cursor_for(rules.given(), starts, ids, n);
        Refusal::in_answer(answer.refusal, 0, 0)?;
        Ok(Cursor::of(answer.cursor))
    }

    fn of(cursor: raw::mrd_cursor) -> Cursor {
        Cursor {
            number: cursor.number,
            start: cursor.start,
            phase: cursor.phase,
        }
    }

    fn given(self) -> raw::mrd_cursor {
        raw::mrd_cursor {
            number: self.number,
            start: self.start,
            phase: self.phase,
        }
    }
}

/// What a step of the walk meets.
#[derive(Clone, Copy, Debug, PartialEq, Eq)]
pub enum Step {
    /// A record, and the cursor of what follows.
    Record(Record, Cursor),
    /// The end, with the stream's answer: its number of records, or its refusal.
    End(Result<usize, Refusal>),
}

impl<'a> Stream<'a> {
    /// All records in one walk, at a cost for each that does not grow with the stream.
    pub fn records(&self) -> Records<'a> {
        Records {
            stream: *self,
            cursor: Some(Cursor::beginning()),
        }
    }

    /// One step of the walk.
    pub fn step(&self, cursor: Cursor) -> Step {
        let step = raw::next(self.rules().given(), self.bytes(), cursor.given());
        if step.ended {
            return Step::End(counted(&step.answer));
        }
        let here = Record::of_c(&step.here).expect("a step yields a record or ends");
        Step::Record(here, Cursor::of(step.next))
    }

    /// A part of the record that is due at a cursor, as [`view`](Stream::view) gives it by number, but at a cost
    /// that does not grow with the stream; 16 where no record is left. An index is not looked at.
    ///
    /// ```
    /// use cotterleaf::{Cursor, Part, Rules, Step, Stream};
    ///
    /// // Two texts and the close.
    /// let bytes = [5, 0, 1, 0, 0, 0, b'a', 5, 0, 1, 0, 0, 0, b'b', 4, 0];
    /// let stream = Stream::new(Rules::packed(), &bytes);
    /// let mut texts = Vec::new();
    /// let mut cursor = Cursor::beginning();
    /// while let Step::Record(_, next) = stream.step(cursor) {
    ///     texts.extend(stream.view_at(cursor, Part::Text));
    ///     cursor = next;
    /// }
    /// assert_eq!(texts, [b"a", b"b"]);
    /// ```
    pub fn view_at(&self, cursor: Cursor, part: Part) -> Result<&'a [u8], Refusal> {
        Ok(&self.bytes()[self.view_place_at(cursor, part)?])
    }

    /// Where that part lies in the stream.
    pub fn view_place_at(&self, cursor: Cursor, part: Part) -> Result<Range<usize>, Refusal> {
        let (part, channel) = part.numbers();
        range_of(&raw::view_at(
            self.rules().given(),
            self.bytes(),
            cursor.given(),
            part,
            channel,
        ))
    }

    /// The element that starts at `offset` in the header of the record that is due at a cursor, at a cost that
    /// does not grow with the stream.
    pub fn field_at(&self, cursor: Cursor, offset: usize) -> Result<Field, Refusal> {
        Field::of_c(&raw::field_at(
            self.rules().given(),
            self.bytes(),
            cursor.given(),
            offset,
        ))
    }

    /// The answer of the rest of the stream, from a cursor on: its number of records, those before the cursor
    /// counted too, or its refusal.
    pub fn check_from(&self, cursor: Cursor) -> Result<usize, Refusal> {
        counted(&raw::check_from(
            self.rules().given(),
            self.bytes(),
            cursor.given(),
        ))
    }
}

/// A record that a walk met, with the cursor at which it was due: what it holds costs no further walk.
#[derive(Clone, Copy, Debug, PartialEq, Eq)]
pub struct RecordAt<'a> {
    stream: Stream<'a>,
    cursor: Cursor,
    record: Record,
}

impl<'a> RecordAt<'a> {
    /// The cursor at which the record was due.
    pub fn cursor(&self) -> Cursor {
        self.cursor
    }

    /// The bytes of the whole message, from its id on.
    pub fn bytes(&self) -> &'a [u8] {
        &self.stream.bytes()[self.record.start..][..self.record.size]
    }

    /// A part of the record, as that part of the stream; 17 where it has no such part.
    pub fn view(&self, part: Part) -> Result<&'a [u8], Refusal> {
        self.stream.view_at(self.cursor, part)
    }

    /// The samples of a channel; 17 where the record has no such channel.
    pub fn samples(&self, channel: usize) -> Result<Samples<'a>, Refusal> {
        Ok(Samples::of(self.view(Part::Channel(channel))?))
    }

    /// The header element that starts at `offset`; 20 where none does.
    pub fn field(&self, offset: usize) -> Result<Field, Refusal> {
        self.stream.field_at(self.cursor, offset)
    }

    /// The header of an acquisition; none of another kind.
    pub fn acquisition(&self) -> Option<AcquisitionHeader<'a>> {
        matches!(self.record.kind, Kind::Acquisition { .. })
            .then(|| AcquisitionHeader::new(self.header()))
    }

    /// The header of an image; none of another kind.
    pub fn image(&self) -> Option<ImageHeader<'a>> {
        matches!(self.record.kind, Kind::Image { .. }).then(|| ImageHeader::new(self.header()))
    }

    /// The header of a waveform, in the layout of the stream's rules; none of another kind.
    pub fn waveform(&self) -> Option<WaveformHeader<'a>> {
        matches!(self.record.kind, Kind::Waveform { .. }).then(|| {
            match self.stream.rules().layout {
                Layout::Packed => WaveformHeader::packed(self.header()),
                Layout::Aligned => WaveformHeader::aligned(self.header()),
            }
        })
    }

    /// The header's bytes, right after the id.
    fn header<const SIZE: usize>(&self) -> &'a [u8; SIZE] {
        let header = self.bytes()[2..].first_chunk();
        header.expect("a record has its kind's whole header")
    }
}

/// Number, place and kind.
impl std::ops::Deref for RecordAt<'_> {
    type Target = Record;

    fn deref(&self) -> &Record {
        &self.record
    }
}

/// The records of a stream in their order. A refused stream's records before the fault come first, then its
/// refusal, then nothing.
#[derive(Clone, Debug)]
pub struct Records<'a> {
    stream: Stream<'a>,
    cursor: Option<Cursor>,
}

impl Records<'_> {
    /// The cursor of the next step; none after the end.
    pub fn cursor(&self) -> Option<Cursor> {
        self.cursor
    }
}

impl<'a> Iterator for Records<'a> {
    type Item = Result<RecordAt<'a>, Refusal>;

    fn next(&mut self) -> Option<Self::Item> {
        let cursor = self.cursor?;
        match self.stream.step(cursor) {
            Step::Record(record, next) => {
                self.cursor = Some(next);
                Some(Ok(RecordAt {
                    stream: self.stream,
                    cursor,
                    record,
                }))
            }
            Step::End(answer) => {
                self.cursor = None;
                answer.err().map(Err)
            }
        }
    }
}

impl std::iter::FusedIterator for Records<'_> {}
