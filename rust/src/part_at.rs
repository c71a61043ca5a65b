//! Which record and part a byte of a stream belongs to.

use crate::headers::WaveformHeader;
use crate::names::element_name;
use crate::raw;
use crate::record::{Part, Record};
use crate::refusal::Refusal;
use crate::rules::Layout;
use crate::stream::Stream;
use std::fmt;
use std::ops::Range;

/// What a byte belongs to: its record, and the part of its message.
#[derive(Clone, Debug, PartialEq, Eq)]
pub struct PartAt {
    /// The record.
    pub record: Record,
    /// The part, and of a header the element.
    pub part: MessagePart,
    /// Where the part lies in the stream, of a header the whole of it.
    pub range: Range<usize>,
}

/// A part of a message. They are all that there is: every byte of an accepted stream belongs to exactly one part of
/// exactly one record. An empty part holds no byte.
#[derive(Clone, Copy, Debug, PartialEq, Eq, Hash)]
pub enum MessagePart {
    /// The two bytes of its id.
    Id,
    /// The length of a text, or the 8-byte length of an image's attributes.
    Length,
    /// A fixed header, its own attribute length and filler included.
    Header(HeaderPiece),
    /// What follows a configuration name in its 1,024 bytes, from its zero on.
    NameRest,
    /// A part that a view shows.
    Shown(Part),
}

/// What a byte of a header belongs to.
#[derive(Clone, Copy, Debug, PartialEq, Eq, Hash)]
pub enum HeaderPiece {
    /// An element: [`field`](Stream::field) gives its value, [`PartAt::element_name`] its name.
    Element {
        /// Where it starts, counted from the header's first byte.
        offset: usize,
        /// Its bytes.
        size: usize,
    },
    /// Filler of an aligned waveform header, which carries nothing.
    Filler,
}

impl HeaderPiece {
    fn of(answer: &raw::mrd_part_answer) -> HeaderPiece {
        match (answer.element_offset, answer.element_size) {
            (_, 0) => HeaderPiece::Filler,
            (offset, size) => HeaderPiece::Element { offset, size },
        }
    }
}

impl MessagePart {
    fn of(answer: &raw::mrd_part_answer) -> MessagePart {
        match answer.part {
            raw::MRD_PART_ID => MessagePart::Id,
            raw::MRD_PART_LENGTH => MessagePart::Length,
            raw::MRD_PART_HEADER => MessagePart::Header(HeaderPiece::of(answer)),
            raw::MRD_PART_NAME_REST => MessagePart::NameRest,
            shown => match Part::numbered(shown, answer.channel) {
                Some(part) => MessagePart::Shown(part),
                None => unreachable!("the library knows eleven parts, not {shown}"),
            },
        }
    }
}

/// The part in words, such as `channel 3` or `header, element at offset 2`.
impl fmt::Display for MessagePart {
    fn fmt(&self, f: &mut fmt::Formatter<'_>) -> fmt::Result {
        match self {
            MessagePart::Id => f.write_str("id"),
            MessagePart::Length => f.write_str("length"),
            MessagePart::Header(HeaderPiece::Element { offset, .. }) => {
                write!(f, "header, element at offset {offset}")
            }
            MessagePart::Header(HeaderPiece::Filler) => f.write_str("header, filler"),
            MessagePart::NameRest => f.write_str("rest of the name's 1,024 bytes"),
            MessagePart::Shown(part) => part.fmt(f),
        }
    }
}

impl PartAt {
    /// The name of the header element that the byte belongs to, as [`element_name`] has it; none where it belongs to
    /// no header or to filler.
    pub fn element_name(&self) -> Option<&'static str> {
        let MessagePart::Header(HeaderPiece::Element { offset, .. }) = self.part else {
            return None;
        };
        // A waveform's header is as long as its layout has it.
        let aligned = self.range.len() == WaveformHeader::size(Layout::Aligned);
        let layout = if aligned {
            Layout::Aligned
        } else {
            Layout::Packed
        };
        element_name(self.record.kind.id(), layout, offset)
    }

    fn of_c(answer: &raw::mrd_part_answer) -> Result<PartAt, Refusal> {
        Refusal::in_answer(answer.refusal, answer.record, answer.byte)?;
        Ok(PartAt {
            record: Record::of_c(&answer.place)?,
            part: MessagePart::of(answer),
            range: answer.start..answer.start + answer.length,
        })
    }
}

impl Stream<'_> {
    /// The record and the part that a byte belongs to, by its number from 0; 16 where the stream has no such byte. It
    /// takes one walk over the stream; an index is not looked at.
    ///
    /// ```
    /// use cotterleaf::{HeaderPiece, MessagePart, Part, Refusal, Rules, Stream};
    ///
    /// // An empty header text, a waveform of one sample, and the close.
    /// let mut bytes = vec![3, 0, 0, 0, 0, 0, 2, 4, 1, 0];
    /// bytes.resize(6 + 2 + 22, 0);
    /// bytes.extend([1, 0, 1, 0, 0, 0, 0, 0, 0, 0]);
    /// bytes.extend([7, 7, 7, 7, 4, 0]);
    /// let stream = Stream::new(Rules::packed(), &bytes);
    ///
    /// let found = stream.part_at(6 + 2 + 25)?;
    /// assert_eq!((found.record.number, &found.range), (1, &(8..40)));
    /// let element = HeaderPiece::Element { offset: 24, size: 2 };
    /// assert_eq!(found.part, MessagePart::Header(element));
    /// assert_eq!(found.element_name(), Some("channels"));
    ///
    /// let found = stream.part_at(40)?;
    /// assert_eq!(found.part, MessagePart::Shown(Part::Waveform));
    /// assert_eq!(bytes[found.range], [7; 4]);
    /// assert_eq!(stream.part_at(45)?.part, MessagePart::Id);
    /// assert_eq!(stream.part_at(46).unwrap_err().number, 16);
    /// # Ok::<(), Refusal>(())
    /// ```
    pub fn part_at(&self, byte: usize) -> Result<PartAt, Refusal> {
        PartAt::of_c(&raw::part_at(self.rules().given(), self.bytes(), byte))
    }
}
