//! Which part of which message each byte of a stream belongs to (document 02, E12). The parts of a message, in their
//! order and with their lengths, stand in one list; a byte belongs to the part whose place contains it.

use crate::headers::Table;
use crate::message::{pixels_length, Detail};
use crate::refusal::{Refusal, Refused};
use crate::rules::Rules;
use crate::stream::{records, Record};
use crate::views::Part;
use crate::NAME_FIELD;

/// The eleven sorts of parts that E12 lists.
#[derive(Clone, Copy, Debug, PartialEq, Eq)]
pub enum MessagePart {
    Id,
    /// A text's L, or an image's A: the eight bytes after its header.
    Length,
    /// All of a fixed header, with filler and with the attribute length that an image's header itself holds.
    Header,
    Name,
    /// What a name leaves of its 1,024 bytes: from the zero that ends it on.
    NameRest,
    Text,
    Attributes,
    Trajectory,
    /// The samples of the channel of that number, from 0.
    Channel(u64),
    Pixels,
    Waveform,
}

/// What a byte of a fixed header is.
#[derive(Clone, Copy, Debug, PartialEq, Eq)]
pub enum HeaderByte {
    /// One of the bytes of the element that starts at `offset`, counted from the header's first byte.
    Element {
        offset: u64,
        size: u64,
    },
    Filler,
}

/// The answer about one byte.
#[derive(Clone, Copy, Debug, PartialEq, Eq)]
pub struct PartAt {
    pub record: Record,
    pub part: MessagePart,
    /// Where the whole part lies in the stream.
    pub place: Part,
    /// For a byte of a header, what of the header it is.
    pub header_byte: Option<HeaderByte>,
}

/// The record and the part that a byte belongs to. The stream's refusal comes first; a byte past the end is in no
/// record (16).
pub fn part_at(rules: Rules, stream: &[u8], byte: u64) -> Result<PartAt, Refused> {
    StreamParts::of(rules, stream)?.at(byte)
}

/// The parts of a record in their order, each with its place in the stream. Empty ones are listed where they would
/// stand.
pub fn parts_of(rules: Rules, record: &Record) -> Vec<(MessagePart, Part)> {
    let mut start = record.start;
    let mut parts = Vec::new();
    for (part, length) in lengths(rules, record.detail) {
        parts.push((part, Part { start, length }));
        start += length;
    }
    parts
}

/// The parts of a message in their order, each with its length.
fn lengths(rules: Rules, detail: Detail) -> Vec<(MessagePart, u64)> {
    let mut parts = vec![(MessagePart::Id, 2)];
    let header = detail.kind().header_size(rules) as u64;
    if header > 0 {
        parts.push((MessagePart::Header, header));
    }
    parts.extend(lengths_after_header(detail));
    parts
}

/// The same without the id and the fixed header, which stand first.
fn lengths_after_header(detail: Detail) -> Vec<(MessagePart, u64)> {
    match detail {
        Detail::Close => vec![],
        Detail::ConfigurationName { length } => vec![
            (MessagePart::Name, length),
            (MessagePart::NameRest, NAME_FIELD as u64 - length),
        ],
        Detail::ConfigurationText { length }
        | Detail::HeaderText { length }
        | Detail::Text { length } => vec![(MessagePart::Length, 4), (MessagePart::Text, length)],
        Detail::Acquisition {
            samples,
            active_channels,
            dimensions,
            ..
        } => acquired(samples.into(), active_channels.into(), dimensions.into()),
        Detail::Image {
            matrix_size,
            channels,
            data_type,
            attribute_length,
        } => {
            let pixels = pixels_length(matrix_size, channels, data_type) as u64;
            vec![
                (MessagePart::Length, 8),
                (MessagePart::Attributes, attribute_length),
                (MessagePart::Pixels, pixels),
            ]
        }
        Detail::Waveform { samples, channels } => {
            let data = u64::from(channels) * u64::from(samples) * 4;
            vec![(MessagePart::Waveform, data)]
        }
    }
}

/// What an acquisition holds after its header: the trajectory, then channel after channel.
fn acquired(samples: u64, active_channels: u64, dimensions: u64) -> Vec<(MessagePart, u64)> {
    let mut parts = vec![(MessagePart::Trajectory, samples * dimensions * 4)];
    parts.extend((0..active_channels).map(|c| (MessagePart::Channel(c), samples * 8)));
    parts
}

/// What the byte at `offset` of a header is.
fn header_byte(table: &Table, offset: u64) -> HeaderByte {
    for (start, element) in table.elements() {
        let (start, size) = (start as u64, element.size() as u64);
        if (start..start + size).contains(&offset) {
            return HeaderByte::Element {
                offset: start,
                size,
            };
        }
    }
    HeaderByte::Filler
}

/// A part that holds at least one byte, and its record.
struct Held {
    record: usize,
    part: MessagePart,
    place: Part,
}

impl Held {
    fn contains(&self, byte: u64) -> bool {
        (self.place.start..self.place.start + self.place.length).contains(&byte)
    }
}

/// All parts of an accepted stream that hold a byte, so that many bytes can be asked for.
pub struct StreamParts {
    rules: Rules,
    length: u64,
    records: Vec<Record>,
    held: Vec<Held>,
}

impl StreamParts {
    /// The parts of this stream, or its refusal.
    pub fn of(rules: Rules, stream: &[u8]) -> Result<StreamParts, Refusal> {
        let records = records(rules, stream)?;
        let mut held = Vec::new();
        for (i, record) in records.iter().enumerate() {
            for (part, place) in parts_of(rules, record) {
                if place.length > 0 {
                    held.push(Held {
                        record: i,
                        part,
                        place,
                    });
                }
            }
        }
        Ok(StreamParts {
            rules,
            length: stream.len() as u64,
            records,
            held,
        })
    }

    /// The record and the part that this byte belongs to.
    pub fn at(&self, byte: u64) -> Result<PartAt, Refused> {
        if byte >= self.length {
            return Err(Refused::Other(16));
        }
        let mut holding = self.held.iter().filter(|held| held.contains(byte));
        let held = holding.next().expect("a part that contains the byte");
        assert!(holding.next().is_none(), "byte {byte} is in two parts");
        let record = self.records[held.record];
        let header_byte = match held.part {
            MessagePart::Header => {
                let table = record.detail.kind().table(self.rules);
                let table = table.expect("a kind with a header");
                Some(header_byte(table, byte - held.place.start))
            }
            _ => None,
        };
        Ok(PartAt {
            record,
            part: held.part,
            place: held.place,
            header_byte,
        })
    }

    pub fn records(&self) -> &[Record] {
        &self.records
    }
}
