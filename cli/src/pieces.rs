//! The parts of a message with their places.

use crate::answer::members;
use crate::names::PartName;
use cotterleaf::{
    AcquisitionHeader, ImageHeader, Kind, Layout, MessagePart, Part, PartAt, RecordAt, Refusal,
    Stream, WaveformHeader,
};
use serde_json::{json, Value};
use std::fmt;
use std::ops::Range;

/// A part by its name, which channel it is, and where it lies.
pub struct Piece {
    word: &'static str,
    channel: Option<usize>,
    pub at: Range<usize>,
}

impl Piece {
    fn new(word: &'static str, at: Range<usize>) -> Piece {
        Piece {
            word,
            channel: None,
            at,
        }
    }

    /// A part that a view shows.
    pub fn shown(part: Part, at: Range<usize>) -> Piece {
        let channel = match part {
            Part::Channel(channel) => Some(channel),
            _ => None,
        };
        Piece {
            channel,
            ..Piece::new(PartName::of(part).word(), at)
        }
    }

    /// All channels, one after the other.
    pub fn channels(at: Range<usize>) -> Piece {
        Piece::new(PartName::Channel.word(), at)
    }

    /// The part that a byte belongs to.
    pub fn around(found: &PartAt) -> Piece {
        let at = found.range.clone();
        match found.part {
            MessagePart::Id => Piece::new("id", at),
            MessagePart::Length => Piece::new("length", at),
            MessagePart::Header(_) => Piece::new("header", at),
            MessagePart::NameRest => Piece::new("name-rest", at),
            MessagePart::Shown(part) => Piece::shown(part, at),
        }
    }

    pub fn object(&self) -> Value {
        let mut object = members(json!({
            "part": self.word,
            "start": self.at.start,
            "size": self.at.len(),
        }));
        if let Some(channel) = self.channel {
            object.insert("channel".into(), channel.into());
        }
        Value::Object(object)
    }
}

/// `channel 3`, `all channels`, `pixels`.
impl fmt::Display for Piece {
    fn fmt(&self, f: &mut fmt::Formatter<'_>) -> fmt::Result {
        match (self.word, self.channel) {
            (word, Some(channel)) => f.pad(&format!("{word} {channel}")),
            ("channel", None) => f.pad("all channels"),
            (word, None) => f.pad(word),
        }
    }
}

/// How many bytes the header of a kind has.
pub fn header_size(kind: &Kind, layout: Layout) -> usize {
    match kind {
        Kind::Acquisition { .. } => AcquisitionHeader::SIZE,
        Kind::Image { .. } => ImageHeader::SIZE,
        Kind::Waveform { .. } => WaveformHeader::size(layout),
        _ => 0,
    }
}

/// The parts that views show, in the order of the message.
fn shown_parts(kind: &Kind) -> Vec<Part> {
    match kind {
        Kind::ConfigurationName { .. } => vec![Part::Name],
        Kind::ConfigurationText { .. } | Kind::HeaderText { .. } | Kind::Text { .. } => {
            vec![Part::Text]
        }
        Kind::Close => vec![],
        Kind::Acquisition {
            active_channels, ..
        } => {
            let channels = (0..usize::from(*active_channels)).map(Part::Channel);
            std::iter::once(Part::Trajectory).chain(channels).collect()
        }
        Kind::Image { .. } => vec![Part::Attributes, Part::Pixels],
        Kind::Waveform { .. } => vec![Part::Waveform],
    }
}

/// All parts of a record's message. The library answers where the shown ones lie; they, the id and the header leave
/// out only a length before them, or the rest of a name after them.
pub fn pieces(stream: &Stream, record: &RecordAt) -> Result<Vec<Piece>, Refusal> {
    let (id_end, end) = (record.start + 2, record.start + record.size);
    let header_end = id_end + header_size(&record.kind, stream.rules().layout);
    let mut pieces = vec![Piece::new("id", record.start..id_end)];
    if header_end > id_end {
        pieces.push(Piece::new("header", id_end..header_end));
    }
    let mut at = header_end;
    for part in shown_parts(&record.kind) {
        let place = stream.view_place_at(record.cursor(), part)?;
        if place.start > at {
            pieces.push(Piece::new("length", at..place.start));
        }
        at = place.end;
        pieces.push(Piece::shown(part, place));
    }
    if at < end {
        pieces.push(Piece::new("name-rest", at..end));
    }
    Ok(pieces)
}
