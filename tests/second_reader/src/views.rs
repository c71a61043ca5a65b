//! Views: the parts of a record, as places in the given stream itself.

use crate::index::GivenIndex;
use crate::message::{Detail, PartName};
use crate::questions::kind_and_place;
use crate::refusal::Refused;
use crate::rules::Rules;
use crate::stream::Record;

/// A part of the given stream. An empty one still has its natural place.
#[derive(Clone, Copy, Debug, PartialEq, Eq)]
pub struct Part {
    pub start: u64,
    pub length: u64,
}

/// The refusal number (0 where there is none), start and length: a refused view is the empty
/// part at the stream's front.
pub fn place_of_view(view: &Result<Part, Refused>) -> (u32, u64, u64) {
    match view {
        Ok(part) => (0, part.start, part.length),
        Err(refused) => (refused.number(), 0, 0),
    }
}

/// The bytes of a part that one of the views gave for this stream.
pub fn bytes_of(stream: &[u8], part: Part) -> &[u8] {
    &stream[part.start as usize..][..part.length as usize]
}

fn part_in(rules: Rules, record: &Record, name: PartName) -> Result<Part, Refused> {
    match record.detail.part(rules, name) {
        Some((start, length)) => Ok(Part {
            start: record.start + start as u64,
            length: length as u64,
        }),
        None => Err(Refused::Other(17)),
    }
}

/// The named part of the record of that number.
fn part_of(
    rules: Rules,
    stream: &[u8],
    given: GivenIndex,
    number: u64,
    name: PartName,
) -> Result<Part, Refused> {
    let record = kind_and_place(rules, stream, given, number)?;
    part_in(rules, &record, name)
}

/// The bytes of a configuration text, header text or text.
pub fn text(rules: Rules, stream: &[u8], given: GivenIndex, number: u64) -> Result<Part, Refused> {
    part_of(rules, stream, given, number, PartName::Text)
}

/// A configuration name: the bytes before the first zero.
pub fn name(rules: Rules, stream: &[u8], given: GivenIndex, number: u64) -> Result<Part, Refused> {
    part_of(rules, stream, given, number, PartName::Name)
}

/// An image's attributes.
pub fn attributes(
    rules: Rules,
    stream: &[u8],
    given: GivenIndex,
    number: u64,
) -> Result<Part, Refused> {
    part_of(rules, stream, given, number, PartName::Attributes)
}

/// An acquisition's trajectory; empty and accepted with 0 dimensions.
pub fn trajectory(
    rules: Rules,
    stream: &[u8],
    given: GivenIndex,
    number: u64,
) -> Result<Part, Refused> {
    part_of(rules, stream, given, number, PartName::Trajectory)
}

/// The samples of one channel of an acquisition. A waveform has no such view.
pub fn channel(
    rules: Rules,
    stream: &[u8],
    given: GivenIndex,
    number: u64,
    channel: u64,
) -> Result<Part, Refused> {
    let record = kind_and_place(rules, stream, given, number)?;
    let data = part_in(rules, &record, PartName::Samples)?;
    match record.detail {
        Detail::Acquisition {
            samples,
            active_channels,
            ..
        } if channel < u64::from(active_channels) => {
            let length = u64::from(samples) * 8;
            Ok(Part {
                start: data.start + channel * length,
                length,
            })
        }
        _ => Err(Refused::Other(17)),
    }
}

/// An image's pixels.
pub fn pixels(
    rules: Rules,
    stream: &[u8],
    given: GivenIndex,
    number: u64,
) -> Result<Part, Refused> {
    part_of(rules, stream, given, number, PartName::Pixels)
}

/// The data of a waveform, all channels.
pub fn waveform(
    rules: Rules,
    stream: &[u8],
    given: GivenIndex,
    number: u64,
) -> Result<Part, Refused> {
    part_of(rules, stream, given, number, PartName::Waveform)
}
