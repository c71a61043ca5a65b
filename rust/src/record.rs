//! What a record is: its place, its kind with that kind's own numbers, its parts and fields.

use crate::names::id;
use crate::raw;
use crate::refusal::Refusal;
use std::fmt;

/// A record's place and kind.
#[derive(Clone, Copy, Debug, PartialEq, Eq, Hash)]
pub struct Record {
    /// The record number, from 0.
    pub number: usize,
    /// Its first byte in the stream, that of its id.
    pub start: usize,
    /// Its bytes, the id included.
    pub size: usize,
    /// Its kind.
    pub kind: Kind,
}

/// A kind of message with that kind's own numbers.
#[derive(Clone, Copy, Debug, PartialEq, Eq, Hash)]
pub enum Kind {
    /// A configuration name.
    ConfigurationName {
        /// Its bytes, without the zero that ends it.
        length: usize,
    },
    /// A configuration text.
    ConfigurationText {
        /// Its bytes.
        length: usize,
    },
    /// A header text.
    HeaderText {
        /// Its bytes.
        length: usize,
    },
    /// The close, the last message of a stream.
    Close,
    /// A text.
    Text {
        /// Its bytes.
        length: usize,
    },
    /// An acquisition, one readout.
    Acquisition {
        /// Samples of each channel.
        number_of_samples: u16,
        /// Channels that were recorded.
        active_channels: u16,
        /// Numbers for each sample of the trajectory.
        trajectory_dimensions: u16,
        /// What its channel mask says of the active channels.
        mask: Mask,
    },
    /// An image.
    Image {
        /// Pixels along x, y and z.
        matrix_size: [u16; 3],
        /// Channels.
        channels: u16,
        /// The type of a pixel, 1 to 8: one of [`data_type`](crate::data_type).
        data_type: u16,
        /// Bytes of attributes.
        attribute_length: u64,
    },
    /// A waveform.
    Waveform {
        /// Samples of each channel.
        number_of_samples: u16,
        /// Channels.
        channels: u16,
    },
}

impl Kind {
    /// The id of messages of this kind.
    pub fn id(&self) -> u16 {
        match self {
            Kind::ConfigurationName { .. } => id::CONFIGURATION_NAME,
            Kind::ConfigurationText { .. } => id::CONFIGURATION_TEXT,
            Kind::HeaderText { .. } => id::HEADER_TEXT,
            Kind::Close => id::CLOSE,
            Kind::Text { .. } => id::TEXT,
            Kind::Acquisition { .. } => id::ACQUISITION,
            Kind::Image { .. } => id::IMAGE,
            Kind::Waveform { .. } => id::WAVEFORM,
        }
    }

    fn of(placed: &raw::mrd_placed) -> Kind {
        let length = placed.length;
        match placed.id {
            id::CONFIGURATION_NAME => Kind::ConfigurationName { length },
            id::CONFIGURATION_TEXT => Kind::ConfigurationText { length },
            id::HEADER_TEXT => Kind::HeaderText { length },
            id::CLOSE => Kind::Close,
            id::TEXT => Kind::Text { length },
            id::ACQUISITION => Kind::Acquisition {
                number_of_samples: placed.number_of_samples,
                active_channels: placed.channels,
                trajectory_dimensions: placed.trajectory_dimensions,
                mask: Mask::of(placed),
            },
            id::IMAGE => Kind::Image {
                matrix_size: [
                    placed.matrix_size_x,
                    placed.matrix_size_y,
                    placed.matrix_size_z,
                ],
                channels: placed.channels,
                data_type: placed.data_type,
                attribute_length: placed.attribute_length,
            },
            id::WAVEFORM => Kind::Waveform {
                number_of_samples: placed.number_of_samples,
                channels: placed.channels,
            },
            other => unreachable!("the library hands out records of the eight kinds, not {other}"),
        }
    }
}

/// What an acquisition's channel mask says of its active channels. Only how many bits are set is looked at, not which.
/// After a coil compression, say, the mask may still name the coils from before: such a readout is whole, and the
/// mask differs.
#[derive(Clone, Copy, Debug, PartialEq, Eq, Hash)]
pub enum Mask {
    /// The mask is all zero.
    NotStated,
    /// It has as many ones as there are active channels.
    Agrees {
        /// The ones counted, at most 1,024.
        ones: u16,
    },
    /// It has another count of ones.
    Differs {
        /// The ones counted, at most 1,024.
        ones: u16,
    },
}

impl Mask {
    /// The ones counted, 0 where the mask is not stated.
    pub fn ones(self) -> u16 {
        match self {
            Mask::NotStated => 0,
            Mask::Agrees { ones } | Mask::Differs { ones } => ones,
        }
    }

    fn of(placed: &raw::mrd_placed) -> Mask {
        let ones = placed.mask_ones;
        match placed.mask {
            raw::MRD_MASK_NOT_STATED => Mask::NotStated,
            raw::MRD_MASK_AGREES => Mask::Agrees { ones },
            raw::MRD_MASK_DIFFERS => Mask::Differs { ones },
            other => unreachable!("the library knows three answers of a mask, not {other}"),
        }
    }
}

impl Record {
    pub(crate) fn of_c(placed: &raw::mrd_placed) -> Result<Record, Refusal> {
        Refusal::in_answer(placed.refusal, placed.record, placed.byte)?;
        Ok(Record {
            number: placed.number,
            start: placed.start,
            size: placed.size,
            kind: Kind::of(placed),
        })
    }
}

/// A part of a record that a view shows. Under strict rules ([`Profile::Strict`](crate::Profile::Strict)) a name, a
/// text and attributes are UTF-8, so that `std::str::from_utf8` of them never fails.
#[derive(Clone, Copy, Debug, PartialEq, Eq, Hash)]
pub enum Part {
    /// A configuration name: the bytes before its zero.
    Name,
    /// The bytes of a configuration text, header text or text.
    Text,
    /// An image's attributes.
    Attributes,
    /// An acquisition's trajectory; empty with 0 dimensions.
    Trajectory,
    /// The samples of one of an acquisition's active channels, by its number from 0.
    Channel(usize),
    /// An image's pixels.
    Pixels,
    /// The data of a waveform, all channels.
    Waveform,
}

impl Part {
    /// The number that the library knows the part by, and the channel.
    pub(crate) fn numbers(self) -> (u32, usize) {
        match self {
            Part::Name => (raw::MRD_PART_NAME, 0),
            Part::Text => (raw::MRD_PART_TEXT, 0),
            Part::Attributes => (raw::MRD_PART_ATTRIBUTES, 0),
            Part::Trajectory => (raw::MRD_PART_TRAJECTORY, 0),
            Part::Channel(channel) => (raw::MRD_PART_CHANNEL, channel),
            Part::Pixels => (raw::MRD_PART_PIXELS, 0),
            Part::Waveform => (raw::MRD_PART_WAVEFORM, 0),
        }
    }

    /// The part that the library knows by this number; none where no view shows it.
    pub(crate) fn numbered(number: u32, channel: usize) -> Option<Part> {
        Some(match number {
            raw::MRD_PART_NAME => Part::Name,
            raw::MRD_PART_TEXT => Part::Text,
            raw::MRD_PART_ATTRIBUTES => Part::Attributes,
            raw::MRD_PART_TRAJECTORY => Part::Trajectory,
            raw::MRD_PART_CHANNEL => Part::Channel(channel),
            raw::MRD_PART_PIXELS => Part::Pixels,
            raw::MRD_PART_WAVEFORM => Part::Waveform,
            _ => return None,
        })
    }
}

/// The part in words, such as `channel 3`.
impl fmt::Display for Part {
    fn fmt(&self, f: &mut fmt::Formatter<'_>) -> fmt::Result {
        match self {
            Part::Name => f.write_str("name"),
            Part::Text => f.write_str("text"),
            Part::Attributes => f.write_str("attributes"),
            Part::Trajectory => f.write_str("trajectory"),
            Part::Channel(channel) => write!(f, "channel {channel}"),
            Part::Pixels => f.write_str("pixels"),
            Part::Waveform => f.write_str("waveform data"),
        }
    }
}

/// An element of a fixed header.
#[derive(Clone, Copy, Debug, PartialEq, Eq, Hash)]
pub enum Field {
    /// An unsigned number of 16, 32 or 64 bits.
    Whole(u64),
    /// A signed number.
    Signed(i32),
    /// A float, kept by its bits, so that a NaN is the one that is stored.
    Float {
        /// The bits as stored.
        bits: u32,
    },
}

impl Field {
    /// The float, if the element is one.
    pub fn float(self) -> Option<f32> {
        match self {
            Field::Float { bits } => Some(f32::from_bits(bits)),
            _ => None,
        }
    }

    pub(crate) fn of_c(answer: &raw::mrd_field_answer) -> Result<Field, Refusal> {
        Refusal::in_answer(answer.refusal, answer.record, answer.byte)?;
        Ok(match answer.value_type {
            raw::MRD_WHOLE => Field::Whole(answer.whole),
            raw::MRD_SIGNED => Field::Signed(answer.integer),
            raw::MRD_FLOAT => Field::Float {
                bits: answer.float_bits,
            },
            other => unreachable!("the library knows three types of element, not {other}"),
        })
    }
}
