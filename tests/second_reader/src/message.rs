//! One message: its own numbers, the lengths of its parts, and checks 3 to 11 and 21.

use crate::headers::{Table, IMAGE};
use crate::kinds::Kind;
use crate::mask::{mask, Mask};
use crate::numbers;
use crate::rules::{Profile, Rules};
use crate::utf8::is_well_formed;
use crate::{LARGEST_MESSAGE, NAME_FIELD};

/// A message's kind with that kind's own numbers.
#[derive(Clone, Copy, Debug, PartialEq, Eq)]
pub enum Detail {
    ConfigurationName {
        length: u64,
    },
    ConfigurationText {
        length: u64,
    },
    HeaderText {
        length: u64,
    },
    Close,
    Text {
        length: u64,
    },
    Acquisition {
        samples: u16,
        active_channels: u16,
        dimensions: u16,
        mask: Mask,
    },
    Image {
        matrix_size: [u16; 3],
        channels: u16,
        data_type: u16,
        attribute_length: u64,
    },
    Waveform {
        samples: u16,
        channels: u16,
    },
}

/// The variable parts that the kinds have between them.
#[derive(Clone, Copy, Debug, PartialEq, Eq)]
pub enum PartName {
    Name,
    Text,
    Trajectory,
    Samples,
    Attributes,
    Pixels,
    Waveform,
}

impl PartName {
    pub const ALL: [PartName; 7] = [
        PartName::Name,
        PartName::Text,
        PartName::Trajectory,
        PartName::Samples,
        PartName::Attributes,
        PartName::Pixels,
        PartName::Waveform,
    ];
}

impl Detail {
    pub fn kind(&self) -> Kind {
        match self {
            Detail::ConfigurationName { .. } => Kind::ConfigurationName,
            Detail::ConfigurationText { .. } => Kind::ConfigurationText,
            Detail::HeaderText { .. } => Kind::HeaderText,
            Detail::Close => Kind::Close,
            Detail::Text { .. } => Kind::Text,
            Detail::Acquisition { .. } => Kind::Acquisition,
            Detail::Image { .. } => Kind::Image,
            Detail::Waveform { .. } => Kind::Waveform,
        }
    }

    /// The parts that follow the fixed part, in their order, with their lengths in bytes.
    /// A name has none: it lies in the fixed part.
    pub fn body(&self) -> Vec<(PartName, u128)> {
        match *self {
            Detail::ConfigurationName { .. } | Detail::Close => vec![],
            Detail::ConfigurationText { length }
            | Detail::HeaderText { length }
            | Detail::Text { length } => vec![(PartName::Text, u128::from(length))],
            Detail::Acquisition {
                samples,
                active_channels,
                dimensions,
                ..
            } => vec![
                (
                    PartName::Trajectory,
                    u128::from(samples) * u128::from(dimensions) * 4,
                ),
                (
                    PartName::Samples,
                    u128::from(active_channels) * u128::from(samples) * 8,
                ),
            ],
            Detail::Image {
                matrix_size,
                channels,
                data_type,
                attribute_length,
            } => vec![
                (PartName::Attributes, u128::from(attribute_length)),
                (
                    PartName::Pixels,
                    pixels_length(matrix_size, channels, data_type),
                ),
            ],
            Detail::Waveform { samples, channels } => vec![(
                PartName::Waveform,
                u128::from(channels) * u128::from(samples) * 4,
            )],
        }
    }

    /// The whole message's bytes, id included.
    pub fn size(&self, rules: Rules) -> u128 {
        let body: u128 = self.body().iter().map(|&(_, length)| length).sum();
        2 + self.kind().fixed_size(rules) as u128 + body
    }

    /// Where a part starts, counted from the message's first byte, and its length.
    pub fn part(&self, rules: Rules, wanted: PartName) -> Option<(u128, u128)> {
        if let (Detail::ConfigurationName { length }, PartName::Name) = (self, wanted) {
            return Some((2, u128::from(*length)));
        }
        let mut start = 2 + self.kind().fixed_size(rules) as u128;
        for (name, length) in self.body() {
            if name == wanted {
                return Some((start, length));
            }
            start += length;
        }
        None
    }
}

/// The part of this kind that is text: what the strict profile wants to be UTF-8 (document 02, E9). A name is the
/// bytes before its zero, so that what follows the zero is none of it.
pub fn text_part(kind: Kind) -> Option<PartName> {
    match kind {
        Kind::ConfigurationName => Some(PartName::Name),
        Kind::ConfigurationText | Kind::HeaderText | Kind::Text => Some(PartName::Text),
        Kind::Image => Some(PartName::Attributes),
        Kind::Close | Kind::Acquisition | Kind::Waveform => None,
    }
}

/// Check 21 of a text, by itself.
pub fn text_refused(rules: Rules, text: &[u8]) -> bool {
    rules.profile == Profile::Strict && !is_well_formed(text)
}

/// The bytes of all pixels of an image whose data type passed check 8.
pub fn pixels_length([x, y, z]: [u16; 3], channels: u16, data_type: u16) -> u128 {
    let element = element_size(data_type).expect("a data type that passed check 8");
    u128::from(x) * u128::from(y) * u128::from(z) * u128::from(channels) * element
}

/// The bytes of one pixel of an image data type, if there is such a type.
pub fn element_size(data_type: u16) -> Option<u128> {
    match data_type {
        1 | 2 => Some(2),
        3..=5 => Some(4),
        6 | 7 => Some(8),
        8 => Some(16),
        _ => None,
    }
}

/// Checks 4, 6, 7 and 8, which look at nothing but the fixed header.
pub fn header_fault(rules: Rules, kind: Kind, header: &[u8]) -> Option<u32> {
    let table = kind.table(rules)?;
    if table.whole(header, "version", 0) != 1 {
        return Some(4);
    }
    match kind {
        Kind::Acquisition => acquisition_fault(table, header),
        Kind::Image => {
            let data_type = table.whole(header, "data_type", 0) as u16;
            if element_size(data_type).is_none() {
                Some(8)
            } else {
                None
            }
        }
        _ => None,
    }
}

fn acquisition_fault(table: &Table, header: &[u8]) -> Option<u32> {
    let active = table.whole(header, "active_channels", 0);
    if active > table.whole(header, "available_channels", 0) {
        return Some(6);
    }
    let discarded = table.whole(header, "discard_pre", 0) + table.whole(header, "discard_post", 0);
    if discarded > table.whole(header, "number_of_samples", 0) {
        return Some(7);
    }
    None
}

/// The entry of an image header that one scanner family leaves at 0 (document 02, E1). The eight
/// bytes after the header decide.
pub const STATED_LENGTH: &str = "attribute_string_len";

/// Check 9: the header's number is neither the length in the eight bytes nor 0.
fn lengths_differ(header: &[u8], attribute_length: u64) -> bool {
    let stated = IMAGE.whole(header, STATED_LENGTH, 0);
    stated != 0 && stated != attribute_length
}

/// Puts the true attribute length into the header of an image message, given from its id on. It
/// fits in four bytes, as a longer message is over the limit.
pub fn put_stated_length(message: &mut [u8], attribute_length: u64) {
    let entry = IMAGE.entry(STATED_LENGTH).expect("an entry of an image");
    let at = 2 + entry.offset;
    numbers::put(message, at, entry.element.size(), attribute_length);
}

/// The own numbers of a message that has a fixed header.
pub fn header_detail(rules: Rules, kind: Kind, header: &[u8], attribute_length: u64) -> Detail {
    let table = kind.table(rules).expect("a kind with a fixed header");
    let number = |name, i| table.whole(header, name, i) as u16;
    match kind {
        Kind::Acquisition => Detail::Acquisition {
            samples: number("number_of_samples", 0),
            active_channels: number("active_channels", 0),
            dimensions: number("trajectory_dimensions", 0),
            mask: mask(table, header),
        },
        Kind::Image => Detail::Image {
            matrix_size: [
                number("matrix_size", 0),
                number("matrix_size", 1),
                number("matrix_size", 2),
            ],
            channels: number("channels", 0),
            data_type: number("data_type", 0),
            attribute_length,
        },
        _ => Detail::Waveform {
            samples: number("number_of_samples", 0),
            channels: number("channels", 0),
        },
    }
}

/// The own numbers of a text of one of the three text kinds.
pub fn text_detail(kind: Kind, length: u64) -> Detail {
    match kind {
        Kind::ConfigurationText => Detail::ConfigurationText { length },
        Kind::HeaderText => Detail::HeaderText { length },
        Kind::Text => Detail::Text { length },
        _ => panic!("{kind:?} is no text"),
    }
}

/// The length of the name in a name's 1,024 bytes: those before the first zero.
pub fn name_length(field: &[u8]) -> Option<usize> {
    field[..NAME_FIELD].iter().position(|&byte| byte == 0)
}

/// Checks 3 to 11 and 21 of a message of known kind. `left` is what remains of the stream from the id on.
pub fn judge(rules: Rules, kind: Kind, left: &[u8]) -> Result<Detail, u32> {
    let after_id = &left[2..];
    if after_id.len() < kind.fixed_size(rules) {
        return Err(3);
    }
    let detail = fixed_detail(rules, kind, after_id)?;
    if detail.size(rules) > LARGEST_MESSAGE {
        return Err(10);
    }
    if detail.size(rules) > left.len() as u128 {
        return Err(11);
    }
    if text_refused(rules, text_of(rules, &detail, left)) {
        return Err(21);
    }
    Ok(detail)
}

/// The text of a message that is all there; empty where its kind has none.
fn text_of<'a>(rules: Rules, detail: &Detail, message: &'a [u8]) -> &'a [u8] {
    let part = text_part(detail.kind()).and_then(|name| detail.part(rules, name));
    match part {
        Some((start, length)) => &message[start as usize..][..length as usize],
        None => &[],
    }
}

/// Checks 4 to 9, and the message's own numbers if it passes them.
fn fixed_detail(rules: Rules, kind: Kind, fixed: &[u8]) -> Result<Detail, u32> {
    match kind {
        Kind::Close => Ok(Detail::Close),
        Kind::ConfigurationName => match name_length(fixed) {
            Some(length) => Ok(Detail::ConfigurationName {
                length: length as u64,
            }),
            None => Err(5),
        },
        Kind::ConfigurationText | Kind::HeaderText | Kind::Text => {
            Ok(text_detail(kind, numbers::read(fixed, 0, 4)))
        }
        Kind::Acquisition | Kind::Waveform => {
            let header = &fixed[..kind.header_size(rules)];
            match header_fault(rules, kind, header) {
                Some(number) => Err(number),
                None => Ok(header_detail(rules, kind, header, 0)),
            }
        }
        Kind::Image => {
            let header = &fixed[..kind.header_size(rules)];
            if let Some(number) = header_fault(rules, kind, header) {
                return Err(number);
            }
            let attribute_length = numbers::read(fixed, kind.header_size(rules), 8);
            if lengths_differ(header, attribute_length) {
                return Err(9);
            }
            Ok(header_detail(rules, kind, header, attribute_length))
        }
    }
}
