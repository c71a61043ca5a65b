//! The checks that look at a fixed header alone, and the sizes that follow from it.

use super::{ACQUISITION_HEADER, IMAGE_HEADER, STATED_LENGTH, WAVEFORM_HEADER};

#[inline(always)]
pub fn u16_at(bytes: &[u8], at: usize) -> u16 {
    u16::from_le_bytes([bytes[at], bytes[at + 1]])
}

#[inline(always)]
pub fn u32_at(bytes: &[u8], at: usize) -> u32 {
    u32::from_le_bytes(*bytes[at..].first_chunk().expect("four bytes"))
}

#[inline(always)]
pub fn u64_at(bytes: &[u8], at: usize) -> u64 {
    u64::from_le_bytes(*bytes[at..].first_chunk().expect("eight bytes"))
}

/// A kind of message with the numbers that decide its size.
#[derive(Clone, Copy, Debug, PartialEq, Eq)]
pub enum Kind {
    Name {
        length: usize,
    },
    /// Configuration text, header text or text.
    Text {
        id: u16,
        length: u32,
    },
    Close,
    Acquisition {
        samples: u16,
        channels: u16,
        dimensions: u16,
    },
    Image {
        matrix_size: [u16; 3],
        channels: u16,
        data_type: u16,
        attribute_length: u64,
    },
    Waveform {
        samples: u16,
        channels: u16,
    },
}

/// What the mask of an acquisition with so many active channels says, 1 not stated, 2 agrees or 3 differs, and its
/// ones.
#[inline]
pub fn mask(header: &[u8; ACQUISITION_HEADER], channels: u16) -> (u16, u16) {
    let ones: u32 = (0..16)
        .map(|word| u64_at(header, 40 + 8 * word).count_ones())
        .sum();
    match ones {
        0 => (1, 0),
        _ if ones == u32::from(channels) => (2, ones as u16),
        _ => (3, ones as u16),
    }
}

/// Checks 4, 6 and 7 of an acquisition.
#[inline]
pub fn acquisition(header: &[u8; ACQUISITION_HEADER]) -> Result<Kind, u32> {
    if u16_at(header, 0) != 1 {
        return Err(4);
    }
    let (samples, channels) = (u16_at(header, 34), u16_at(header, 38));
    if channels > u16_at(header, 36) {
        return Err(6);
    }
    if u32::from(u16_at(header, 168)) + u32::from(u16_at(header, 170)) > u32::from(samples) {
        return Err(7);
    }
    Ok(Kind::Acquisition {
        samples,
        channels,
        dimensions: u16_at(header, 176),
    })
}

/// Checks 4 and 8 of an image.
#[inline]
pub fn image(header: &[u8; IMAGE_HEADER], attribute_length: u64) -> Result<Kind, u32> {
    if u16_at(header, 0) != 1 {
        return Err(4);
    }
    let data_type = u16_at(header, 2);
    if element_size(data_type) == 0 {
        return Err(8);
    }
    Ok(Kind::Image {
        matrix_size: [16, 18, 20].map(|at| u16_at(header, at)),
        channels: u16_at(header, 34),
        data_type,
        attribute_length,
    })
}

/// Check 9, which the writer does not make: the header says the attribute length or 0.
#[inline]
pub fn says_length(header: &[u8; IMAGE_HEADER], attribute_length: u64) -> Result<(), u32> {
    let stated = u64::from(u32_at(header, STATED_LENGTH));
    if stated == attribute_length || stated == 0 {
        Ok(())
    } else {
        Err(9)
    }
}

/// Check 4 of a waveform.
#[inline]
pub fn waveform(header: &[u8; WAVEFORM_HEADER]) -> Result<Kind, u32> {
    if u16_at(header, 0) != 1 {
        return Err(4);
    }
    Ok(Kind::Waveform {
        samples: u16_at(header, 22),
        channels: u16_at(header, 24),
    })
}

/// The bytes of a pixel; 0 where there is no such type.
fn element_size(data_type: u16) -> u64 {
    match data_type {
        1 | 2 => 2,
        3..=5 => 4,
        6 | 7 => 8,
        8 => 16,
        _ => 0,
    }
}

impl Kind {
    pub fn id(&self) -> u16 {
        match *self {
            Kind::Name { .. } => 1,
            Kind::Text { id, .. } => id,
            Kind::Close => 4,
            Kind::Acquisition { .. } => 1008,
            Kind::Image { .. } => 1022,
            Kind::Waveform { .. } => 1026,
        }
    }

    /// The bytes of the trajectory, attributes or nothing, and of what follows them.
    #[inline]
    pub fn parts(&self) -> (u64, u64) {
        match *self {
            Kind::Name { .. } | Kind::Close => (0, 0),
            Kind::Text { length, .. } => (0, u64::from(length)),
            Kind::Acquisition {
                samples,
                channels,
                dimensions,
            } => (
                u64::from(samples) * u64::from(dimensions) * 4,
                u64::from(samples) * u64::from(channels) * 8,
            ),
            Kind::Image {
                matrix_size: [x, y, z],
                channels,
                data_type,
                attribute_length,
            } => {
                // Four sizes of 16 bits stay within 64; the element size may take them past it.
                let pixels = u64::from(x) * u64::from(y) * u64::from(z) * u64::from(channels);
                (
                    attribute_length,
                    pixels.saturating_mul(element_size(data_type)),
                )
            }
            Kind::Waveform { samples, channels } => {
                (0, u64::from(samples) * u64::from(channels) * 4)
            }
        }
    }

    /// The bytes of the id and the fixed part.
    #[inline]
    pub fn front(&self) -> u64 {
        match self {
            Kind::Name { .. } => 1_026,
            Kind::Text { .. } => 6,
            Kind::Close => 2,
            Kind::Acquisition { .. } => 342,
            Kind::Image { .. } => 208,
            Kind::Waveform { .. } => 34,
        }
    }

    /// The whole message's bytes, at most what 64 bits hold.
    #[inline]
    pub fn size(&self) -> u64 {
        let (first, second) = self.parts();
        self.front().saturating_add(first).saturating_add(second)
    }
}
