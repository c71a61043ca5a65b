//! The writer of one message: checks 2 to 8, 10, 18 and 14 in that order, then the copies.

use super::headers::{self, Kind};
use super::{LARGEST_MESSAGE, NAME_FIELD, STATED_LENGTH};

/// One message with its parts apart; those that its kind lacks are empty.
#[derive(Clone, Copy, Debug, Default)]
pub struct Message<'a> {
    pub id: u16,
    pub header: &'a [u8],
    pub name: &'a [u8],
    pub text: &'a [u8],
    pub trajectory: &'a [u8],
    pub samples: &'a [u8],
    pub attributes: &'a [u8],
    pub pixels: &'a [u8],
    pub waveform: &'a [u8],
}

impl Message<'_> {
    /// Writes the message into `out` from `position` on and gives the position after it.
    pub fn write(&self, out: &mut [u8], position: usize) -> Result<usize, u32> {
        let kind = self.kind()?;
        let size = self.size(&kind);
        if size > LARGEST_MESSAGE {
            return Err(10);
        }
        if !self.parts_fit(&kind) {
            return Err(18);
        }
        let message = out
            .get_mut(position..)
            .and_then(|after| after.get_mut(..size as usize))
            .ok_or(14_u32)?;
        self.copy_into(message);
        Ok(position + size as usize)
    }

    /// Checks 2 to 8.
    fn kind(&self) -> Result<Kind, u32> {
        match self.id {
            1008 => headers::acquisition(self.header.try_into().map_err(|_| 3_u32)?),
            1022 => {
                let header = self.header.try_into().map_err(|_| 3_u32)?;
                headers::image(header, self.attributes.len() as u64)
            }
            1026 => headers::waveform(self.header.try_into().map_err(|_| 3_u32)?),
            1..=5 if !self.header.is_empty() => Err(3),
            1 if self.name.len() >= NAME_FIELD || self.name.contains(&0) => Err(5),
            1 => Ok(Kind::Name {
                length: self.name.len(),
            }),
            4 => Ok(Kind::Close),
            // A text too long for its length field is too long for a message: see `size`.
            2 | 3 | 5 => Ok(Kind::Text {
                id: self.id,
                length: self.text.len() as u32,
            }),
            _ => Err(2),
        }
    }

    fn size(&self, kind: &Kind) -> u64 {
        match kind {
            Kind::Text { .. } => (self.text.len() as u64).saturating_add(6),
            _ => kind.size(),
        }
    }

    /// Check 18.
    fn parts_fit(&self, kind: &Kind) -> bool {
        let lengths = [
            self.name.len(),
            self.text.len(),
            self.trajectory.len(),
            self.samples.len(),
            self.attributes.len(),
            self.pixels.len(),
            self.waveform.len(),
        ];
        let (first, second) = kind.parts();
        let (first, second) = (first as usize, second as usize);
        lengths
            == match *kind {
                Kind::Name { length } => [length, 0, 0, 0, 0, 0, 0],
                Kind::Text { .. } => [0, second, 0, 0, 0, 0, 0],
                Kind::Close => [0; 7],
                Kind::Acquisition { .. } => [0, 0, first, second, 0, 0, 0],
                Kind::Image { .. } => [0, 0, 0, 0, first, second, 0],
                Kind::Waveform { .. } => [0, 0, 0, 0, 0, 0, second],
            }
    }

    fn copy_into(&self, message: &mut [u8]) {
        let rest = put(message, &self.id.to_le_bytes());
        match self.id {
            1 => put(rest, self.name).fill(0),
            2 | 3 | 5 => {
                let rest = put(rest, &(self.text.len() as u32).to_le_bytes());
                put(rest, self.text);
            }
            1008 => {
                let rest = put(rest, self.header);
                let rest = put(rest, self.trajectory);
                put(rest, self.samples);
            }
            1022 => {
                // Whatever the header says of its attributes, their length is put in both places.
                let length = self.attributes.len();
                let rest = put(rest, &self.header[..STATED_LENGTH]);
                let rest = put(rest, &(length as u32).to_le_bytes());
                let rest = put(rest, &(length as u64).to_le_bytes());
                let rest = put(rest, self.attributes);
                put(rest, self.pixels);
            }
            1026 => {
                let rest = put(rest, self.header);
                put(rest, self.waveform);
            }
            _ => {}
        }
    }
}

/// Copies a part to the front and gives what follows it.
#[inline]
fn put<'a>(out: &'a mut [u8], part: &[u8]) -> &'a mut [u8] {
    let (front, rest) = out.split_at_mut(part.len());
    front.copy_from_slice(part);
    rest
}
