//! One message to be written.

use crate::raw;
use crate::refusal::Refusal;
use crate::rules::Rules;

/// A message with its parts apart. Set what the kind has and take the rest from `Message::default()`, empty.
#[derive(Clone, Copy, Debug, Default, PartialEq, Eq)]
pub struct Message<'a> {
    /// One of the numbers of [`id`](crate::id).
    pub id: u16,
    /// The fixed header of an acquisition (340 bytes), image (198) or waveform (32, aligned 40).
    pub header: &'a [u8],
    /// A configuration name, without its zero.
    pub name: &'a [u8],
    /// A configuration text, header text or text.
    pub text: &'a [u8],
    /// An acquisition's trajectory.
    pub trajectory: &'a [u8],
    /// An acquisition's samples, channel after channel.
    pub samples: &'a [u8],
    /// An image's attributes.
    pub attributes: &'a [u8],
    /// An image's pixels.
    pub pixels: &'a [u8],
    /// A waveform's data.
    pub waveform: &'a [u8],
}

impl Message<'_> {
    /// Writes the message into `out` from `position` on and gives the position after it; a refusal (2 to 8, 10,
    /// 18, 21, 14) writes nothing. An image's header gets the length of its attributes, whatever it holds there, and
    /// the filler of an aligned waveform header is written as zero. The order of messages is not judged: check the
    /// whole stream.
    pub fn write(&self, rules: Rules, out: &mut [u8], position: usize) -> Result<usize, Refusal> {
        let parts = [
            self.name,
            self.text,
            self.trajectory,
            self.samples,
            self.attributes,
            self.pixels,
            self.waveform,
        ];
        let put = raw::write(rules.given(), self.id, self.header, parts, out, position);
        match put.refusal {
            0 => Ok(put.position),
            // A writer's refusal is of no stream, so that it has no place.
            number => Err(Refusal {
                number,
                place: None,
            }),
        }
    }
}
