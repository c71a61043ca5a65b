//! The text of the message at which a stream is refused, as far as it is there, whatever else is wrong with the
//! message: what a run looks at to tell whether 21 was a second fault of it.

use second_reader::utf8::{first_fault, Fault};
use second_reader::{numbers, Kind, Refusal};

/// A message's text, and what stands behind it in the stream.
#[derive(Clone, Copy, Debug)]
pub struct FaultyText<'a> {
    pub kind: Kind,
    pub text: &'a [u8],
    pub after: &'a [u8],
}

/// The text at a refusal, if a message of a kind that has text stands there.
pub fn text_at(stream: &[u8], refusal: Refusal) -> Option<FaultyText<'_>> {
    let left = &stream[refusal.byte as usize..];
    if left.len() < 2 {
        return None;
    }
    let kind = Kind::of_id(numbers::read(left, 0, 2) as u16)?;
    let (text, length) = match kind {
        Kind::ConfigurationName => name(&left[2..]),
        Kind::ConfigurationText | Kind::HeaderText | Kind::Text => {
            (left.get(6..)?, stated(left, 2, 4))
        }
        Kind::Image => (left.get(208..)?, stated(left, 200, 8)),
        _ => return None,
    };
    let (text, after) = text.split_at(length.min(text.len()));
    Some(FaultyText { kind, text, after })
}

/// A name begins after the id, and has at most the 1,024 bytes of its field.
fn name(field: &[u8]) -> (&[u8], usize) {
    let zero = field.iter().position(|&byte| byte == 0);
    (field, zero.unwrap_or(1_024).min(1_024))
}

fn stated(message: &[u8], at: usize, width: usize) -> usize {
    numbers::read(message, at, width) as usize
}

impl FaultyText<'_> {
    /// Whether some byte of it already shows that it is not UTF-8: where it is cut short it may only seem to end
    /// inside a character.
    pub fn is_bad(&self) -> bool {
        first_fault(self.text).is_some_and(|(_, fault)| fault != Fault::CutByEnd)
    }
}
