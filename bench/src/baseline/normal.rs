//! The normal form: the stream checked, copied, the filler of its configuration name cleared, and the attribute length
//! put into the image headers that say 0.

use super::headers::{u32_at, Kind};
use super::reader::{Record, Records};
use super::{Refusal, NAME_FIELD, STATED_LENGTH};
use std::ops::Range;

/// Writes the normal form to the front of `out` and gives its length.
pub fn normal_form(stream: &[u8], out: &mut [u8]) -> Result<usize, Refusal> {
    let (filler, images) = changes(stream)?;
    let out = out.get_mut(..stream.len()).ok_or(Refusal::of(14))?;
    out.copy_from_slice(stream);
    out[filler].fill(0);
    for record in images.into_iter().flatten() {
        put_length(out, &record?);
    }
    Ok(stream.len())
}

/// The walk that checks the stream, and on its way finds what is to be changed: the filler of the name, of which there
/// is one at most, and image headers from the first that says 0 of attributes on. Most streams have none.
fn changes(stream: &[u8]) -> Result<(Range<usize>, Option<Records<'_>>), Refusal> {
    let (mut filler, mut images) = (0..0, None);
    for record in Records::of(stream) {
        let record = record?;
        match record.kind {
            Kind::Name { length } => {
                filler = record.start + 2 + length..record.start + 2 + NAME_FIELD
            }
            Kind::Image {
                attribute_length: 1..,
                ..
            } if images.is_none() && u32_at(stream, stated(&record)) == 0 => {
                images = Some(Records::before(stream, &record))
            }
            _ => {}
        }
    }
    Ok((filler, images))
}

/// Where an image's header says its attribute length.
fn stated(image: &Record) -> usize {
    image.start + 2 + STATED_LENGTH
}

fn put_length(out: &mut [u8], record: &Record) {
    if let Kind::Image {
        attribute_length, ..
    } = record.kind
    {
        // An accepted message is so short that its attribute length fits in four bytes.
        let length = (attribute_length as u32).to_le_bytes();
        out[stated(record)..][..4].copy_from_slice(&length);
    }
}
