//! The writer of one message. It judges one message, not the order of several.

use crate::kinds::Kind;
use crate::message::{header_detail, header_fault, text_detail, text_part, text_refused};
use crate::message::{put_stated_length, Detail, PartName};
use crate::numbers;
use crate::rules::Rules;
use crate::{LARGEST_MESSAGE, NAME_FIELD};

/// The seven variable parts; those that the kind lacks must be empty.
#[derive(Clone, Copy, Debug, Default)]
pub struct Parts<'a> {
    pub name: &'a [u8],
    pub text: &'a [u8],
    pub trajectory: &'a [u8],
    pub samples: &'a [u8],
    pub attributes: &'a [u8],
    pub pixels: &'a [u8],
    pub waveform: &'a [u8],
}

impl<'a> Parts<'a> {
    pub fn get(&self, name: PartName) -> &'a [u8] {
        match name {
            PartName::Name => self.name,
            PartName::Text => self.text,
            PartName::Trajectory => self.trajectory,
            PartName::Samples => self.samples,
            PartName::Attributes => self.attributes,
            PartName::Pixels => self.pixels,
            PartName::Waveform => self.waveform,
        }
    }
}

/// Puts one message into `output` from `position` on and gives the position after it. Refusals
/// are 2 to 8 and 10 in order, then 18, then 21, then 14; a refusal writes no byte. There is no 9: what an
/// image header holds as attribute length is not looked at, and the true one is put there; nor is
/// what any header holds as filler, and zeros are put there.
pub fn write(
    rules: Rules,
    id: u16,
    header: &[u8],
    parts: &Parts,
    output: &mut [u8],
    position: u64,
) -> Result<u64, u32> {
    let kind = Kind::of_id(id).ok_or(2_u32)?;
    let detail = judge_given(rules, kind, header, parts)?;
    if detail.size(rules) > LARGEST_MESSAGE {
        return Err(10);
    }
    if !parts_fit(rules, &detail, parts) {
        return Err(18);
    }
    let text = text_part(kind).map_or(&[][..], |name| parts.get(name));
    if text_refused(rules, text) {
        return Err(21);
    }
    let end = u128::from(position) + detail.size(rules);
    if end > output.len() as u128 {
        return Err(14);
    }
    let message = message_bytes(rules, &detail, header, parts);
    output[position as usize..end as usize].copy_from_slice(&message);
    Ok(end as u64)
}

/// Checks 3 to 8, and the message's own numbers: an image's attribute length and a text's length
/// are those of the given bytes.
fn judge_given(rules: Rules, kind: Kind, header: &[u8], parts: &Parts) -> Result<Detail, u32> {
    if header.len() != kind.header_size(rules) {
        return Err(3);
    }
    if let Some(number) = header_fault(rules, kind, header) {
        return Err(number);
    }
    match kind {
        Kind::Close => Ok(Detail::Close),
        Kind::ConfigurationName => {
            if parts.name.len() >= NAME_FIELD || parts.name.contains(&0) {
                return Err(5);
            }
            Ok(Detail::ConfigurationName {
                length: parts.name.len() as u64,
            })
        }
        Kind::ConfigurationText | Kind::HeaderText | Kind::Text => {
            Ok(text_detail(kind, parts.text.len() as u64))
        }
        Kind::Acquisition | Kind::Image | Kind::Waveform => {
            // Of use to an image alone.
            let attribute_length = parts.attributes.len() as u64;
            Ok(header_detail(rules, kind, header, attribute_length))
        }
    }
}

/// Check 18: each part has the length that the header says, and those of other kinds are empty.
fn parts_fit(rules: Rules, detail: &Detail, parts: &Parts) -> bool {
    PartName::ALL.into_iter().all(|name| {
        let wanted = detail.part(rules, name).map_or(0, |(_, length)| length);
        parts.get(name).len() as u128 == wanted
    })
}

fn message_bytes(rules: Rules, detail: &Detail, header: &[u8], parts: &Parts) -> Vec<u8> {
    let kind = detail.kind();
    let mut message = vec![0; detail.size(rules) as usize];
    numbers::put(&mut message, 0, 2, u64::from(kind.id()));
    message[2..2 + header.len()].copy_from_slice(header);
    if let Some(table) = kind.table(rules) {
        table.clear_filler(&mut message[2..]);
    }
    if kind.is_text() {
        numbers::put(&mut message, 2, 4, parts.text.len() as u64);
    }
    if kind == Kind::Image {
        let length = parts.attributes.len() as u64;
        put_stated_length(&mut message, length);
        numbers::put(&mut message, 2 + header.len(), 8, length);
    }
    for name in PartName::ALL {
        if let Some((start, length)) = detail.part(rules, name) {
            message[start as usize..][..length as usize].copy_from_slice(parts.get(name));
        }
    }
    message
}
