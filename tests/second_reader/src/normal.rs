//! The normal form of an accepted stream.

use crate::message::{put_stated_length, Detail};
use crate::refusal::Refused;
use crate::rules::Rules;
use crate::stream::records;
use crate::NAME_FIELD;

/// Fills the front of `output` with the stream in which the bytes after each configuration
/// name's first zero and the filler of each header are zero and each image header holds the true
/// attribute length, and gives its length, which is the stream's: the stream refusal, then 14.
pub fn normal_form(rules: Rules, stream: &[u8], output: &mut [u8]) -> Result<u64, Refused> {
    let records = records(rules, stream)?;
    if output.len() < stream.len() {
        return Err(Refused::Other(14));
    }
    output[..stream.len()].copy_from_slice(stream);
    for record in records {
        let message = &mut output[record.start as usize..][..record.size as usize];
        if let Some(table) = record.detail.kind().table(rules) {
            table.clear_filler(&mut message[2..]);
        }
        match record.detail {
            Detail::ConfigurationName { length } => {
                message[2..][..NAME_FIELD][length as usize..].fill(0);
            }
            Detail::Image {
                attribute_length, ..
            } => put_stated_length(message, attribute_length),
            _ => {}
        }
    }
    Ok(stream.len() as u64)
}
