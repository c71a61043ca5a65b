//! The strict profile: check 21, after all others of its message, by Rust's own `from_utf8`.

use super::headers::Kind;
use super::reader::{Record, Records};
use super::Refusal;
use std::str::from_utf8;

pub const NOT_UTF8: u32 = 21;

/// The name, text or attributes of a record; empty where its kind has none of them.
fn text_of<'a>(stream: &'a [u8], record: &Record) -> &'a [u8] {
    let message = &stream[record.start..][..record.size];
    let body = &message[record.kind.front() as usize..];
    match record.kind {
        Kind::Name { length } => &message[2..2 + length],
        Kind::Text { .. } => body,
        Kind::Image {
            attribute_length, ..
        } => &body[..attribute_length as usize],
        _ => &[],
    }
}

/// The texts of an accepted stream, in order.
pub fn texts(stream: &[u8]) -> Vec<&[u8]> {
    let records = Records::of(stream).map(|record| record.expect("an accepted stream"));
    records.map(|record| text_of(stream, &record)).collect()
}

pub fn all_utf8(texts: &[&[u8]]) -> bool {
    texts.iter().all(|text| from_utf8(text).is_ok())
}

/// The number of records of a stream that the strict profile accepts.
pub fn check(stream: &[u8]) -> Result<usize, Refusal> {
    let mut count = 0;
    for record in Records::of(stream) {
        let record = record?;
        if from_utf8(text_of(stream, &record)).is_err() {
            return Err(Refusal {
                number: NOT_UTF8,
                record: record.number,
                byte: record.start,
            });
        }
        count += 1;
    }
    Ok(count)
}
