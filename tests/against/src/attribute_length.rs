//! What an image header says of its attributes: their length or 0, and both mean the same (document 02, E1).

use crate::answers;
use crate::case::Case;
use crate::tally::{Outcome, Tally};
use cotterleaf::{Cursor, Field};
use second_reader::message::header_detail;
use second_reader::{Detail, Kind, Record, Refusal, Refused};
use streams::{stated, Rng};

/// Where the header has that number.
const OFFSET: usize = 194;

/// An image and its true attribute length.
type Image = (Record, u64);

/// Notes what the header of an image says that a walk hands out.
pub fn note(tally: &mut Tally, bytes: &[u8], record: &Record) {
    if let Detail::Image {
        attribute_length, ..
    } = record.detail
    {
        let what = match (stated::of(bytes, record), attribute_length) {
            (_, 0) => "0 without attributes",
            (0, _) => "0 with attributes",
            _ => "their length",
        };
        tally.note("image header says", what);
    }
}

/// Notes a stream that is refused at an image whose attribute length no header can say.
pub fn note_refused(tally: &mut Tally, case: Case, refusal: Refusal) {
    let faulty = &case.bytes[refusal.byte as usize..];
    if !matches!(refusal.number, 9 | 10) || faulty[..2] != Kind::Image.id().to_le_bytes() {
        return;
    }
    let (stated, length) = stated::both(faulty);
    let low_word = length & u64::from(u32::MAX);
    if length == low_word {
        return;
    }
    let past_64_bits = || {
        let detail = header_detail(case.rules, Kind::Image, &faulty[2..], length);
        detail.size(case.rules) >> 64 != 0
    };
    let what = match refusal.number {
        10 if past_64_bits() => "10 with a size past 64 bits",
        10 if low_word == 0 => "10 with 0 as low word",
        10 => "10 with 0 in the header",
        _ if stated == low_word => "9 with the low word",
        _ => "9 with another number",
    };
    tally.note("attributes of 2^32 bytes or more", what);
}

/// The stream beside one in which every image header says 0 in place of the length, and the length in place of 0: the
/// places and the normal form are the same, a field question shows what is stored, and any other number is 9.
pub fn either_number(tally: &mut Tally, rng: &mut Rng, case: Case, records: &[Record]) -> Outcome {
    let images = stated::images(records);
    if images.is_empty() {
        return Ok(());
    }
    let mut other = case.bytes.to_vec();
    for (image, length) in &images {
        let number = match stated::of(case.bytes, image) {
            0 => *length,
            _ => 0,
        };
        stated::set(&mut other, image, number);
    }
    one_normal_form(tally, case, &other, &images)?;
    let drawn = rng.pick(&images);
    shown_as_stored(tally, case, &drawn.0)?;
    shown_as_stored(tally, case.with(&other), &drawn.0)?;
    another_number(tally, rng, case.with(&other), drawn)
}

/// Both streams have one normal form, in which each header says the true length.
fn one_normal_form(tally: &mut Tally, case: Case, other: &[u8], images: &[Image]) -> Outcome {
    let bytes = case.bytes;
    let question = || "normal form with other numbers in image headers".to_string();
    let mut normal = vec![0xEE; bytes.len()];
    let mut others = vec![0xDD; bytes.len()];
    for (stream, out) in [(bytes, &mut normal), (other, &mut others)] {
        let answer = case.with(stream).library().normal_form(out);
        tally.same_value(question, answer, Ok(bytes.len()))?;
    }
    tally.same_buffer(question, &normal, &others)?;
    for (image, length) in images {
        let question = || format!("attribute length of {image:?} in the normal form");
        tally.same_value(question, stated::of(&normal, image), *length)?;
        let what = match (stated::of(bytes, image), *length) {
            (_, 0) => "0 kept",
            (0, _) => "0 made the length",
            _ => "the length kept",
        };
        tally.note("image header in a normal form", what);
    }
    Ok(())
}

/// The field is the stored number, by the image's number and at its cursor; its place and kind are those of the true
/// length.
fn shown_as_stored(tally: &Tally, case: Case, image: &Record) -> Outcome {
    let stream = case.library();
    let n = image.number as usize;
    let stored = Ok(Field::Whole(stated::of(case.bytes, image)));
    let question = |what: &str| format!("{what} of an image header that says {stored:?}");
    tally.same_value(|| question("field"), stream.field(n, OFFSET), stored)?;
    let cursor = Cursor {
        number: n,
        start: image.start as usize,
        // Images stand after the header.
        phase: 2,
    };
    let field = stream.field_at(cursor, OFFSET);
    tally.same_value(|| question("field at the cursor"), field, stored)?;
    let place = stream.place(n).map(answers::record);
    tally.same_value(|| question("place"), place, Ok(*image))
}

/// A number that is neither the length nor 0 is refused, at that image.
fn another_number(tally: &Tally, rng: &mut Rng, case: Case, (image, length): Image) -> Outcome {
    let mut bytes = case.bytes.to_vec();
    let number = stated::wrong(rng, length);
    stated::set(&mut bytes, &image, number);
    let refused = Err(Refused::Stream(Refusal {
        number: 9,
        record: image.number,
        byte: image.start,
    }));
    let checked = answers::number(case.with(&bytes).library().check());
    let question = || format!("check with {number} in the header of {image:?}");
    tally.same_value(question, checked, refused)
}
