//! The library's answers in the second reader's words, so that the two can be compared.

use cotterleaf::{Field, Kind, Mask, Record, Refusal};
use second_reader::{Detail, Refused};
use std::ops::Range;

/// An answer, or the refusal with its number and, for a stream's, its record and byte.
pub type Answer<T> = Result<T, Refused>;

pub fn refused(refusal: Refusal) -> Refused {
    match refusal.place {
        Some(fault) => Refused::Stream(second_reader::Refusal {
            number: refusal.number,
            record: fault.record as u64,
            byte: fault.byte as u64,
        }),
        None => Refused::Other(refusal.number),
    }
}

/// A length, count or number.
pub fn number(answer: Result<usize, Refusal>) -> Answer<u64> {
    answer.map(|number| number as u64).map_err(refused)
}

pub fn record(record: Record) -> second_reader::Record {
    second_reader::Record {
        number: record.number as u64,
        start: record.start as u64,
        size: record.size as u64,
        detail: detail(record.kind),
    }
}

fn detail(kind: Kind) -> Detail {
    match kind {
        Kind::ConfigurationName { length } => Detail::ConfigurationName {
            length: length as u64,
        },
        Kind::ConfigurationText { length } => Detail::ConfigurationText {
            length: length as u64,
        },
        Kind::HeaderText { length } => Detail::HeaderText {
            length: length as u64,
        },
        Kind::Close => Detail::Close,
        Kind::Text { length } => Detail::Text {
            length: length as u64,
        },
        Kind::Acquisition {
            number_of_samples: samples,
            active_channels,
            trajectory_dimensions,
            mask,
        } => Detail::Acquisition {
            samples,
            active_channels,
            dimensions: trajectory_dimensions,
            mask: mask_answer(mask),
        },
        Kind::Image {
            matrix_size,
            channels,
            data_type,
            attribute_length,
        } => Detail::Image {
            matrix_size,
            channels,
            data_type,
            attribute_length,
        },
        Kind::Waveform {
            number_of_samples: samples,
            channels,
        } => Detail::Waveform { samples, channels },
    }
}

fn mask_answer(mask: Mask) -> second_reader::Mask {
    match mask {
        Mask::NotStated => second_reader::Mask::NotStated,
        Mask::Agrees { ones } => second_reader::Mask::Agrees { ones: ones.into() },
        Mask::Differs { ones } => second_reader::Mask::Differs { ones: ones.into() },
    }
}

pub fn field(field: Field) -> second_reader::Field {
    match field {
        Field::Whole(number) => second_reader::Field::Whole(number),
        Field::Signed(number) => second_reader::Field::Signed(number),
        Field::Float { bits } => second_reader::Field::Float(bits),
    }
}

pub fn part(place: Range<usize>) -> second_reader::Part {
    second_reader::Part {
        start: place.start as u64,
        length: place.len() as u64,
    }
}

/// Where a view lies in the given stream, by the addresses of both.
pub fn part_by_address(stream: &[u8], view: &[u8]) -> second_reader::Part {
    let start = (view.as_ptr() as usize).wrapping_sub(stream.as_ptr() as usize);
    second_reader::Part {
        start: start as u64,
        length: view.len() as u64,
    }
}
