//! Messages built by hand for the tests, with offsets written out from documents 01 and 02.

#![allow(dead_code)]

use second_reader::{Layout, Rules};

/// Each of these functions as a test under each layout and profile.
#[macro_export]
macro_rules! under_all_rules {
    ($($test:ident)*) => {
        mod packed {
            $(#[test] fn $test() { super::$test(second_reader::Rules::PACKED) })*
        }
        mod aligned {
            $(#[test] fn $test() { super::$test(second_reader::Rules::ALIGNED) })*
        }
        mod strict_packed {
            $(#[test] fn $test() { super::$test(second_reader::Rules::PACKED.strict()) })*
        }
        mod strict_aligned {
            $(#[test] fn $test() { super::$test(second_reader::Rules::ALIGNED.strict()) })*
        }
    };
}

/// What all rules answer alike.
pub fn one_answer<T: PartialEq + std::fmt::Debug>(under: impl Fn(Rules) -> T) -> T {
    let [packed, others @ ..] = Rules::ALL.map(under);
    for other in others {
        assert_eq!(other, packed);
    }
    packed
}

pub fn put16(bytes: &mut [u8], at: usize, number: u16) {
    bytes[at..at + 2].copy_from_slice(&number.to_le_bytes());
}

pub fn put32(bytes: &mut [u8], at: usize, number: u32) {
    bytes[at..at + 4].copy_from_slice(&number.to_le_bytes());
}

pub fn put64(bytes: &mut [u8], at: usize, number: u64) {
    bytes[at..at + 8].copy_from_slice(&number.to_le_bytes());
}

/// A message of an id and what follows it.
pub fn message(id: u16, pieces: &[&[u8]]) -> Vec<u8> {
    let mut bytes = id.to_le_bytes().to_vec();
    for piece in pieces {
        bytes.extend_from_slice(piece);
    }
    bytes
}

pub fn close() -> Vec<u8> {
    message(4, &[])
}

pub fn text_message(id: u16, text: &[u8]) -> Vec<u8> {
    message(id, &[&(text.len() as u32).to_le_bytes(), text])
}

pub fn name_message(name: &[u8], filler: u8) -> Vec<u8> {
    let mut field = vec![filler; 1_024];
    field[..name.len()].copy_from_slice(name);
    field[name.len()] = 0;
    message(1, &[&field])
}

/// An acquisition header of version 1 with a zero mask.
pub fn acquisition_header(samples: u16, channels: u16, dimensions: u16) -> Vec<u8> {
    let mut header = vec![0; 340];
    put16(&mut header, 0, 1);
    put16(&mut header, 34, samples);
    put16(&mut header, 36, channels);
    put16(&mut header, 38, channels);
    put16(&mut header, 176, dimensions);
    header
}

pub fn acquisition(header: &[u8]) -> Vec<u8> {
    let number = |at: usize| usize::from(u16::from_le_bytes([header[at], header[at + 1]]));
    let body = number(34) * number(176) * 4 + number(38) * number(34) * 8;
    let body: Vec<u8> = (0..body).map(|i| (i % 251) as u8).collect();
    message(1008, &[header, &body])
}

pub fn image_header(matrix: [u16; 3], channels: u16, data_type: u16, attributes: u32) -> Vec<u8> {
    let mut header = vec![0; 198];
    put16(&mut header, 0, 1);
    put16(&mut header, 2, data_type);
    put16(&mut header, 16, matrix[0]);
    put16(&mut header, 18, matrix[1]);
    put16(&mut header, 20, matrix[2]);
    put16(&mut header, 34, channels);
    put32(&mut header, 194, attributes);
    header
}

pub fn image(header: &[u8], attributes: &[u8], pixels: &[u8]) -> Vec<u8> {
    let length = (attributes.len() as u64).to_le_bytes();
    message(1022, &[header, &length, attributes, pixels])
}

/// The bytes of a waveform header.
pub fn waveform_size(rules: Rules) -> usize {
    match rules.layout {
        Layout::Packed => 32,
        Layout::Aligned => 40,
    }
}

/// Where a waveform header has its scan counter.
pub fn waveform_counter(rules: Rules) -> usize {
    match rules.layout {
        Layout::Packed => 14,
        Layout::Aligned => 20,
    }
}

/// A waveform header of version 1; filler is zero.
pub fn waveform_header(rules: Rules, samples: u16, channels: u16) -> Vec<u8> {
    let mut header = vec![0; waveform_size(rules)];
    let (samples_at, channels_at) = match rules.layout {
        Layout::Packed => (22, 24),
        Layout::Aligned => (28, 30),
    };
    put16(&mut header, 0, 1);
    put16(&mut header, samples_at, samples);
    put16(&mut header, channels_at, channels);
    header
}

pub fn waveform_message(header: &[u8], data: &[u8]) -> Vec<u8> {
    message(1026, &[header, data])
}

/// Messages after an empty header text, so that data may stand among them, without a close.
pub fn headed(messages: &[&[u8]]) -> Vec<u8> {
    let mut stream = text_message(3, b"");
    for bytes in messages {
        stream.extend_from_slice(bytes);
    }
    stream
}

/// The same with a close.
pub fn whole(messages: &[&[u8]]) -> Vec<u8> {
    let mut stream = headed(messages);
    stream.extend_from_slice(&close());
    stream
}
