//! Streams of many bytes that take next to none on the disk: their texts are holes of the file.

use std::fs::File;
use std::os::unix::fs::FileExt;

/// The most bytes that a text may have.
pub const LONGEST_TEXT: u64 = 268_435_450;

/// A stream of an empty header text, `texts` texts of `length` zeros each, and then `after`. Gives where each message
/// begins, and the stream's length.
pub fn write(path: &str, texts: u64, length: u64, after: &[u8]) -> (Vec<u64>, u64) {
    let file = File::create_new(path).expect("a new file");
    let put = |bytes: &[u8], at| file.write_all_at(bytes, at).expect("a write");
    put(&[3, 0, 0, 0, 0, 0], 0);
    let mut starts = vec![0];
    let mut at = 6;
    for _ in 0..texts {
        starts.push(at);
        put(&[5, 0], at);
        put(&(length as u32).to_le_bytes(), at + 2);
        at += 6 + length;
    }
    starts.push(at);
    put(after, at);
    let end = at + after.len() as u64;
    file.set_len(end).expect("a length");
    (starts, end)
}

pub const CLOSE: [u8; 2] = [4, 0];
