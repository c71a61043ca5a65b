//! What the listing program prints.

use crate::mask::Mask;
use crate::message::Detail;
use crate::rules::{Layout, Profile, Rules};
use crate::stream::records;
use std::fmt::Write;

/// The most bytes that the listing program reads from its standard input.
pub const MOST_INPUT: usize = 65_536;

/// The one layout and the one profile that the listing program knows (document 02, E3 and E9).
const LISTED: Rules = Rules {
    layout: Layout::Packed,
    profile: Profile::Plain,
};

/// The whole standard output for this standard input; every line ends in one line feed.
pub fn listing(input: &[u8]) -> String {
    if input.len() > MOST_INPUT {
        return "input over 65536 bytes\n".to_string();
    }
    let mut lines = String::new();
    match records(LISTED, input) {
        Ok(records) => {
            lines.push_str("record id start bytes\n");
            for record in &records {
                let id = record.detail.kind().id();
                let mask = differing_mask(&record.detail);
                writeln!(
                    lines,
                    "{} {} {} {}{mask}",
                    record.number, id, record.start, record.size
                )
                .expect("a string takes every line");
            }
            writeln!(lines, "ok {} records {} bytes", records.len(), input.len())
                .expect("a string takes every line");
        }
        Err(refusal) => {
            writeln!(
                lines,
                "refused {} at record {} byte {}",
                refusal.number, refusal.record, refusal.byte
            )
            .expect("a string takes every line");
        }
    }
    lines
}

/// How the line of an acquisition whose mask differs ends; nothing for all others.
fn differing_mask(detail: &Detail) -> String {
    match detail {
        Detail::Acquisition {
            mask: Mask::Differs { ones },
            ..
        } => format!(" mask {ones}"),
        _ => String::new(),
    }
}
