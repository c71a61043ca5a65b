//! Check and walk beside those of an older library, on the same bytes in the same run. The functions are declared as that
//! library has them: before request E12, in version 0.4.0, the rules are those of today. Both libraries are asked by the
//! plain profile and with packed waveform headers.

use crate::library::{self, Cursor};
use crate::operations::{library_walk, taken, walked_by, Measured};
use crate::table::{Row, Unit};
use crate::timing::alternately;
use cotterleaf::raw::{mrd_checked, mrd_step};
use std::hint::black_box;

/// `mrd_rules` as that library has it.
#[repr(C)]
#[derive(Clone, Copy)]
struct Rules {
    aligned_waveforms: bool,
    strict_text: bool,
}

const PACKED: Rules = Rules {
    aligned_waveforms: false,
    strict_text: false,
};

extern "C" {
    fn before_mrd_check(rules: Rules, stream: *const u8, stream_length: usize) -> mrd_checked;
    fn before_mrd_next(
        rules: Rules,
        stream: *const u8,
        stream_length: usize,
        cursor: Cursor,
    ) -> mrd_step;
}

pub const HEAD: &str = "\
| operation | stream | MB | messages | now | before | speed, before = 1 |
|---|---|---|---|---|---|---|";

fn check(stream: &[u8]) -> mrd_checked {
    // SAFETY: the pointer and length are those of a slice that is borrowed for the call.
    unsafe { before_mrd_check(PACKED, stream.as_ptr(), stream.len()) }
}

fn next(stream: &[u8], cursor: Cursor) -> mrd_step {
    // SAFETY: the pointer and length are those of a slice that is borrowed for the call; any cursor may be given.
    unsafe { before_mrd_next(PACKED, stream.as_ptr(), stream.len(), cursor) }
}

fn check_row(of: &Measured) -> Row {
    let s = of.stream;
    assert_eq!(library::counted(check(s)), Ok(of.messages));
    assert_eq!(library::check(s), Ok(of.messages));
    let times = alternately(
        of.effort,
        &mut || taken(library::check(black_box(s))),
        &mut || taken(library::counted(check(black_box(s)))),
    );
    of.row("check", Unit::PerMessage, times)
}

fn walk_row(of: &Measured) -> Row {
    let s = of.stream;
    assert_eq!(walked_by(next, s), library_walk(s));
    let times = alternately(
        of.effort,
        &mut || taken(library_walk(black_box(s))),
        &mut || taken(walked_by(next, black_box(s))),
    );
    of.row("walk", Unit::PerMessage, times)
}

pub fn rows(of: &Measured) -> Vec<Row> {
    vec![check_row(of), walk_row(of)]
}
