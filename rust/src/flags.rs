//! Flags and scan counters.

use crate::raw;

/// Whether flag `n`, 1 to 64, is set; false for any other.
pub fn flag_test(flags: u64, n: u32) -> bool {
    raw::flag_test(flags, n)
}

/// The flags with flag `n`, 1 to 64, set; unchanged for any other.
pub fn flag_set(flags: u64, n: u32) -> u64 {
    raw::flag_set(flags, n)
}

/// The flags with flag `n`, 1 to 64, cleared; unchanged for any other.
pub fn flag_clear(flags: u64, n: u32) -> u64 {
    raw::flag_clear(flags, n)
}

/// The later scan counter minus the earlier around the 32-bit wrap: 1 is next, above 1 a gap of one less, 0 a
/// repeat, below 0 a step back.
pub fn counter_step(earlier: u32, later: u32) -> i32 {
    raw::counter_step(earlier, later)
}
