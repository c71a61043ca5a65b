//! Flags and scan counters, which need no stream.

use crate::tally::{Outcome, Tally};
use second_reader as second;
use streams::{counter_pair, flag, Rng};

pub fn flags_and_counters(tally: &Tally, rng: &mut Rng) -> Outcome {
    let flags = match rng.below(4) {
        0 => 0,
        1 => u64::MAX,
        _ => rng.number(),
    };
    // The library takes 32 bits: what is drawn above them is no flag of either.
    let n = flag(rng).min(u64::from(u32::MAX));
    let asked = n as u32;
    let question = |what: &str| format!("{what} of flag {n} in {flags:#x}");
    tally.same_value(
        || question("test"),
        cotterleaf::flag_test(flags, asked),
        second::flag_is_set(flags, n),
    )?;
    tally.same_value(
        || question("set"),
        cotterleaf::flag_set(flags, asked),
        second::flag_set(flags, n),
    )?;
    tally.same_value(
        || question("clear"),
        cotterleaf::flag_clear(flags, asked),
        second::flag_cleared(flags, n),
    )?;
    let (earlier, later) = counter_pair(rng);
    tally.same_value(
        || format!("step from {earlier} to {later}"),
        cotterleaf::counter_step(earlier, later),
        second::counter_step(earlier, later),
    )
}
