//! The library's number reads beside those that they replaced and beside Rust's own, on the same bytes. Each is read
//! in a loop over all places of a slice, as the library reads: where it is used, and not by a call.

use crate::operations::taken;
use crate::timing::{alternately, Effort, Times};
use reads::{new_together, old_together, plain_together};
use std::hint::black_box;
use streams::rng::Rng;

/// As many as the processor keeps at hand.
const BYTES: usize = 16 * 1024;

const HEAD: &str = "\
| bytes read | now | before | speed, before = 1 | Rust's `from_le_bytes` | speed, Rust's = 1 |
|---|---|---|---|---|---|";

fn cell(times: Times, places: usize) -> String {
    let each = |seconds: f64| seconds * 1e9 / places as f64;
    let (median, least, most) = (each(times.median), each(times.least), each(times.most));
    format!("{median:.2} ns ({least:.2} to {most:.2})")
}

fn line(width: usize, s: &[u8], effort: Effort) -> String {
    let places = s.len() + 1 - width;
    assert_eq!(
        new_together(s, width, places),
        old_together(s, width, places)
    );
    assert_eq!(
        new_together(s, width, places),
        plain_together(s, width, places)
    );
    let new = &mut || taken(new_together(black_box(s), black_box(width), places));
    let old = &mut || taken(old_together(black_box(s), black_box(width), places));
    let plain = &mut || taken(plain_together(black_box(s), black_box(width), places));
    let before = alternately(effort, new, old);
    let rust = alternately(effort, new, plain);
    format!(
        "| {width} | {} | {} | {:.2} | {} | {:.2} |",
        cell(before.library, places),
        cell(before.baseline, places),
        before.speed,
        cell(rust.baseline, places),
        rust.speed
    )
}

pub fn print(effort: Effort) {
    let s = Rng::new(3).bytes(BYTES);
    println!("\n{HEAD}");
    for width in [2, 4, 8] {
        println!("{}", line(width, &s, effort));
    }
}
