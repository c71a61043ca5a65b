//! The results as a markdown table.

use crate::timing::{Compared, Times};

#[derive(Clone, Copy, PartialEq, Eq)]
pub enum Unit {
    /// Nanoseconds for each message of the stream.
    PerMessage,
    /// Gigabytes of stream in a second.
    Bandwidth,
}

pub struct Row {
    pub operation: &'static str,
    pub stream: &'static str,
    pub bytes: usize,
    pub messages: usize,
    pub unit: Unit,
    pub times: Compared,
}

pub const HEAD: &str = "\
| operation | stream | MB | messages | library | baseline | speed, baseline = 1 |
|---|---|---|---|---|---|---|";

impl Row {
    /// The median, and the spread over all rounds in brackets.
    fn cell(&self, times: Times) -> String {
        let each = |seconds: f64| match self.unit {
            Unit::PerMessage => seconds * 1e9 / self.messages as f64,
            Unit::Bandwidth => self.bytes as f64 / seconds / 1e9,
        };
        let (one, other) = (each(times.least), each(times.most));
        let (low, high) = (one.min(other), one.max(other));
        match self.unit {
            Unit::PerMessage => format!("{:.1} ns ({low:.1} to {high:.1})", each(times.median)),
            Unit::Bandwidth => format!("{:.2} GB/s ({low:.2} to {high:.2})", each(times.median)),
        }
    }

    pub fn line(&self) -> String {
        format!(
            "| {} | {} | {} | {} | {} | {} | {:.2} |",
            self.operation,
            self.stream,
            megabytes(self.bytes),
            thousands(self.messages),
            self.cell(self.times.library),
            self.cell(self.times.baseline),
            self.times.speed,
        )
    }
}

pub fn megabytes(bytes: usize) -> String {
    format!("{:.1}", bytes as f64 / 1e6)
}

/// A number with commas between thousands.
pub fn thousands(number: usize) -> String {
    let digits = number.to_string();
    let mut written = String::new();
    for (i, digit) in digits.chars().enumerate() {
        if i > 0 && (digits.len() - i).is_multiple_of(3) {
            written.push(',');
        }
        written.push(digit);
    }
    written
}
