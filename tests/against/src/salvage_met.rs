//! Which salvages a run has met (document 02, E2), under each layout and profile: of streams that are accepted and of
//! those that are refused with each number.

use crate::strict::NUMBERS;
use crate::tally::rules_name;
use crate::walk::Read;
use second_reader::{Profile, Rules};
use std::collections::BTreeMap;

/// The rows of the table: the answer of the stream that was salvaged. 12 is told apart by what it is for.
const ROWS: [&str; 17] = [
    "accepted",
    "1",
    "2",
    "3",
    "4",
    "5",
    "6",
    "7",
    "8",
    "9",
    "10",
    "11",
    "12 for order",
    AFTER_A_CLOSE,
    "13",
    "19",
    "21",
];

pub const AFTER_A_CLOSE: &str = "12 after a close";

/// Its columns: a report and rooms of each sort, a close that was added, no message kept, and what a tear left.
const COLUMNS: [&str; 4] = ["salvaged", "close added", "nothing kept", "torn"];

/// The row of a stream.
pub fn row_of(read: &Read) -> &'static str {
    match read.answer {
        Ok(_) => "accepted",
        Err(refusal) if refusal.number != 12 => NUMBERS[refusal.number as usize],
        Err(_) if read.is_closed() => AFTER_A_CLOSE,
        Err(_) => "12 for order",
    }
}

/// Whether these rules have streams of that row. Text is judged in the strict profile alone.
fn is_known(rules: Rules, row: &str) -> bool {
    row != "21" || rules.profile == Profile::Strict
}

/// Whether a run must meet this; what it need not meet cannot be.
fn is_due(rules: Rules, row: &str, column: &str) -> bool {
    is_known(rules, row)
        && match column {
            "close added" => row != "accepted" && row != AFTER_A_CLOSE,
            // Data, which has 4 and 6 to 9, stands behind a header text; and a million messages are many.
            "nothing kept" => matches!(
                row,
                "1" | "2" | "3" | "5" | "10" | "11" | "12 for order" | "13" | "21"
            ),
            // Of accepted streams, or of what stands before a fault.
            "torn" => matches!(row, "accepted" | "1" | "3" | "11" | "13"),
            _ => true,
        }
}

/// The columns of a row.
fn columns(rules: Rules, row: &'static str) -> impl Iterator<Item = &'static str> {
    COLUMNS
        .into_iter()
        .filter(move |column| is_due(rules, row, column))
}

/// What was met where both readers agreed.
#[derive(Default)]
pub struct SalvagesMet {
    times: BTreeMap<(Rules, &'static str, &'static str), u64>,
}

impl SalvagesMet {
    pub fn note(&mut self, rules: Rules, row: &'static str, column: &'static str) {
        *self.times.entry((rules, row, column)).or_default() += 1;
    }

    /// Counts what another share of the streams has met too.
    pub fn add(&mut self, other: SalvagesMet) {
        for (thing, times) in other.times {
            *self.times.entry(thing).or_default() += times;
        }
    }

    fn times(&self, rules: Rules, row: &'static str, column: &'static str) -> u64 {
        *self.times.get(&(rules, row, column)).unwrap_or(&0)
    }

    /// A line for each row.
    pub fn print(&self, rules: Rules) {
        println!("salvages, by the answer of the stream:");
        for row in ROWS.into_iter().filter(|row| is_known(rules, row)) {
            let counts = columns(rules, row)
                .map(|column| format!("{column} {}", self.times(rules, row, column)));
            println!("{row}: {}", counts.collect::<Vec<_>>().join(", "));
        }
    }

    /// What a run must meet under these rules and did not, and what cannot be.
    pub fn missing(&self, rules: Rules) -> Vec<String> {
        let mut missing = Vec::new();
        let under = rules_name(rules);
        for row in ROWS {
            for column in columns(rules, row) {
                if self.times(rules, row, column) == 0 {
                    missing.push(format!("salvage: {row}, {column}, {under}"));
                }
            }
        }
        let met = self.times.keys().filter(|met| met.0 == rules);
        let strange = met.filter(|(_, row, column)| !is_due(rules, row, column));
        missing
            .extend(strange.map(|(_, row, column)| format!("a rule for {row}, {column}, {under}")));
        missing
    }
}
