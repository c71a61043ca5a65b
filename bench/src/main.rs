//! Measures the proved library against plain Rust on the same bytes in the same run, and prints the results as
//! a markdown table.
//!
//!   bench            all streams, several rounds; give it an idle machine
//!   bench --quick    small streams, one round: shows that answers and bytes are the same
//!   bench --before   check and walk alone, by the plain profile, beside those of an older library that the build
//!                    linked (see build.rs)

mod agree;
mod baseline;
#[cfg(before)]
mod before;
mod library;
mod made;
mod operations;
mod reads;
mod table;
mod texts;
mod timing;

use made::{Shape, IMAGES, LARGE, MEDIUM, SMALL, WAVEFORMS};
use operations::Measured;
use timing::Effort;

const MB: usize = 1_000_000;

/// The streams by their number of messages. A stream may have at most 1,000,000, so that small messages end
/// at some 220 MB.
fn streams_of(quick: bool) -> Vec<(Shape, usize)> {
    if quick {
        return vec![
            (SMALL, 2_000),
            (MEDIUM, 500),
            (IMAGES, 500),
            (WAVEFORMS, 500),
            (LARGE, LARGE.messages_in(2 * MB)),
        ];
    }
    vec![
        (SMALL, SMALL.messages_in(10 * MB)),
        (SMALL, SMALL.messages_in(100 * MB)),
        (SMALL, 1_000_000),
        (MEDIUM, 1_000_000),
        (IMAGES, IMAGES.messages_in(100 * MB)),
        (WAVEFORMS, WAVEFORMS.messages_in(100 * MB)),
        (LARGE, LARGE.messages_in(10 * MB)),
        (LARGE, LARGE.messages_in(100 * MB)),
        (LARGE, LARGE.messages_in(1_000 * MB)),
    ]
}

fn measure(measured: &Measured) -> Vec<table::Row> {
    // Written once, so that no page of the output is met for the first time while the clock runs.
    let longest = baseline::index::length(measured.messages).max(measured.stream.len());
    measured.rows(&mut vec![0xAA; longest])
}

/// What is measured on all streams, one after the other.
fn rows_of(
    quick: bool,
    effort: Effort,
    measure: fn(&Measured) -> Vec<table::Row>,
) -> Vec<table::Row> {
    let mut rows = vec![];
    for (shape, messages) in streams_of(quick) {
        eprintln!("{}, {} messages", shape.name, table::thousands(messages));
        let stream = shape.stream(messages);
        rows.extend(measure(&Measured {
            name: shape.name,
            stream: &stream,
            messages,
            effort,
        }));
    }
    rows
}

/// The rows of one operation stand together, by growing streams.
fn print_table(head: &str, mut rows: Vec<table::Row>) {
    println!("{head}");
    let operations: Vec<&str> = rows.iter().map(|row| row.operation).collect();
    rows.sort_by_key(|row| operations.iter().position(|&name| name == row.operation));
    for row in rows {
        println!("{}", row.line());
    }
}

fn print_second_reader(effort: Effort) {
    let stream = SMALL.stream(SMALL.messages_in(10 * MB));
    let messages = SMALL.messages_in(10 * MB);
    let seconds = operations::second_reader_check(&stream, effort).median;
    println!(
        "\nThe tests' second reader, written for clarity, takes {:.1} ns a message for the check of the first stream.",
        seconds * 1e9 / messages as f64
    );
}

/// Check and walk beside those of the older library.
fn print_before() {
    #[cfg(before)]
    print_table(before::HEAD, rows_of(false, Effort::FULL, before::rows));
    #[cfg(not(before))]
    panic!("no older library is linked: bench/run --before FOLDER builds with one");
}

fn main() {
    let quick = match std::env::args().nth(1).as_deref() {
        None => false,
        Some("--quick") => true,
        Some("--before") => return print_before(),
        Some(other) => panic!("{other}: bench [--quick | --before]"),
    };
    let effort = if quick { Effort::QUICK } else { Effort::FULL };
    agree::on_drawn_streams(if quick { 60 } else { 200 }, 1);
    let mut rows = rows_of(quick, effort, measure);
    rows.extend(texts::rows(quick, effort));
    print_table(table::HEAD, rows);
    print_second_reader(effort);
    reads::print(effort);
}
