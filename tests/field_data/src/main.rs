//! field_data PACKED ALIGNED DESCRIPTION: checks the streams of both layouts against their one
//! description and prints one line.

use field_data::check::{check_both, Compared};
use field_data::description::Description;
use second_reader::Layout;
use std::process::ExitCode;

/// What was compared in both streams together.
fn run(packed: &str, aligned: &str, description: &str) -> Result<Compared, String> {
    let text =
        std::fs::read_to_string(description).map_err(|fault| format!("{description}: {fault}"))?;
    let described = Description::parse(&text)?;
    let mut compared = Compared::default();
    for (stream, layout) in [(packed, Layout::Packed), (aligned, Layout::Aligned)] {
        let named = |fault: String| format!("{stream}: {fault}");
        let bytes = std::fs::read(stream).map_err(|fault| named(fault.to_string()))?;
        compared.add(check_both(layout, &bytes, &described).map_err(named)?);
    }
    Ok(compared)
}

fn main() -> ExitCode {
    let arguments: Vec<String> = std::env::args().skip(1).collect();
    let [packed, aligned, description] = &arguments[..] else {
        eprintln!("usage: field_data PACKED ALIGNED DESCRIPTION");
        return ExitCode::from(2);
    };
    match run(packed, aligned, description) {
        Ok(compared) => {
            println!(
                "field data: ok, {} records, {} header elements, {} flags, {} parts",
                compared.records, compared.elements, compared.flags, compared.parts
            );
            ExitCode::SUCCESS
        }
        Err(difference) => {
            println!("field data: FAILED, {difference}");
            ExitCode::FAILURE
        }
    }
}
