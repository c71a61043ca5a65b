//! Writes a sample stream to standard output: `sample all_kinds`, `sample configuration_text` or
//! `sample aligned_waveforms`.

use std::io::Write;
use std::process::ExitCode;
use streams::sample;

fn main() -> ExitCode {
    let stream = match std::env::args().nth(1).as_deref() {
        None | Some("all_kinds") => sample::all_kinds(),
        Some("configuration_text") => sample::configuration_text(),
        Some("aligned_waveforms") => sample::aligned_waveforms(),
        Some(other) => {
            let names = "all_kinds, configuration_text and aligned_waveforms";
            eprintln!("no sample is named {other}; there are {names}");
            return ExitCode::FAILURE;
        }
    };
    match std::io::stdout().write_all(&stream) {
        Ok(()) => ExitCode::SUCCESS,
        Err(error) => {
            eprintln!("standard output: {error}");
            ExitCode::FAILURE
        }
    }
}
