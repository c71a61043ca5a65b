//! Lists the records of a recorded stream and, of each readout, its scan counter and first sample:
//!
//!     cargo run --example read -- ../samples/all_kinds.mrd

use cotterleaf::{Refusal, Rules, Stream};
use std::process::ExitCode;

fn list(bytes: &[u8]) -> Result<(), Refusal> {
    // Packed waveform headers; `Rules::aligned()` is for aligned ones, and with `.strict()` texts must be UTF-8.
    // Nothing in a stream tells the rules that it goes by.
    for record in Stream::new(Rules::packed(), bytes).records() {
        let record = record?;
        println!(
            "{} at byte {}: {:?}",
            record.number, record.start, record.kind
        );
        let header = record.acquisition();
        if let Some(header) = header.filter(|header| header.active_channels() > 0) {
            // The samples are read where they lie in `bytes`: nothing is copied.
            let first = record.samples(0)?.next();
            println!("  scan {}, first sample {first:?}", header.scan_counter());
        }
    }
    Ok(())
}

fn main() -> ExitCode {
    let path = std::env::args().nth(1).expect("the path of a stream");
    let bytes = std::fs::read(&path).expect("a file that can be read");
    match list(&bytes) {
        Ok(()) => ExitCode::SUCCESS,
        Err(refusal) => {
            // Such as: refused 13 at record 8, byte 6307: the stream ends without a close; wait for ..
            eprintln!("{path}: {refusal}");
            ExitCode::FAILURE
        }
    }
}
