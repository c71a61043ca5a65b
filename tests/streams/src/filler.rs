//! What the filler of an aligned waveform header holds (document 02, E3): anything, and none of it matters.

use crate::messages::Message;
use crate::rng::Rng;
use second_reader::{Record, Rules};

/// Filler as senders leave it: zeros, zeros but for one byte, or what the header already has there.
pub fn draw(rng: &mut Rng, message: &mut Message) {
    let table = message.table().expect("a kind with a header");
    let filler = table.filler();
    match rng.below(4) {
        _ if filler.is_empty() => {}
        0 => table.clear_filler(&mut message.header),
        1 => {
            table.clear_filler(&mut message.header);
            message.header[rng.pick(&filler)] = 1 << rng.below(8);
        }
        _ => {}
    }
}

/// The bytes of a stream that are filler of this record's header.
pub fn places_of(rules: Rules, record: &Record) -> Vec<usize> {
    let table = record.detail.kind().table(rules);
    let filler = table.map_or(vec![], |table| table.filler());
    let header = record.start as usize + 2;
    filler.into_iter().map(|at| header + at).collect()
}

/// The same of all these records.
pub fn places(rules: Rules, records: &[Record]) -> Vec<usize> {
    let of = |record| places_of(rules, record);
    records.iter().flat_map(of).collect()
}
