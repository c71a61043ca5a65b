//! The index of a stream, as a file and as three columns, and the comparison with a given one.

use crate::numbers;
use crate::refusal::{Refusal, Refused};
use crate::rules::Rules;
use crate::stream::{records, Record};

/// The index in memory: one place for each record in each of three given columns. They may be
/// longer than the record count and of different lengths.
#[derive(Clone, Copy, Debug)]
pub struct Columns<'a> {
    pub starts: &'a [u64],
    pub ids: &'a [u16],
    pub counters: &'a [u32],
}

/// The three columns of a stream's own index: start, id and counter.
pub type OwnColumns = (Vec<u64>, Vec<u16>, Vec<u32>);

/// The index given with a question. `None` is no index, which is not the same as an empty one.
/// With both forms given, both must agree.
#[derive(Clone, Copy, Debug, Default)]
pub struct GivenIndex<'a> {
    pub file: Option<&'a [u8]>,
    pub columns: Option<Columns<'a>>,
}

impl<'a> GivenIndex<'a> {
    pub const NONE: GivenIndex<'static> = GivenIndex {
        file: None,
        columns: None,
    };

    pub fn file(bytes: &'a [u8]) -> GivenIndex<'a> {
        GivenIndex {
            file: Some(bytes),
            columns: None,
        }
    }

    pub fn columns(starts: &'a [u64], ids: &'a [u16], counters: &'a [u32]) -> GivenIndex<'a> {
        GivenIndex {
            file: None,
            columns: Some(Columns {
                starts,
                ids,
                counters,
            }),
        }
    }
}

/// A record's scan counter; 0 where the kind has none, as an image.
fn scan_counter(rules: Rules, stream: &[u8], record: &Record) -> u32 {
    let kind = record.detail.kind();
    let has_counter = kind
        .table(rules)
        .filter(|table| table.entry("scan_counter").is_some());
    match has_counter {
        Some(table) => table.whole(&stream[record.start as usize + 2..], "scan_counter", 0) as u32,
        None => 0,
    }
}

/// One tagged field: tag, two-byte length, and a body of little-endian numbers by width.
fn put_tagged(bytes: &mut Vec<u8>, tag: u8, body: &[(usize, u64)]) {
    let length: usize = body.iter().map(|&(width, _)| width).sum();
    bytes.push(tag);
    push_number(bytes, 2, length as u64);
    for &(width, number) in body {
        push_number(bytes, width, number);
    }
}

fn push_number(bytes: &mut Vec<u8>, width: usize, number: u64) {
    let at = bytes.len();
    bytes.resize(at + width, 0);
    numbers::put(bytes, at, width, number);
}

fn file_of(rules: Rules, stream: &[u8], records: &[Record]) -> Vec<u8> {
    let mut bytes = Vec::new();
    put_tagged(&mut bytes, 1, &[(2, 1)]);
    put_tagged(&mut bytes, 2, &[(8, stream.len() as u64)]);
    for record in records {
        let id = u64::from(record.detail.kind().id());
        let counter = u64::from(scan_counter(rules, stream, record));
        put_tagged(&mut bytes, 3, &[(8, record.start), (2, id), (4, counter)]);
    }
    put_tagged(&mut bytes, 4, &[(4, records.len() as u64)]);
    bytes
}

/// The stream's index file, whole.
pub fn index_bytes(rules: Rules, stream: &[u8]) -> Result<Vec<u8>, Refusal> {
    Ok(file_of(rules, stream, &records(rules, stream)?))
}

/// Fills the front of `output` with the index file and gives its length: the stream refusal,
/// then 14.
pub fn write_index(rules: Rules, stream: &[u8], output: &mut [u8]) -> Result<u64, Refused> {
    let bytes = index_bytes(rules, stream)?;
    if output.len() < bytes.len() {
        return Err(Refused::Other(14));
    }
    output[..bytes.len()].copy_from_slice(&bytes);
    Ok(bytes.len() as u64)
}

/// The three columns of an accepted stream.
pub fn own_columns(rules: Rules, stream: &[u8]) -> Result<OwnColumns, Refusal> {
    Ok(columns_of(rules, stream, &records(rules, stream)?))
}

fn columns_of(rules: Rules, stream: &[u8], records: &[Record]) -> OwnColumns {
    let starts = records.iter().map(|record| record.start).collect();
    let ids = records
        .iter()
        .map(|record| record.detail.kind().id())
        .collect();
    let counters = records
        .iter()
        .map(|record| scan_counter(rules, stream, record))
        .collect();
    (starts, ids, counters)
}

/// Fills the front of the three columns and gives the record count: the stream refusal, then 14
/// if any column is too short. Later places keep their content.
pub fn fill_columns(
    rules: Rules,
    stream: &[u8],
    starts: &mut [u64],
    ids: &mut [u16],
    counters: &mut [u32],
) -> Result<u64, Refused> {
    let (own_starts, own_ids, own_counters) = own_columns(rules, stream)?;
    let count = own_starts.len();
    if starts.len() < count || ids.len() < count || counters.len() < count {
        return Err(Refused::Other(14));
    }
    starts[..count].copy_from_slice(&own_starts);
    ids[..count].copy_from_slice(&own_ids);
    counters[..count].copy_from_slice(&own_counters);
    Ok(count as u64)
}

/// Whether the given index is the one this accepted stream yields. No index agrees.
pub fn agrees(rules: Rules, stream: &[u8], given: GivenIndex) -> Result<bool, Refusal> {
    Ok(agrees_with(rules, stream, &records(rules, stream)?, given))
}

/// The same for a stream whose records are known.
pub(crate) fn agrees_with(
    rules: Rules,
    stream: &[u8],
    records: &[Record],
    given: GivenIndex,
) -> bool {
    if let Some(bytes) = given.file {
        if bytes != file_of(rules, stream, records) {
            return false;
        }
    }
    if let Some(columns) = given.columns {
        let (starts, ids, counters) = columns_of(rules, stream, records);
        // `get` gives nothing where a column is too short.
        let count = records.len();
        if columns.starts.get(..count) != Some(&starts[..])
            || columns.ids.get(..count) != Some(&ids[..])
            || columns.counters.get(..count) != Some(&counters[..])
        {
            return false;
        }
    }
    true
}

#[cfg(test)]
mod tests {
    use crate::kinds::Kind;
    use crate::rules::Rules;

    #[test]
    fn only_acquisitions_and_waveforms_have_a_scan_counter() {
        for rules in Rules::ALL {
            let with: Vec<Kind> = Kind::ALL
                .into_iter()
                .filter(|kind| {
                    kind.table(rules)
                        .is_some_and(|table| table.entry("scan_counter").is_some())
                })
                .collect();
            assert_eq!(with, [Kind::Acquisition, Kind::Waveform]);
        }
    }
}
