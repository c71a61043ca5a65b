//! Questions about a stream: place and kind, field, find; and flags and counter steps, which
//! need no stream. A question gives the stream refusal first, then 15, then 16, 17 or 20.

use crate::headers::{read_element, Field, ACQUISITION};
use crate::index::{agrees_with, GivenIndex};
use crate::kinds::Kind;
use crate::refusal::Refused;
use crate::rules::Rules;
use crate::stream::{records, Record};

/// The records of an accepted stream with which the given index, if any, agrees.
fn trusted_records(rules: Rules, stream: &[u8], given: GivenIndex) -> Result<Vec<Record>, Refused> {
    let records = records(rules, stream)?;
    if agrees_with(rules, stream, &records, given) {
        Ok(records)
    } else {
        Err(Refused::Other(15))
    }
}

/// Place and kind of the record of that number.
pub fn kind_and_place(
    rules: Rules,
    stream: &[u8],
    given: GivenIndex,
    number: u64,
) -> Result<Record, Refused> {
    let records = trusted_records(rules, stream, given)?;
    records
        .into_iter()
        .find(|record| record.number == number)
        .ok_or(Refused::Other(16))
}

/// The fixed header's bytes of a record; empty for kinds without one.
fn header_of<'a>(rules: Rules, stream: &'a [u8], record: &Record) -> &'a [u8] {
    &stream[record.start as usize + 2..][..record.detail.kind().header_size(rules)]
}

/// The header element that starts at `offset`, counted from the header's first byte.
pub fn field(
    rules: Rules,
    stream: &[u8],
    given: GivenIndex,
    number: u64,
    offset: u64,
) -> Result<Field, Refused> {
    let record = kind_and_place(rules, stream, given, number)?;
    let element = record
        .detail
        .kind()
        .table(rules)
        .and_then(|table| table.element_at(offset));
    match element {
        Some(element) => Ok(read_element(
            header_of(rules, stream, &record),
            offset as usize,
            element,
        )),
        None => Err(Refused::Other(20)),
    }
}

/// The number of the first acquisition from record `from` on with exactly these counters. A list
/// that has not seventeen numbers equals none.
pub fn find(
    rules: Rules,
    stream: &[u8],
    given: GivenIndex,
    from: u64,
    counters: &[u16],
) -> Result<u64, Refused> {
    for record in trusted_records(rules, stream, given)? {
        if record.number >= from
            && record.detail.kind() == Kind::Acquisition
            && counters_of(header_of(rules, stream, &record)) == counters
        {
            return Ok(record.number);
        }
    }
    Err(Refused::Other(16))
}

/// The seventeen counters of an acquisition header.
pub fn counters_of(header: &[u8]) -> Vec<u16> {
    (0..17)
        .map(|i| ACQUISITION.whole(header, "counters", i) as u16)
        .collect()
}

/// The value of flag n alone: bit n - 1, for n from 1 to 64.
fn flag_value(n: u64) -> Option<u64> {
    if (1..=64).contains(&n) {
        Some(1 << (n - 1))
    } else {
        None
    }
}

pub fn flag_is_set(flags: u64, n: u64) -> bool {
    match flag_value(n) {
        Some(value) => flags & value != 0,
        None => false,
    }
}

pub fn flag_set(flags: u64, n: u64) -> u64 {
    match flag_value(n) {
        Some(value) => flags | value,
        None => flags,
    }
}

pub fn flag_cleared(flags: u64, n: u64) -> u64 {
    match flag_value(n) {
        Some(value) => flags & !value,
        None => flags,
    }
}

/// Later minus earlier scan counter, around the 32-bit wrap and read as signed.
pub fn counter_step(earlier: u32, later: u32) -> i32 {
    let around = (i64::from(later) - i64::from(earlier)).rem_euclid(1 << 32);
    if around < 1 << 31 {
        around as i32
    } else {
        (around - (1 << 32)) as i32
    }
}
