//! A whole stream: the order of messages, the verdict, and all records.

use crate::headers::{read_element, Field};
use crate::kinds::Kind;
use crate::message::{judge, Detail, PartName, STATED_LENGTH};
use crate::numbers;
use crate::refusal::Refusal;
use crate::rules::Rules;
use crate::MOST_MESSAGES;

/// A record's place (number from 0, start, size with the id) and its kind with its own numbers.
#[derive(Clone, Copy, Debug, PartialEq, Eq)]
pub struct Record {
    pub number: u64,
    pub start: u64,
    pub size: u64,
    pub detail: Detail,
}

/// What of the order's rules has been met so far.
#[derive(Clone, Copy, Default)]
struct Seen {
    configuration: bool,
    header: bool,
    close: bool,
}

impl Seen {
    /// Whether a message of this kind may come now. Data never stands before the header, so a
    /// configuration before the header stands before all data too.
    fn allows(self, kind: Kind) -> bool {
        if self.close {
            false
        } else if kind.is_configuration() {
            !self.configuration && !self.header
        } else if kind == Kind::HeaderText {
            !self.header
        } else if kind.is_data() {
            self.header
        } else {
            true
        }
    }

    fn note(&mut self, kind: Kind) {
        self.configuration |= kind.is_configuration();
        self.header |= kind == Kind::HeaderText;
        self.close |= kind == Kind::Close;
    }
}

/// The number of records of an accepted stream, or its stream refusal.
pub fn check(rules: Rules, stream: &[u8]) -> Result<u64, Refusal> {
    records(rules, stream).map(|records| records.len() as u64)
}

/// The records of an accepted stream in their order, or its stream refusal.
pub fn records(rules: Rules, stream: &[u8]) -> Result<Vec<Record>, Refusal> {
    match records_before_fault(rules, stream) {
        (records, None) => Ok(records),
        (_, Some(refusal)) => Err(refusal),
    }
}

/// The records of a stream before its first faulty message, and the stream refusal. An accepted stream has no fault:
/// these are all its records.
pub fn records_before_fault(rules: Rules, stream: &[u8]) -> (Vec<Record>, Option<Refusal>) {
    let mut records = Vec::new();
    let mut seen = Seen::default();
    let mut at = 0;
    loop {
        let left = &stream[at..];
        if seen.close && left.is_empty() {
            return (records, None);
        }
        let number = records.len() as u64;
        match next(rules, number, left, seen) {
            Ok(detail) => {
                seen.note(detail.kind());
                records.push(Record {
                    number,
                    start: at as u64,
                    size: detail.size(rules) as u64,
                    detail,
                });
                at += detail.size(rules) as usize;
            }
            Err(refused) => {
                let refusal = Refusal {
                    number: refused,
                    record: number,
                    byte: at as u64,
                };
                return (records, Some(refusal));
            }
        }
    }
}

/// The checks at one message, in the paper's order: 12 after a close, 13, 19, 1, 2, 12, then
/// 3 to 11, then 21.
fn next(rules: Rules, number: u64, left: &[u8], seen: Seen) -> Result<Detail, u32> {
    if seen.close {
        return Err(12);
    }
    if left.is_empty() {
        return Err(13);
    }
    if number >= MOST_MESSAGES {
        return Err(19);
    }
    if left.len() == 1 {
        return Err(1);
    }
    let kind = match Kind::of_id(numbers::read(left, 0, 2) as u16) {
        Some(kind) => kind,
        None => return Err(2),
    };
    if !seen.allows(kind) {
        return Err(12);
    }
    judge(rules, kind, left)
}

/// A record where compared: its kind and whole content.
#[derive(Clone, Debug, PartialEq, Eq)]
pub struct Content {
    pub kind: Kind,
    /// Every element of the fixed header, in the table's order. Filler is none, and neither is an
    /// image's attribute length (document 02, E3 and E1): the attributes themselves have it.
    pub fields: Vec<Field>,
    pub parts: Vec<(PartName, Vec<u8>)>,
}

/// The record list of an accepted stream, without any use of the normal form.
pub fn contents(rules: Rules, stream: &[u8]) -> Result<Vec<Content>, Refusal> {
    let records = records(rules, stream)?;
    Ok(records
        .iter()
        .map(|record| content(rules, stream, record))
        .collect())
}

fn content(rules: Rules, stream: &[u8], record: &Record) -> Content {
    let message = &stream[record.start as usize..][..record.size as usize];
    let kind = record.detail.kind();
    let mut fields = Vec::new();
    if let Some(table) = kind.table(rules) {
        let left_out = table.entry(STATED_LENGTH).map(|entry| entry.offset);
        for (offset, element) in table.elements() {
            if Some(offset) != left_out {
                fields.push(read_element(&message[2..], offset, element));
            }
        }
    }
    let mut parts = Vec::new();
    for name in PartName::ALL {
        if let Some((start, length)) = record.detail.part(rules, name) {
            parts.push((name, message[start as usize..][..length as usize].to_vec()));
        }
    }
    Content {
        kind,
        fields,
        parts,
    }
}
