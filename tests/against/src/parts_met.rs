//! Of which parts a run has asked for a byte (document 02, E12), under each layout and profile: the first byte of a
//! part, one inside it and the last, for each part of each kind, and every byte of each header.

use crate::tally::rules_name;
use second_reader::{Kind, MessagePart, PartAt, Rules};
use std::collections::BTreeMap;

/// How often a part's first byte was asked for, one inside it, and its last. The only byte of a part is both its
/// first and its last.
#[derive(Clone, Copy, Default)]
struct Times {
    first: u64,
    inside: u64,
    last: u64,
}

/// What was met where both readers agreed.
#[derive(Default)]
pub struct PartsMet {
    bytes: BTreeMap<(Rules, Kind, &'static str), Times>,
    /// How often each byte of a header was asked for, by its offset.
    headers: BTreeMap<(Rules, Kind), Vec<u64>>,
}

/// The parts that messages of this kind have, by name.
fn own_parts(kind: Kind) -> &'static [&'static str] {
    match kind {
        Kind::ConfigurationName => &["id", "name", "rest of the name"],
        Kind::ConfigurationText | Kind::HeaderText | Kind::Text => &["id", "length", "text"],
        Kind::Close => &["id"],
        Kind::Acquisition => &["id", "header", "trajectory", "channel"],
        Kind::Image => &["id", "header", "length", "attributes", "pixels"],
        Kind::Waveform => &["id", "header", "waveform"],
    }
}

pub fn part_name(part: MessagePart) -> &'static str {
    match part {
        MessagePart::Id => "id",
        MessagePart::Length => "length",
        MessagePart::Header => "header",
        MessagePart::Name => "name",
        MessagePart::NameRest => "rest of the name",
        MessagePart::Text => "text",
        MessagePart::Attributes => "attributes",
        MessagePart::Trajectory => "trajectory",
        MessagePart::Channel(_) => "channel",
        MessagePart::Pixels => "pixels",
        MessagePart::Waveform => "waveform",
    }
}

/// The kinds that have a header, with its size.
fn headers(rules: Rules) -> impl Iterator<Item = (Kind, usize)> {
    let sizes = Kind::ALL.map(|kind| (kind, kind.header_size(rules)));
    sizes.into_iter().filter(|&(_, size)| size > 0)
}

impl PartsMet {
    /// Notes the answer about a byte.
    pub fn note(&mut self, rules: Rules, byte: u64, answer: &PartAt) {
        let kind = answer.record.detail.kind();
        let part = (rules, kind, part_name(answer.part));
        let times = self.bytes.entry(part).or_default();
        let offset = byte - answer.place.start;
        let last = answer.place.length - 1;
        times.first += u64::from(offset == 0);
        times.inside += u64::from(offset != 0 && offset != last);
        times.last += u64::from(offset == last);
        if answer.part == MessagePart::Header {
            let unasked = || vec![0; kind.header_size(rules)];
            let header = self.headers.entry((rules, kind)).or_insert_with(unasked);
            header[offset as usize] += 1;
        }
    }

    /// Counts what another share of the streams has met too.
    pub fn add(&mut self, other: PartsMet) {
        for (part, more) in other.bytes {
            let times = self.bytes.entry(part).or_default();
            times.first += more.first;
            times.inside += more.inside;
            times.last += more.last;
        }
        for (header, more) in other.headers {
            let unasked = || vec![0; more.len()];
            let times = self.headers.entry(header).or_insert_with(unasked);
            times.iter_mut().zip(more).for_each(|(n, more)| *n += more);
        }
    }

    fn times(&self, rules: Rules, kind: Kind, part: &'static str) -> Times {
        let part = (rules, kind, part);
        self.bytes.get(&part).copied().unwrap_or_default()
    }

    /// The bytes of a header that were never asked for.
    fn unasked(&self, rules: Rules, kind: Kind) -> Vec<usize> {
        let header = self.headers.get(&(rules, kind));
        let size = kind.header_size(rules);
        let asked = |offset: &usize| header.is_some_and(|header| header[*offset] > 0);
        (0..size).filter(|offset| !asked(offset)).collect()
    }

    /// A line for each kind.
    pub fn print(&self, rules: Rules) {
        println!("bytes asked for, first of their part, inside it and last:");
        for kind in Kind::ALL {
            let counts = own_parts(kind).iter().map(|part| {
                let times = self.times(rules, kind, part);
                format!("{part} {} {} {}", times.first, times.inside, times.last)
            });
            let counts: Vec<String> = counts.collect();
            println!("{kind:?}: {}", counts.join(", "));
        }
        for (kind, size) in headers(rules) {
            let asked = size - self.unasked(rules, kind).len();
            println!("header of {kind:?}: {asked} of its {size} bytes asked for");
        }
    }

    /// What a run must meet under these rules and did not, and parts that no message of a kind has.
    pub fn missing(&self, rules: Rules) -> Vec<String> {
        let mut missing = Vec::new();
        let under = rules_name(rules);
        for kind in Kind::ALL {
            for part in own_parts(kind) {
                let times = self.times(rules, kind, part);
                // An id has two bytes, and none between them.
                let inside = *part == "id" || times.inside > 0;
                for (met, what) in [
                    (times.first > 0, "first byte"),
                    (inside, "byte inside"),
                    (times.last > 0, "last byte"),
                ] {
                    if !met {
                        missing.push(format!("{what} of {part} of {kind:?}, {under}"));
                    }
                }
            }
        }
        for (kind, _) in headers(rules) {
            let unasked = self.unasked(rules, kind);
            if !unasked.is_empty() {
                missing.push(format!("bytes {unasked:?} of a {kind:?} header, {under}"));
            }
        }
        missing.extend(self.strange(rules));
        missing
    }

    /// Parts in kinds that have none of them.
    fn strange(&self, rules: Rules) -> Vec<String> {
        let met = self.bytes.keys().filter(|part| part.0 == rules);
        let strange = met.filter(|(_, kind, part)| !own_parts(*kind).contains(part));
        strange
            .map(|(_, kind, part)| format!("a rule for {part} in {kind:?}"))
            .collect()
    }
}
