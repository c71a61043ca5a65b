//! The part that a byte belongs to (document 02, E12): every byte of short streams, and drawn bytes and both ends of
//! parts of others, with bytes past the end. What a part's view shows is that part.

use crate::answers::{self, Answer};
use crate::asked::name_of;
use crate::case::{raw_rules, Case};
use crate::parts_met::part_name;
use crate::plain;
use crate::strict::NUMBERS;
use crate::tally::{Family, Outcome, Tally};
use crate::walk::Read;
use cotterleaf::{raw, HeaderPiece, Index, MessagePart, Part};
use second_reader::MessagePart as Is;
use second_reader::{self as second, Detail, HeaderByte, Kind, Layout, Refusal, Refused};
use second_reader::{parts_of, StreamParts, Table, Type};
use streams::Rng;

/// An accepted stream of up to this many bytes may be asked for all of them. Each answer walks the whole stream.
const SHORT: usize = 2_500;

/// The same of a refused stream, which has one answer for all bytes.
const SHORT_REFUSED: usize = 400;

/// A stream of up to this many parts may be asked for both ends of each.
const FEW_PARTS: usize = 400;

/// The groups of a refused stream's numbers, by which byte was asked for.
pub const REFUSED: [&str; 3] = [
    "refused, a byte before the fault",
    "refused, a byte from the fault on",
    "refused, a byte past the end",
];

/// Asks about bytes of one stream: drawn ones, and of some streams all, or both ends of each part.
pub fn ask(tally: &mut Tally, rng: &mut Rng, case: Case, read: &Read) -> Outcome {
    let asked = Bytes::of(case);
    let drawn = drawn_bytes(rng, case, read);
    for &byte in &drawn {
        asked.byte(tally, byte)?;
        asked.plain_struct(tally, byte)?;
    }
    if rng.one_in(8) {
        asked.beside_an_index(tally, rng.pick(&drawn))?;
    }
    if !rng.one_in(20) {
        return Ok(());
    }
    let short = match asked.parts {
        Ok(_) => SHORT,
        Err(_) => SHORT_REFUSED,
    };
    if case.bytes.len() <= short {
        asked.every_byte(tally, rng)
    } else if asked.places.len() <= FEW_PARTS {
        asked.both_ends(tally)
    } else {
        Ok(())
    }
}

/// Both ends of each part of a stream that is too long for more.
pub fn ask_both_ends(tally: &mut Tally, case: Case) -> Outcome {
    Bytes::of(case).both_ends(tally)
}

/// These bytes of a stream.
pub fn ask_bytes(tally: &mut Tally, case: Case, bytes: &[usize]) -> Outcome {
    let asked = Bytes::of(case);
    for &byte in bytes {
        asked.byte(tally, byte)?;
        asked.plain_struct(tally, byte)?;
    }
    Ok(())
}

/// A byte past the end. Cut to 32 bits, or without its highest bit, some of them are bytes of the stream.
fn past_the_end(rng: &mut Rng, length: usize) -> usize {
    let inside = rng.below(length as u64 + 1) as usize;
    let high = [1 << 32, 1 << 63].map(|bit| bit + inside);
    rng.pick(&[length, length + 1, high[0], high[1], usize::MAX])
}

/// Bytes that a wrong reader might answer wrongly: both ends of a part, any byte, one past the end, and of a refused
/// stream one before the fault and one after it.
fn drawn_bytes(rng: &mut Rng, case: Case, read: &Read) -> Vec<usize> {
    let length = case.bytes.len();
    let mut bytes = vec![past_the_end(rng, length)];
    let fault = read.answer.err().map_or(0, |refusal| refusal.byte as usize);
    for range in [0..fault, fault..length] {
        if !range.is_empty() {
            bytes.push(range.start + rng.below(range.len() as u64) as usize);
        }
    }
    if !read.records.is_empty() {
        let n = rng.below(read.count()) as usize;
        let parts = parts_of(case.rules, &read.records[n]);
        let (_, place) = rng.pick(&parts);
        // Where an empty part would stand, the byte is another part's.
        bytes.push(place.start as usize);
        bytes.push((place.start + place.length.max(1) - 1) as usize);
    }
    bytes
}

/// A stream, and what the second reader says of its bytes: its parts are listed once for all questions.
struct Bytes<'a> {
    case: Case<'a>,
    parts: Result<StreamParts, Refusal>,
    /// Where each part lies, empty ones too.
    places: Vec<second::Part>,
    /// The empty parts by where they would stand.
    empty: Vec<(u64, &'static str)>,
}

impl<'a> Bytes<'a> {
    fn of(case: Case<'a>) -> Bytes<'a> {
        let parts = StreamParts::of(case.rules, case.bytes);
        let mut places = Vec::new();
        let mut empty = Vec::new();
        for record in parts.as_ref().map_or(&[][..], StreamParts::records) {
            let own = parts_of(case.rules, record);
            places.extend(own.iter().map(|(_, place)| place));
            for (part, place) in own.iter().filter(|(_, place)| place.length == 0) {
                empty.push((place.start, empty_name(record.detail, *part)));
            }
            if let Detail::Acquisition {
                active_channels: 0, ..
            } = record.detail
            {
                empty.push((record.start + record.size, "no channel"));
            }
        }
        // Of many empty channels at one place one is enough.
        empty.dedup();
        Bytes {
            case,
            parts,
            places,
            empty,
        }
    }

    fn second(&self, byte: usize) -> Answer<second::PartAt> {
        match &self.parts {
            Ok(parts) => parts.at(byte as u64),
            Err(refusal) => Err((*refusal).into()),
        }
    }

    /// Compares the answers about one byte, and the view of its part where the byte is the part's first.
    fn byte(&self, tally: &mut Tally, byte: usize) -> Outcome {
        let second = self.second(byte);
        let library = self.case.library().part_at(byte);
        let library = library.map(in_second_words).map_err(answers::refused);
        let question = || format!("part of byte {byte}");
        tally.same(Family::PartAt, question, library, second)?;
        match second {
            Ok(answer) => {
                self.filler(tally, byte, &answer)?;
                if answer.place.start == byte as u64 {
                    self.view(tally, &answer)?;
                }
                self.note_answer(tally, byte as u64, &answer);
            }
            Err(refused) => self.note_refused(tally, byte, refused),
        }
        Ok(())
    }

    /// Every byte, and those past the end.
    fn every_byte(&self, tally: &mut Tally, rng: &mut Rng) -> Outcome {
        let length = self.case.bytes.len();
        for byte in (0..length + 2).chain([usize::MAX]) {
            self.byte(tally, byte)?;
            if rng.one_in(4) {
                self.plain_struct(tally, byte)?;
            }
        }
        let what = match self.parts {
            Ok(_) => "of an accepted stream",
            Err(_) => "of a refused stream",
        };
        tally.note("every byte asked for", what);
        Ok(())
    }

    /// The first and the last byte of each part; where a part is empty, the bytes around its place.
    fn both_ends(&self, tally: &mut Tally) -> Outcome {
        for place in &self.places {
            self.byte(tally, place.start as usize)?;
            let end = place.start + place.length;
            self.byte(tally, end as usize - 1)?;
        }
        Ok(())
    }

    /// What a view shows of the part is the part.
    fn view(&self, tally: &mut Tally, answer: &second::PartAt) -> Outcome {
        let Some(part) = shown(answer.part) else {
            return Ok(());
        };
        let n = answer.record.number as usize;
        let place = self.case.library().view_place(n, part);
        let place = place.map(answers::part).map_err(answers::refused);
        let question = || format!("{part:?} of record {n}, which holds a byte");
        tally.same_value(question, place, Ok(answer.place))?;
        tally.note("view of the part that holds a byte", name_of(part));
        Ok(())
    }

    /// The bytes that document 02 calls filler, and no others: 2 to 7, 38 and 39 of aligned waveform headers.
    fn filler(&self, tally: &mut Tally, byte: usize, answer: &second::PartAt) -> Outcome {
        let Some(is) = answer.header_byte else {
            return Ok(());
        };
        let aligned = self.case.rules.layout == Layout::Aligned;
        let waveform = answer.record.detail.kind() == Kind::Waveform;
        let offset = byte as u64 - answer.place.start;
        let filler = aligned && waveform && matches!(offset, 2..=7 | 38 | 39);
        let question = || format!("whether byte {byte} is filler");
        tally.same_value(question, is == HeaderByte::Filler, filler)?;
        match (waveform, aligned, filler) {
            (false, _, _) => {}
            (true, false, _) => tally.note("byte of a waveform header", "packed"),
            (true, true, false) => tally.note("byte of a waveform header", "aligned"),
            (true, true, true) => tally.note("byte of a waveform header", "aligned filler"),
        }
        Ok(())
    }

    /// An index that is not the stream's own changes nothing: it is not looked at.
    fn beside_an_index(&self, tally: &mut Tally, byte: usize) -> Outcome {
        let stream = self.case.library();
        let none = Index::Columns {
            starts: &[],
            ids: &[],
            counters: &[],
        };
        for index in [Index::File(&[]), none] {
            let library = stream.with(index).part_at(byte);
            let library = library.map(in_second_words).map_err(answers::refused);
            let question = || format!("part of byte {byte}, given {index:?}");
            tally.same_value(question, library, self.second(byte))?;
        }
        if self.second(byte).is_ok() {
            tally.note("wrong index beside a byte", "not looked at");
        }
        Ok(())
    }

    /// The plain struct, every member.
    fn plain_struct(&self, tally: &Tally, byte: usize) -> Outcome {
        let question = || format!("mrd_part_at of byte {byte}");
        let library = raw::part_at(raw_rules(self.case.rules), self.case.bytes, byte);
        tally.same_value(question, library, part_answer(self.second(byte)))
    }

    fn note_answer(&self, tally: &mut Tally, byte: u64, answer: &second::PartAt) {
        tally.parts.note(self.case.rules, byte, answer);
        let from = self.empty.partition_point(|&(start, _)| start < byte);
        for &(_, name) in self.empty[from..]
            .iter()
            .take_while(|empty| empty.0 == byte)
        {
            tally.note("empty part where a byte stands", name);
        }
        match (answer.part, answer.header_byte) {
            (Is::Name | Is::NameRest, _) => note_name(tally, byte, answer),
            (Is::Channel(channel), _) => note_channel(tally, channel, answer),
            (_, Some(HeaderByte::Element { offset, .. })) => {
                let table = answer.record.detail.kind().table(self.case.rules);
                note_element(tally, table.expect("a kind with a header"), offset);
            }
            _ => {}
        }
    }

    fn note_refused(&self, tally: &mut Tally, byte: usize, refused: Refused) {
        let length = self.case.bytes.len();
        match refused {
            Refused::Stream(refusal) => {
                let group = match byte {
                    _ if byte >= length => REFUSED[2],
                    _ if byte < refusal.byte as usize => REFUSED[0],
                    _ => REFUSED[1],
                };
                tally.note(group, NUMBERS[refusal.number as usize]);
            }
            Refused::Other(_) if byte == length => tally.note("byte past the end", "the first"),
            Refused::Other(_) if byte == length + 1 => tally.note("byte past the end", "the next"),
            Refused::Other(_) if byte == usize::MAX => tally.note("byte past the end", "the last"),
            Refused::Other(_) => tally.note("byte past the end", "far from it"),
        }
    }
}

/// Why a part of a record is empty.
fn empty_name(detail: Detail, part: Is) -> &'static str {
    match (part, detail) {
        (Is::Trajectory, Detail::Acquisition { samples: 0, .. }) => "trajectory of no samples",
        (Is::Trajectory, _) => "trajectory of no dimensions",
        (Is::Waveform, Detail::Waveform { samples: 0, .. }) => "waveform of no samples",
        (Is::Waveform, _) => "waveform of no channels",
        (Is::Text, Detail::ConfigurationText { .. }) => "configuration text",
        (Is::Text, Detail::HeaderText { .. }) => "header text",
        _ => part_name(part),
    }
}

/// Notes bytes on both sides of a name's end.
fn note_name(tally: &mut Tally, byte: u64, answer: &second::PartAt) {
    let group = "byte of a name";
    let Detail::ConfigurationName { length } = answer.record.detail else {
        return;
    };
    let zero = answer.record.start + 2 + length;
    if byte == zero {
        tally.note(group, "its zero");
    } else if byte + 1 == zero {
        tally.note(group, "the last before its zero");
    } else if byte > zero {
        tally.note(group, "one after its zero");
    }
    match length {
        0 if byte == zero => tally.note(group, "the zero of an empty name"),
        1_023 if byte == zero => tally.note(group, "the zero of a longest name"),
        _ => {}
    }
}

fn note_channel(tally: &mut Tally, channel: u64, answer: &second::PartAt) {
    let group = "channel that holds a byte";
    let Detail::Acquisition {
        active_channels, ..
    } = answer.record.detail
    else {
        return;
    };
    match channel {
        0 => tally.note(group, "the first"),
        _ if channel + 1 == u64::from(active_channels) => tally.note(group, "the last of several"),
        _ => tally.note(group, "one between"),
    }
    match channel {
        65_534 => tally.note(group, "the highest"),
        256.. => tally.note(group, "one above 255"),
        _ => {}
    }
}

fn note_element(tally: &mut Tally, table: &Table, offset: u64) {
    let name = match table.element_at(offset).expect("an element") {
        Type::U16 => "u16",
        Type::U32 => "u32",
        Type::U64 => "u64",
        Type::I32 => "i32",
        Type::F32 => "f32",
    };
    tally.note("element that holds a byte", name);
}

/// The view that shows a part, if one does.
fn shown(part: Is) -> Option<Part> {
    match part {
        Is::Id | Is::Length | Is::Header | Is::NameRest => None,
        Is::Name => Some(Part::Name),
        Is::Text => Some(Part::Text),
        Is::Attributes => Some(Part::Attributes),
        Is::Trajectory => Some(Part::Trajectory),
        Is::Channel(channel) => Some(Part::Channel(channel as usize)),
        Is::Pixels => Some(Part::Pixels),
        Is::Waveform => Some(Part::Waveform),
    }
}

/// The library's answer about a byte.
fn in_second_words(answer: cotterleaf::PartAt) -> second::PartAt {
    let (part, header_byte) = match answer.part {
        MessagePart::Id => (Is::Id, None),
        MessagePart::Length => (Is::Length, None),
        MessagePart::Header(piece) => (Is::Header, Some(header_byte(piece))),
        MessagePart::NameRest => (Is::NameRest, None),
        MessagePart::Shown(Part::Name) => (Is::Name, None),
        MessagePart::Shown(Part::Text) => (Is::Text, None),
        MessagePart::Shown(Part::Attributes) => (Is::Attributes, None),
        MessagePart::Shown(Part::Trajectory) => (Is::Trajectory, None),
        MessagePart::Shown(Part::Channel(channel)) => (Is::Channel(channel as u64), None),
        MessagePart::Shown(Part::Pixels) => (Is::Pixels, None),
        MessagePart::Shown(Part::Waveform) => (Is::Waveform, None),
    };
    second::PartAt {
        record: answers::record(answer.record),
        part,
        place: answers::part(answer.range),
        header_byte,
    }
}

fn header_byte(piece: HeaderPiece) -> HeaderByte {
    match piece {
        HeaderPiece::Element { offset, size } => HeaderByte::Element {
            offset: offset as u64,
            size: size as u64,
        },
        HeaderPiece::Filler => HeaderByte::Filler,
    }
}

/// The number by which the C functions know a part, and the channel.
fn part_numbers(part: Is) -> (u32, usize) {
    match part {
        Is::Name => (1, 0),
        Is::Text => (2, 0),
        Is::Attributes => (3, 0),
        Is::Trajectory => (4, 0),
        Is::Channel(channel) => (5, channel as usize),
        Is::Pixels => (6, 0),
        Is::Waveform => (7, 0),
        Is::Id => (8, 0),
        Is::Length => (9, 0),
        Is::Header => (10, 0),
        Is::NameRest => (11, 0),
    }
}

/// The plain struct that the C function must give: what the answer lacks is 0, and its place carries a refusal too.
fn part_answer(answer: Answer<second::PartAt>) -> raw::mrd_part_answer {
    let (refusal, record, byte) = plain::refusal_of(&answer);
    let mut expected = raw::mrd_part_answer {
        refusal,
        record,
        byte,
        place: plain::placed(answer.map(|answer| answer.record)),
        ..raw::mrd_part_answer::default()
    };
    if let Ok(answer) = answer {
        (expected.part, expected.channel) = part_numbers(answer.part);
        expected.start = answer.place.start as usize;
        expected.length = answer.place.length as usize;
        if let Some(HeaderByte::Element { offset, size }) = answer.header_byte {
            expected.element_offset = offset as usize;
            expected.element_size = size as usize;
        }
    }
    expected
}
