//! Inputs of the writer and of questions.

use crate::damaged::unknown_id;
use crate::messages::{self, message, Message};
use crate::rng::Rng;
use crate::{texts, TEXTED};
use second_reader::message::text_part;
use second_reader::message::STATED_LENGTH;
use second_reader::questions::counters_of;
use second_reader::{index_bytes, own_columns, records, Kind, PartName, Profile, Rules};

/// What a writer is given: the message's id, header and parts, an output and a position in it.
#[derive(Clone, Debug)]
pub struct WriterInput {
    pub message: Message,
    pub output: Vec<u8>,
    pub position: u64,
}

/// The numbers a writer can refuse with; 9 is none of them. The last is the strict profile's.
pub const WRITER_REFUSALS: [u32; 11] = [2, 3, 4, 5, 6, 7, 8, 10, 14, 18, 21];

/// Those that these rules know.
pub fn writer_refusals(rules: Rules) -> &'static [u32] {
    match rules.profile {
        Profile::Plain => &WRITER_REFUSALS[..10],
        Profile::Strict => &WRITER_REFUSALS,
    }
}

/// An output of random bytes that holds the message from the position on.
fn with_room(rng: &mut Rng, message: Message) -> WriterInput {
    let position = rng.size(50);
    let after = rng.size(50);
    let length = position as usize + message.bytes().len() + after as usize;
    WriterInput {
        message,
        output: rng.bytes(length),
        position,
    }
}

/// A message as a writer is given it: an image's header says anything of its attributes.
fn given(rules: Rules, rng: &mut Rng, kind: Kind, most: u64) -> Message {
    let mut message = message(rules, rng, kind, most);
    if kind == Kind::Image {
        let length = message.attributes.len() as u64;
        let stated = match rng.below(6) {
            0 | 1 => length,
            2 => 0,
            3 => length + 1,
            4 => length ^ 1 << rng.below(32),
            _ => rng.number(),
        };
        message.set(STATED_LENGTH, 0, stated);
    }
    message
}

/// Inputs that the writer accepts.
pub fn writer_input(rules: Rules, rng: &mut Rng) -> WriterInput {
    let kind = rng.pick(&Kind::ALL);
    let message = given(rules, rng, kind, 2_000);
    with_room(rng, message)
}

/// Inputs that the writer refuses with this number, one of `writer_refusals`. A text over the
/// limit of check 10 is not among them, as it would take 256 MB.
pub fn writer_input_refused(rules: Rules, rng: &mut Rng, number: u32) -> WriterInput {
    // 14 alone comes after 21: what is refused for another reason may hold any text.
    let texts = match number {
        14 => rules,
        _ => rules.plain(),
    };
    let mut input = writer_input(texts, rng);
    match number {
        2 => input.message.id = unknown_id(rng),
        3 => wrong_header_length(rng, &mut input.message),
        14 => wrong_room(rng, &mut input),
        18 => wrong_part(rng, &mut input.message),
        21 => {
            let message = not_utf8(texts, rng);
            input = with_room(rng, message);
        }
        _ => {
            let message = refused_message(texts, rng, number);
            input = with_room(rng, message);
        }
    }
    input.message.rules = rules;
    // A later refusal must not show: 14 is the last of all.
    if number != 14 && rng.one_in(3) {
        wrong_room(rng, &mut input);
    }
    input
}

fn wrong_header_length(rng: &mut Rng, message: &mut Message) {
    let right = message.header.len();
    let length = loop {
        let length = match rng.below(3) {
            // That of the other layout.
            0 if message.kind() == Some(Kind::Waveform) => 32 + 40 - right,
            0 => rng.pick(&[0, 1, 32, 40, 198, 206, 340]),
            1 => right + 1,
            _ => right.saturating_sub(1),
        };
        if length != right {
            break length;
        }
    };
    message.header.resize(length, 0);
}

/// An output too short by one or more, or a position at or past its end.
fn wrong_room(rng: &mut Rng, input: &mut WriterInput) {
    match rng.below(4) {
        0 => {
            let fits = input.position as usize + input.message.bytes().len();
            let length = match rng.below(2) {
                0 => fits - 1,
                _ => rng.below(fits as u64) as usize,
            };
            input.output.truncate(length);
        }
        1 => input.position = input.output.len() as u64,
        2 => input.position = input.output.len() as u64 + 1 + rng.size(1_000),
        _ => input.position = u64::MAX - rng.size(1_000),
    }
}

/// A part one byte too long or too short, or one that the kind lacks.
fn wrong_part(rng: &mut Rng, message: &mut Message) {
    let kind = message.kind().expect("a known kind");
    // The kind's own name, text and attributes set its size, so they never fit badly.
    let own = text_part(kind);
    let name = loop {
        let name = rng.pick(&PartName::ALL);
        if Some(name) != own {
            break name;
        }
    };
    let part = message.part_mut(name);
    if part.is_empty() || rng.one_in(2) {
        part.push(rng.number() as u8);
    } else if rng.one_in(2) {
        part.pop();
    } else {
        part.clear();
    }
}

/// A message whose text is not UTF-8.
fn not_utf8(rules: Rules, rng: &mut Rng) -> Message {
    let kind = rng.pick(&TEXTED);
    let mut message = given(rules, rng, kind, 400);
    let length = texts::length(rng, 400);
    let text = texts::any_bad(rng, length);
    message.set_own_text(match kind {
        Kind::ConfigurationName => texts::without_zeros(text),
        _ => text,
    });
    message
}

/// A message whose header or name a writer refuses with this number, one of 4 to 8 and 10.
fn refused_message(rules: Rules, rng: &mut Rng, number: u32) -> Message {
    let mut message = match number {
        5 => messages::name(rules, rng),
        6 | 7 => messages::acquisition(rules, rng, 400),
        8 => given(rules, rng, Kind::Image, 400),
        _ => {
            let kind = rng.pick(&[Kind::Acquisition, Kind::Image, Kind::Waveform]);
            given(rules, rng, kind, 400)
        }
    };
    match number {
        4 => {
            let version = rng.pick(&[0, 2, 256, 257, 65_535]);
            message.set("version", 0, version);
        }
        5 if rng.one_in(2) => {
            let at = rng.below(message.name.len() as u64 + 1) as usize;
            message.name.insert(at, 0);
        }
        5 => message.name.resize(1_024 + rng.size(3) as usize, b'n'),
        6 => {
            let active = rng.pick(&[1, 5, 1_025, 65_535]);
            let available = rng.pick(&[0, active - 1]);
            message.set("active_channels", 0, active);
            message.set("available_channels", 0, available);
        }
        7 => {
            message.set("discard_pre", 0, 65_535);
            let samples = message.get("number_of_samples", 0);
            message.set("discard_post", 0, (samples + 1).min(65_535));
        }
        8 => {
            let data_type = rng.pick(&[0, 9, 256, 65_535]);
            message.set("data_type", 0, data_type);
        }
        _ => make_too_large(&mut message),
    }
    message
}

fn make_too_large(message: &mut Message) {
    match message.kind() {
        Some(Kind::Acquisition) => {
            message.set("number_of_samples", 0, 65_535);
            message.set("trajectory_dimensions", 0, 1_025);
        }
        Some(Kind::Image) => {
            message.set("data_type", 0, 8);
            for i in 0..3 {
                message.set("matrix_size", i, 32_768);
            }
            message.set("channels", 0, 32_768);
        }
        _ => {
            message.set("number_of_samples", 0, 32_768);
            message.set("channels", 0, 32_768);
        }
    }
}

/// A given index file, and whether it is the stream's own.
#[derive(Clone, Debug)]
pub struct GivenFile {
    pub what: &'static str,
    pub right: bool,
    pub bytes: Vec<u8>,
}

/// Index files to give with an accepted stream.
pub fn given_files(rules: Rules, rng: &mut Rng, stream: &[u8]) -> Vec<GivenFile> {
    let own = index_bytes(rules, stream).expect("an accepted stream");
    let mut one_off = own.clone();
    let at = rng.below(own.len() as u64) as usize;
    one_off[at] ^= 1 << rng.below(8);
    let cut = own[..rng.below(own.len() as u64) as usize].to_vec();
    let more = 1 + rng.size(20) as usize;
    let trailing = [&own[..], &rng.bytes(more)].concat();
    let mut without_record = own.clone();
    without_record.drain(16..33);
    let others = others_file(rules, stream, &own);
    let file = |what, right, bytes| GivenFile { what, right, bytes };
    let mut files = vec![
        file("right", true, own),
        file("one byte off", false, one_off),
        file("short", false, cut),
        file("trailing bytes", false, trailing),
        file("one record less", false, without_record),
        file("empty", false, vec![]),
    ];
    files.extend(others);
    files
}

/// What an index is that was made under the other layout, where that accepts the stream too: another, or the same
/// although there are waveforms, or the same as there are none.
pub const OF_OTHER_LAYOUT: [&str; 3] = [
    "the other layout's",
    "the other layout's and the same",
    "the other layout's without waveforms",
];

fn name_of_others(right: bool, waveforms: bool) -> &'static str {
    match (right, waveforms) {
        (false, _) => OF_OTHER_LAYOUT[0],
        (true, true) => OF_OTHER_LAYOUT[1],
        (true, false) => OF_OTHER_LAYOUT[2],
    }
}

/// The index file that the other layout yields, if it accepts the stream.
fn others_file(rules: Rules, stream: &[u8], own: &[u8]) -> Option<GivenFile> {
    let bytes = index_bytes(rules.with_other_layout(), stream).ok()?;
    let right = bytes == own;
    // Each entry has its id after tag, length and start; what follows the last one is shorter.
    let id = Kind::Waveform.id().to_le_bytes();
    let mut entries = own[16..].chunks(17);
    let waveforms = entries.any(|entry| entry.get(11..13) == Some(&id));
    Some(GivenFile {
        what: name_of_others(right, waveforms),
        right,
        bytes,
    })
}

/// Given columns, and whether they hold the stream's own numbers.
#[derive(Clone, Debug)]
pub struct GivenColumns {
    pub what: &'static str,
    pub right: bool,
    pub starts: Vec<u64>,
    pub ids: Vec<u16>,
    pub counters: Vec<u32>,
}

/// Columns to give with an accepted stream.
pub fn given_columns(rules: Rules, rng: &mut Rng, stream: &[u8]) -> Vec<GivenColumns> {
    let (starts, ids, counters) = own_columns(rules, stream).expect("an accepted stream");
    let own = GivenColumns {
        what: "right",
        right: true,
        starts,
        ids,
        counters,
    };
    let [off, short] = wrong_columns(rng, &own);
    let mut long = own.clone();
    long.what = "longer";
    let more = rng.size(20) as usize;
    long.starts.extend((0..more).map(|i| i as u64));
    long.ids.push(rng.number() as u16);
    let empty = GivenColumns {
        what: "empty",
        right: false,
        starts: vec![],
        ids: vec![],
        counters: vec![],
    };
    let others = others_columns(rules, stream, &own);
    let mut columns = vec![own, off, short, long, empty];
    columns.extend(others);
    columns
}

/// Columns with one number off, and columns of which one is too short.
fn wrong_columns(rng: &mut Rng, own: &GivenColumns) -> [GivenColumns; 2] {
    let column = rng.below(3);
    let record = rng.below(own.starts.len() as u64) as usize;
    let mut off = own.clone();
    off.what = "one number off";
    off.right = false;
    match column {
        0 => off.starts[record] ^= 1 << rng.below(64),
        1 => off.ids[record] ^= 1 << rng.below(16),
        _ => off.counters[record] ^= 1 << rng.below(32),
    }
    let mut short = own.clone();
    short.what = "one column short";
    short.right = false;
    match column {
        0 => short.starts.truncate(record),
        1 => short.ids.truncate(record),
        _ => short.counters.truncate(record),
    }
    [off, short]
}

/// The columns that the other layout yields, if it accepts the stream.
fn others_columns(rules: Rules, stream: &[u8], own: &GivenColumns) -> Option<GivenColumns> {
    let (starts, ids, counters) = own_columns(rules.with_other_layout(), stream).ok()?;
    // Later places are not looked at.
    let right = starts.starts_with(&own.starts)
        && ids.starts_with(&own.ids)
        && counters.starts_with(&own.counters);
    let waveforms = own.ids.contains(&Kind::Waveform.id());
    Some(GivenColumns {
        what: name_of_others(right, waveforms),
        right,
        starts,
        ids,
        counters,
    })
}

/// A record number to ask for: mostly one that is there, also the count, past it and far past.
pub fn record_number(rng: &mut Rng, count: u64) -> u64 {
    match rng.below(8) {
        0 => count,
        1 => rng.pick(&[count + 1, 1_000_000, u64::from(u32::MAX) + 1, u64::MAX]),
        _ => rng.below(count.max(1)),
    }
}

/// A header offset to ask for: an element's start, any byte of a header, its end, or far past.
pub fn field_offset(rules: Rules, rng: &mut Rng) -> u64 {
    let table = rng
        .pick(&[Kind::Acquisition, Kind::Image, Kind::Waveform])
        .table(rules)
        .expect("these have headers");
    match rng.below(7) {
        0 => rng.below(360),
        // Bytes of filler and of elements that lie elsewhere in the other layout.
        1 => rng.below(42),
        2 => rng.pick(&[32, 40, 198, 206, 340, 65_536, (1 << 32) + 2, u64::MAX]),
        _ => rng.pick(&table.elements()).0 as u64,
    }
}

/// A flag number: 1 to 64, their neighbours, and numbers that only a wrap would bring there.
pub fn flag(rng: &mut Rng) -> u64 {
    match rng.below(4) {
        0 => rng.pick(&[0, 65, 66, 128, 129, 256 + 7, (1 << 32) + 7, u64::MAX]),
        1 => rng.pick(&[1, 7, 32, 33, 63, 64]),
        _ => 1 + rng.below(64),
    }
}

/// Counters to look for: those of an acquisition of the stream, the same but for one, any
/// seventeen, or a list of another length.
pub fn counters(rules: Rules, rng: &mut Rng, stream: &[u8]) -> Vec<u16> {
    let mut found: Vec<Vec<u16>> = Vec::new();
    for record in records(rules, stream).unwrap_or_default() {
        if record.detail.kind() == Kind::Acquisition {
            found.push(counters_of(&stream[record.start as usize + 2..]));
        }
    }
    let mut asked = if found.is_empty() {
        vec![0; 17]
    } else {
        found.swap_remove(rng.below(found.len() as u64) as usize)
    };
    match rng.below(6) {
        0 => asked[rng.below(17) as usize] ^= 1 << rng.below(16),
        1 => asked
            .iter_mut()
            .for_each(|counter| *counter = rng.below(2) as u16),
        2 => asked.resize(rng.pick(&[0, 16, 18]), 0),
        _ => {}
    }
    asked
}

/// Two scan counters, earlier and later, mostly near each other or half the range apart.
pub fn counter_pair(rng: &mut Rng) -> (u32, u32) {
    let earlier = match rng.below(3) {
        0 => rng.pick(&[0, 1, 1 << 31, u32::MAX - 1, u32::MAX]),
        _ => rng.number() as u32,
    };
    let step = match rng.below(3) {
        0 => rng.pick(&[0, 1, 2, 1 << 31, (1 << 31) - 1, (1 << 31) + 1, u32::MAX]),
        1 => rng.below(10) as u32,
        _ => rng.number() as u32,
    };
    (earlier, earlier.wrapping_add(step))
}
