//! Streams with a fault: each refusal number on purpose, and damage whose outcome is left open.

use crate::either::accepted_by_both;
use crate::messages::{self, message, Message};
use crate::rng::Rng;
use crate::split::split;
use crate::stated;
use crate::texts;
use crate::well_formed::{joined, opening, well_formed};
use crate::{short_refusals, TEXTED};
use second_reader::message::STATED_LENGTH;
use second_reader::{numbers, Kind, Layout, Rules};

const DATA: [Kind; 3] = [Kind::Acquisition, Kind::Image, Kind::Waveform];

/// What stands behind a faulty message: nothing, further messages, another fault, or any bytes. It never
/// changes the verdict, as the first faulty message decides.
fn rest(rules: Rules, rng: &mut Rng) -> Vec<u8> {
    match rng.below(4) {
        0 => vec![],
        1 => joined(&well_formed(rules, rng, 2_000)),
        2 => {
            let refusals = short_refusals(rules);
            let number = loop {
                let number = rng.pick(refusals);
                if number != 12 {
                    break number;
                }
            };
            faulty(rules.plain(), rng, number, true)
        }
        _ => {
            let length = rng.below(60) as usize;
            rng.bytes(length)
        }
    }
}

/// A stream of at most about 30,000 bytes that is refused with this number, one of `short_refusals`.
pub fn refused_with(rules: Rules, rng: &mut Rng, number: u32) -> Vec<u8> {
    if number == 12 {
        return broken_order(rules, rng);
    }
    let headed = match number {
        4 | 6..=9 => true,
        5 => false,
        _ => rng.one_in(2),
    };
    let mut stream = joined(&opening(rules, rng, headed));
    // The faulty message may hold any text: 21 comes after all other checks of it.
    stream.extend(faulty(rules.plain(), rng, number, headed));
    // Where too few bytes are left, or none, nothing may follow.
    if !matches!(number, 1 | 3 | 11 | 13) {
        stream.extend(rest(rules, rng));
    }
    stream
}

/// What gets this number after an opening; for 13 nothing.
fn faulty(rules: Rules, rng: &mut Rng, number: u32, headed: bool) -> Vec<u8> {
    match number {
        1 => vec![rng.number() as u8],
        2 => unknown_id(rng).to_le_bytes().to_vec(),
        3 => short_fixed_part(rules, rng, headed),
        4 => wrong_version(rules, rng),
        5 => rng.bytes(1_024).iter().fold(vec![1, 0], |mut name, &byte| {
            name.push(byte.max(1));
            name
        }),
        6 => wrong_channels(rules, rng),
        7 => wrong_discards(rules, rng),
        8 => wrong_data_type(rules, rng),
        9 => wrong_stated_length(rules, rng),
        10 => too_large(rules, rng, headed),
        11 => short_body(rules, rng, headed),
        13 => vec![],
        21 => not_utf8(rules, rng, headed),
        _ => panic!("no short stream is refused with {number}"),
    }
}

/// Ids near the known ones, known ones with their bytes swapped, and any others.
pub fn unknown_id(rng: &mut Rng) -> u16 {
    loop {
        let id = match rng.below(3) {
            0 => rng.pick(&[0, 6, 7, 1007, 1009, 1021, 1023, 1025, 1027, 65_535]),
            1 => rng.pick(&Kind::ALL).id().swap_bytes(),
            _ => rng.number() as u16,
        };
        if Kind::of_id(id).is_none() {
            return id;
        }
    }
}

/// A kind that may come next after an opening.
fn kind_allowed(rng: &mut Rng, headed: bool) -> Kind {
    if headed {
        rng.pick(&[Kind::Text, Kind::Acquisition, Kind::Image, Kind::Waveform])
    } else {
        rng.pick(&[
            Kind::Text,
            Kind::HeaderText,
            Kind::ConfigurationName,
            Kind::ConfigurationText,
        ])
    }
}

/// A message whose text is not UTF-8: by a fault of any sort, or by half a character whose rest stands elsewhere.
fn not_utf8(rules: Rules, rng: &mut Rng, headed: bool) -> Vec<u8> {
    let kind = loop {
        let kind = kind_allowed(rng, headed);
        if TEXTED.contains(&kind) {
            break kind;
        }
    };
    if rng.one_in(3) {
        let (message, next) = split(rules, rng, kind);
        let next = next.map_or(vec![], |next| next.bytes());
        return [message.bytes(), next].concat();
    }
    let mut message = message(rules, rng, kind, 200);
    set_not_utf8(rng, &mut message);
    message.bytes()
}

fn set_not_utf8(rng: &mut Rng, message: &mut Message) {
    let length = texts::length(rng, 250);
    let text = texts::any_bad(rng, length);
    message.set_own_text(match message.kind() {
        Some(Kind::ConfigurationName) => texts::without_zeros(text),
        _ => text,
    });
}

fn short_fixed_part(rules: Rules, rng: &mut Rng, headed: bool) -> Vec<u8> {
    let kind = kind_allowed(rng, headed);
    let fixed = kind.fixed_size(rules);
    let length = match rng.below(3) {
        0 => fixed - 1,
        // An aligned waveform header without its last filler, or as long as a packed one.
        1 if kind == Kind::Waveform => fixed - rng.pick(&[1, 2, 8]),
        _ => rng.below(fixed as u64) as usize,
    };
    // Whatever the bytes hold, the missing ones are met first.
    let bytes = match rng.below(2) {
        0 => rng.bytes(length),
        _ => message(rules, rng, kind, 50).bytes()[2..2 + length].to_vec(),
    };
    [kind.id().to_le_bytes().to_vec(), bytes].concat()
}

fn wrong_version(rules: Rules, rng: &mut Rng) -> Vec<u8> {
    let kind = rng.pick(&DATA);
    let mut message = message(rules, rng, kind, 100);
    if rng.one_in(2) {
        // Every later check may fail too.
        message.header = rng.bytes(kind.header_size(rules));
    }
    let version = rng.pick(&[0, 2, 3, 255, 256, 257, 65_535]);
    message.set("version", 0, version);
    message.bytes()
}

fn wrong_channels(rules: Rules, rng: &mut Rng) -> Vec<u8> {
    let mut message = messages::acquisition(rules, rng, 600);
    if rng.one_in(3) {
        message.set("discard_pre", 0, 65_535);
        message.set("discard_post", 0, 65_535);
    }
    let active = message.get("active_channels", 0).max(1);
    let available = match rng.below(2) {
        0 => active - 1,
        _ => rng.below(active),
    };
    message.set("active_channels", 0, active);
    message.set("available_channels", 0, available);
    message.bytes()
}

fn wrong_discards(rules: Rules, rng: &mut Rng) -> Vec<u8> {
    let mut message = messages::acquisition(rules, rng, 600);
    if rng.one_in(4) {
        message.set("number_of_samples", 0, 65_535);
    }
    let samples = message.get("number_of_samples", 0);
    let (pre, post) = match rng.below(4) {
        // A sum taken in 16 bits would not pass the number of samples.
        0 => (65_535, (samples + 1).min(65_535)),
        1 if samples < 65_535 => (samples + 1, 0),
        2 if samples < 65_535 => (0, samples + 1),
        _ => {
            let pre = rng.below(samples + 1).max(samples.min(1));
            (pre, samples - pre + 1)
        }
    };
    message.set("discard_pre", 0, pre);
    message.set("discard_post", 0, post);
    message.bytes()
}

fn wrong_data_type(rules: Rules, rng: &mut Rng) -> Vec<u8> {
    let mut message = messages::image(rules, rng, 600);
    let data_type = rng.pick(&[0, 9, 10, 16, 255, 256, 257, 264, 65_535]);
    message.set("data_type", 0, data_type);
    if rng.one_in(2) {
        let length = rng.number();
        message.set(STATED_LENGTH, 0, length);
    }
    message.bytes()
}

/// An image whose header says neither its attribute length nor 0.
fn wrong_stated_length(rules: Rules, rng: &mut Rng) -> Vec<u8> {
    let mut message = messages::image(rules, rng, 600);
    if rng.one_in(3) {
        set_image_sizes(&mut message, [65_535; 4], 8);
    }
    let (stated, length) = stated::refused(rng, message.attributes.len() as u64);
    let mut bytes = message.bytes();
    stated::put(&mut bytes, stated, length);
    bytes
}

fn set_image_sizes(message: &mut Message, sizes: [u64; 4], data_type: u64) {
    message.set("data_type", 0, data_type);
    for (i, &size) in sizes[..3].iter().enumerate() {
        message.set("matrix_size", i, size);
    }
    message.set("channels", 0, sizes[3]);
}

/// A text that claims `length` bytes and has few.
fn claiming_text(rules: Rules, rng: &mut Rng, kind: Kind, length: u64) -> Vec<u8> {
    let mut bytes = messages::text(rules, rng, kind, 40).bytes();
    numbers::put(&mut bytes, 2, 4, length);
    bytes
}

/// An image that claims attributes of `length` bytes and has few.
fn claiming_image(rng: &mut Rng, message: &Message, length: u64) -> Vec<u8> {
    let stated = stated::sound(rng, length);
    let mut bytes = message.bytes();
    stated::put(&mut bytes, stated, length);
    bytes
}

/// Attribute lengths that no message has: over the limit, of 33 bits or more, and such that the whole size passes
/// 64 bits and would be small if it wrapped.
fn too_long_attributes(rng: &mut Rng) -> u64 {
    let wrapping = u64::MAX - rng.below(300);
    rng.pick(&[
        268_435_249,
        268_435_456,
        u64::from(u32::MAX),
        1 << 32,
        (1 << 32) + 5,
        1 << 63,
        wrapping,
    ])
}

fn too_large(rules: Rules, rng: &mut Rng, headed: bool) -> Vec<u8> {
    let kind = kind_allowed(rng, headed);
    match kind {
        Kind::Acquisition => {
            let mut message = messages::acquisition(rules, rng, 40);
            let (samples, channels, dimensions) = rng.pick(&[
                (65_535, 65_535, 65_535),
                (65_535, 512, 1),
                (65_535, 0, 1_025),
                // Both products wrap to 0 in 32 bits.
                (32_768, 16_384, 32_768),
            ]);
            message.set("number_of_samples", 0, samples);
            message.set("active_channels", 0, channels);
            message.set("available_channels", 0, 65_535);
            message.set("trajectory_dimensions", 0, dimensions);
            message.set("discard_pre", 0, 0);
            message.set("discard_post", 0, 0);
            message.bytes()
        }
        Kind::Image => too_large_image(rules, rng),
        Kind::Waveform => too_large_waveform(rules, rng),
        _ => {
            let kind = if kind == Kind::ConfigurationName {
                Kind::ConfigurationText
            } else {
                kind
            };
            let length = rng.pick(&[268_435_451, 268_435_452, 1 << 31, u64::from(u32::MAX)]);
            claiming_text(rules, rng, kind, length)
        }
    }
}

/// Samples and channels of waveforms.
pub struct AroundTheLimit {
    /// The largest that check 10 lets pass.
    pub within: [(u64, u64); 2],
    /// The smallest that it refuses.
    pub over: [(u64, u64); 2],
}

/// An aligned header leaves room for two numbers less.
pub fn around_the_limit(rules: Rules) -> AroundTheLimit {
    match rules.layout {
        Layout::Packed => AroundTheLimit {
            within: [(17_449, 3_846), (64_219, 1_045)],
            over: [(44_949, 1_493), (62_660, 1_071)],
        },
        Layout::Aligned => AroundTheLimit {
            within: [(17_159, 3_911), (62_836, 1_068)],
            over: [(17_449, 3_846), (64_219, 1_045)],
        },
    }
}

fn too_large_waveform(rules: Rules, rng: &mut Rng) -> Vec<u8> {
    let just = rng.pick(&around_the_limit(rules).over);
    let sizes = rng.pick(&[
        just,
        (65_535, 65_535),
        (32_768, 32_768),
        (65_535, 1_025),
        (1_025, 65_535),
    ]);
    waveform_claiming(rules, rng, sizes)
}

/// A waveform that claims this many samples and channels and has few.
fn waveform_claiming(rules: Rules, rng: &mut Rng, (samples, channels): (u64, u64)) -> Vec<u8> {
    let mut message = messages::waveform(rules, rng, 40);
    message.set("number_of_samples", 0, samples);
    message.set("channels", 0, channels);
    message.bytes()
}

fn too_large_image(rules: Rules, rng: &mut Rng) -> Vec<u8> {
    let mut message = messages::image(rules, rng, 40);
    if rng.one_in(2) {
        let length = too_long_attributes(rng);
        return claiming_image(rng, &message, length);
    }
    let (sizes, data_type) = rng.pick(&[
        ([65_535; 4], 8),
        ([65_535; 4], 1),
        // 2^64, 2^33 and 2^32 bytes.
        ([32_768; 4], 8),
        ([256; 4], 1),
        ([65_535, 65_535, 1, 1], 1),
        ([1, 1, 32_768, 32_768], 3),
        ([1, 65_535, 257, 1], 8),
    ]);
    set_image_sizes(&mut message, sizes, data_type);
    message.bytes()
}

fn short_body(rules: Rules, rng: &mut Rng, headed: bool) -> Vec<u8> {
    if rng.one_in(3) {
        // At most check 10's limit, and far more than there is.
        let length = rng.pick(&[65_536, 1 << 20, 268_435_450]);
        return match headed {
            true if rng.one_in(3) => claiming_image_within(rules, rng),
            true if rng.one_in(2) => {
                let sizes = rng.pick(&around_the_limit(rules).within);
                waveform_claiming(rules, rng, sizes)
            }
            true => claiming_text(rules, rng, Kind::Text, length),
            false => claiming_text(rules, rng, Kind::HeaderText, length),
        };
    }
    loop {
        let kind = kind_allowed(rng, headed);
        let bytes = message(rules, rng, kind, 400).bytes();
        let fixed = 2 + kind.fixed_size(rules);
        if bytes.len() > fixed {
            let cut = match rng.below(2) {
                0 => bytes.len() - 1,
                _ => fixed + rng.below((bytes.len() - fixed) as u64) as usize,
            };
            return bytes[..cut].to_vec();
        }
    }
}

/// An image of no pixels with as many attributes as check 10 lets pass.
fn claiming_image_within(rules: Rules, rng: &mut Rng) -> Vec<u8> {
    let mut message = messages::image(rules, rng, 40);
    set_image_sizes(&mut message, [0; 4], 8);
    message.attributes.clear();
    message.pixels.clear();
    claiming_image(rng, &message, 268_435_248)
}

fn broken_order(rules: Rules, rng: &mut Rng) -> Vec<u8> {
    let early = rng.pick(&DATA);
    let late = rng.pick(&[
        Kind::ConfigurationName,
        Kind::ConfigurationText,
        Kind::HeaderText,
    ]);
    let configuration = rng.pick(&[Kind::ConfigurationName, Kind::ConfigurationText]);
    let second = rng.pick(&[Kind::ConfigurationName, Kind::ConfigurationText]);
    let any = rng.pick(&Kind::ALL);
    let case = rng.below(4);
    let mut build = |headed: bool, kinds: &[Kind]| {
        let mut stream = joined(&opening(rules, rng, headed));
        for &kind in kinds {
            stream.extend(message(rules, rng, kind, 100).bytes());
        }
        stream
    };
    let (mut stream, last) = match case {
        0 => (build(false, &[]), early),
        1 => (build(true, &[]), late),
        2 => (build(false, &[configuration]), second),
        _ => (build(true, &[Kind::Close]), any),
    };
    // The order is judged before the message's own checks, even if only its id is there; so its text is any.
    let faulty = message(rules.plain(), rng, last, 100).bytes();
    let length = match rng.below(3) {
        0 => 2,
        _ => faulty.len(),
    };
    stream.extend_from_slice(&faulty[..length]);
    stream.extend(rest(rules, rng));
    stream
}

/// A stream of texts without content, one message more than is allowed; with `close` the last
/// is the close. 6,000,000 bytes and some.
pub fn too_many(close: bool) -> Vec<u8> {
    let mut stream = [5, 0, 0, 0, 0, 0].repeat(1_000_000);
    stream.extend_from_slice(if close { &[4, 0] } else { &[5, 0, 0, 0, 0, 0] });
    stream
}

/// Streams of one image whose pixels or attributes pass 64 bits and would be few if the size wrapped: to 0 bytes, to
/// at most `most` bytes that are all there, and to some more that are not.
pub fn huge_images(rules: Rules, rng: &mut Rng, most: u64) -> Vec<Vec<u8>> {
    let mut streams = Vec::new();
    let mut add = |rng: &mut Rng, sizes: [u64; 4], wrapped: u64| {
        let mut message = messages::image(rules, rng, 40);
        set_image_sizes(&mut message, sizes, 8);
        message.pixels = rng.bytes(wrapped as usize);
        streams.push(with_image(rules, rng, &message.bytes()));
    };
    add(rng, [32_768; 4], 0);
    for limit in [most, 1 << 24] {
        let (sizes, wrapped) = wrapping_sizes(rng, limit);
        add(rng, sizes, if wrapped <= most { wrapped } else { 0 });
    }
    streams.extend(wrapping_attributes(rules, rng));
    streams
}

fn with_image(rules: Rules, rng: &mut Rng, image: &[u8]) -> Vec<u8> {
    let mut stream = joined(&opening(rules, rng, true));
    stream.extend_from_slice(image);
    stream.extend_from_slice(&[4, 0]);
    stream
}

/// Images of 64 bytes of pixels whose attribute length, which no header can say, brings the whole size to just below
/// 2^64, to it, and past it by an id, by an image's fixed part and by all but one byte of the message.
fn wrapping_attributes(rules: Rules, rng: &mut Rng) -> Vec<Vec<u8>> {
    let mut message = messages::image(rules, rng, 40);
    set_image_sizes(&mut message, [2, 2, 1, 1], 8);
    message.pixels = rng.bytes(64);
    message.attributes.clear();
    let whole = message.bytes().len() as u64;
    let mut streams = Vec::new();
    for past in [0, 1, 1 + 2, 1 + 208, whole] {
        let claiming = claiming_image(rng, &message, u64::MAX - whole + past);
        streams.push(with_image(rules, rng, &claiming));
    }
    streams
}

/// Four sizes whose product times 16 passes 2^64 and is at most `most` beyond a multiple of it.
fn wrapping_sizes(rng: &mut Rng, most: u64) -> ([u64; 4], u64) {
    loop {
        let a = 32_768 + rng.below(32_768);
        let b = 32_768 + rng.below(32_768);
        let target = u128::from(1 + rng.below(15)) << 60;
        let ab = u128::from(a * b);
        let cd = target.div_ceil(ab);
        let over = (cd * ab - target) * 16;
        if over > u128::from(most) {
            continue;
        }
        for c in 1..=65_535_u128 {
            if cd % c == 0 && cd / c <= 65_535 {
                return ([a, b, c as u64, (cd / c) as u64], over as u64);
            }
        }
    }
}

/// The kinds of damage that `damaged` does.
pub const DAMAGES: [&str; 19] = [
    "truncated",
    "one byte flipped",
    "header field at a boundary",
    "several header fields at boundaries",
    "text length at a boundary",
    "wrong order",
    "close missing",
    "bytes after the close",
    "unknown id",
    "one byte taken out",
    "one byte put in",
    "any bytes",
    "two damages",
    "attribute lengths of an image",
    "a waveform of the other layout",
    "cut within a waveform header",
    "text that is not UTF-8",
    "half a character and its rest elsewhere",
    "one byte of a text changed",
];

/// A well-formed stream with the damage of that number in `DAMAGES`. Some damage leaves a stream
/// that is still accepted.
pub fn damaged(rules: Rules, rng: &mut Rng, damage: usize, limit: usize) -> Vec<u8> {
    let mut messages = well_formed(rules, rng, limit);
    damage_messages(rules, rng, damage, &mut messages);
    let mut bytes = match damage {
        4 | 8 | 13 => damaged_pieces(rng, damage, &messages),
        15 => cut_within_a_waveform_header(rules, rng, &messages),
        _ => joined(&messages),
    };
    match damage {
        12 => {
            let second = rng.pick(&[0, 1, 9, 10]);
            damage_bytes(rng, second, &mut bytes);
        }
        0 | 1 | 7 | 9..=11 => damage_bytes(rng, damage, &mut bytes),
        _ => {}
    }
    bytes
}

/// The damages that are done before messages become bytes.
fn damage_messages(rules: Rules, rng: &mut Rng, damage: usize, messages: &mut Vec<Message>) {
    match damage {
        2 => set_boundaries(rng, messages, 1),
        3 => {
            let count = 2 + rng.below(4);
            set_boundaries(rng, messages, count);
        }
        5 => swap_or_repeat(rng, messages),
        6 => {
            messages.pop();
        }
        12 if rng.one_in(2) => set_boundaries(rng, messages, 2),
        12 => swap_or_repeat(rng, messages),
        14 => set_other_layout(rules, rng, messages),
        16..=18 => damage_text(rules, rng, damage, messages),
        _ => {}
    }
}

/// The damages that are done to the text of one message.
fn damage_text(rules: Rules, rng: &mut Rng, damage: usize, messages: &mut Vec<Message>) {
    let Some(at) = message_of(rng, messages, |kind| TEXTED.contains(&kind)) else {
        return;
    };
    match damage {
        16 => set_not_utf8(rng, &mut messages[at]),
        17 => {
            let kind = messages[at].kind().expect("a kind with text");
            let (message, next) = split(rules, rng, kind);
            messages[at] = message;
            messages.splice(at + 1..at + 1, next);
        }
        _ => change_one_byte(rng, &mut messages[at]),
    }
}

/// Puts another byte, which is no zero, in the place of one of a text.
fn change_one_byte(rng: &mut Rng, message: &mut Message) {
    let mut text = message.own_text().expect("a kind with text").to_vec();
    if !text.is_empty() {
        let byte = rng.below(text.len() as u64) as usize;
        text[byte] = 1 + rng.below(255) as u8;
        message.set_own_text(text);
    }
}

/// The damages that are done to the bytes of one message.
fn damaged_pieces(rng: &mut Rng, damage: usize, messages: &[Message]) -> Vec<u8> {
    let mut pieces: Vec<Vec<u8>> = messages.iter().map(Message::bytes).collect();
    match damage {
        4 => set_text_length(rng, messages, &mut pieces),
        8 => set_unknown_id(rng, &mut pieces),
        _ => set_attribute_lengths(rng, messages, &mut pieces),
    }
    pieces.concat()
}

/// What `drawn` says of a stream that both layouts accept.
pub const FOR_BOTH_LAYOUTS: &str = "for both layouts";

/// The stream of that number in a run, and what it is: well formed, accepted under both layouts, made for one
/// refusal number, or damaged. The refusals and damages come in turn.
pub fn drawn(rules: Rules, rng: &mut Rng, number: u64, limit: usize) -> (String, Vec<u8>) {
    let turn = (number / 10) as usize;
    match number % 20 {
        0 => {
            let stream = accepted_by_both(rules.profile, rng);
            (FOR_BOTH_LAYOUTS.to_string(), stream)
        }
        1..=3 | 10..=13 => {
            let messages = well_formed(rules, rng, limit);
            ("well formed".to_string(), joined(&messages))
        }
        4..=6 | 14..=16 => {
            let refusals = short_refusals(rules);
            let wanted = refusals[turn % refusals.len()];
            let what = format!("made for refusal {wanted}");
            (what, refused_with(rules, rng, wanted))
        }
        _ => {
            let damage = turn % DAMAGES.len();
            (
                DAMAGES[damage].to_string(),
                damaged(rules, rng, damage, limit),
            )
        }
    }
}

fn damage_bytes(rng: &mut Rng, damage: usize, bytes: &mut Vec<u8>) {
    let any = rng.below(bytes.len() as u64) as usize;
    match damage {
        0 => bytes.truncate(any),
        1 => bytes[any] ^= 1 << rng.below(8),
        7 => {
            let length = 1 + rng.below(8) as usize;
            let after = match rng.below(2) {
                0 => rng.bytes(length),
                _ => vec![4, 0],
            };
            bytes.extend(after);
        }
        9 => {
            bytes.remove(any);
        }
        10 => bytes.insert(any, rng.number() as u8),
        _ => {
            let length = rng.size(400) as usize;
            *bytes = rng.bytes(length);
            // A known id in front lets the later bytes be looked at too.
            if length > 1 && rng.one_in(2) {
                let id = rng.pick(&Kind::ALL).id();
                bytes[..2].copy_from_slice(&id.to_le_bytes());
            }
        }
    }
}

/// A value at an edge of `width` bytes or next to the value that is there.
fn boundary(rng: &mut Rng, width: usize, now: u64) -> u64 {
    let top = u64::MAX >> (64 - 8 * width);
    match rng.below(8) {
        0 => 0,
        1 => 1,
        2 => top,
        3 => top / 2,
        4 => top / 2 + 1,
        5 => now.wrapping_add(1) & top,
        6 => now.wrapping_sub(1) & top,
        _ => rng.number() & top,
    }
}

/// The header entries that the checks, sizes and kinds look at.
const JUDGED: [&str; 13] = [
    "version",
    "number_of_samples",
    "available_channels",
    "active_channels",
    "channel_mask",
    "discard_pre",
    "discard_post",
    "trajectory_dimensions",
    "data_type",
    "matrix_size",
    "channels",
    "attribute_string_len",
    "flags",
];

/// Sets `count` judged header elements of one message to boundary values.
fn set_boundaries(rng: &mut Rng, messages: &mut [Message], count: u64) {
    let with_header: Vec<usize> = (0..messages.len())
        .filter(|&i| !messages[i].header.is_empty())
        .collect();
    if with_header.is_empty() {
        return;
    }
    let message = &mut messages[rng.pick(&with_header)];
    let table = message.table().expect("it has a header");
    for _ in 0..count {
        let name = rng.pick(&JUDGED);
        if let Some(entry) = table.entry(name) {
            let i = rng.below(entry.count as u64) as usize;
            let number = boundary(rng, entry.element.size(), message.get(name, i));
            message.set(name, i, number);
        }
    }
}

/// Puts a waveform of the other layout in place of one.
fn set_other_layout(rules: Rules, rng: &mut Rng, messages: &mut [Message]) {
    if let Some(at) = message_of(rng, messages, |kind| kind == Kind::Waveform) {
        messages[at] = messages::waveform(rules.with_other_layout(), rng, 400);
    }
}

fn cut_within_a_waveform_header(rules: Rules, rng: &mut Rng, messages: &[Message]) -> Vec<u8> {
    let Some(at) = message_of(rng, messages, |kind| kind == Kind::Waveform) else {
        return joined(messages);
    };
    let header = rng.below(Kind::Waveform.header_size(rules) as u64) as usize;
    let mut bytes = joined(&messages[..at]);
    bytes.extend_from_slice(&messages[at].bytes()[..2 + header]);
    bytes
}

fn set_unknown_id(rng: &mut Rng, pieces: &mut [Vec<u8>]) {
    let at = rng.below(pieces.len() as u64) as usize;
    let id = unknown_id(rng);
    pieces[at][..2].copy_from_slice(&id.to_le_bytes());
}

/// The place of one of the messages whose kind is asked for, if there is one.
fn message_of(rng: &mut Rng, messages: &[Message], asked: fn(Kind) -> bool) -> Option<usize> {
    let places: Vec<usize> = (0..messages.len())
        .filter(|&i| messages[i].kind().is_some_and(asked))
        .collect();
    (!places.is_empty()).then(|| rng.pick(&places))
}

/// Sets a text's length, or an image's attribute length, to a boundary value. The image's header mostly says the
/// same, else what it said.
fn set_text_length(rng: &mut Rng, messages: &[Message], pieces: &mut [Vec<u8>]) {
    let with_length = |kind: Kind| kind.is_text() || kind == Kind::Image;
    let Some(at) = message_of(rng, messages, with_length) else {
        return;
    };
    let (message, bytes) = (&messages[at], &mut pieces[at]);
    let image = message.kind() == Some(Kind::Image);
    let part = if image {
        &message.attributes
    } else {
        &message.text
    };
    let length = match rng.below(3) {
        0 => rng.pick(&[
            268_435_247,
            268_435_248,
            268_435_249,
            268_435_450,
            268_435_451,
        ]),
        _ => boundary(rng, 4, part.len() as u64),
    };
    if !image {
        numbers::put(bytes, 2, 4, length);
    } else if rng.one_in(4) {
        let (stated, _) = stated::both(bytes);
        stated::put(bytes, stated, length);
    } else {
        stated::put(bytes, length, length);
    }
}

/// Sets both attribute lengths of an image.
fn set_attribute_lengths(rng: &mut Rng, messages: &[Message], pieces: &mut [Vec<u8>]) {
    if let Some(at) = message_of(rng, messages, |kind| kind == Kind::Image) {
        let (stated, length) = stated::drawn(rng, messages[at].attributes.len() as u64);
        stated::put(&mut pieces[at], stated, length);
    }
}

fn swap_or_repeat(rng: &mut Rng, messages: &mut Vec<Message>) {
    let a = rng.below(messages.len() as u64) as usize;
    let b = rng.below(messages.len() as u64) as usize;
    if rng.one_in(2) {
        messages.swap(a, b);
    } else {
        let copy = messages[a].clone();
        messages.insert(b, copy);
    }
}
