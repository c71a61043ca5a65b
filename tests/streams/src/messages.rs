//! Messages to make streams of, before they become bytes.

use crate::filler;
use crate::rng::Rng;
use crate::stated;
use crate::texts;
use second_reader::message::{text_part, STATED_LENGTH};
use second_reader::{numbers, Detail, Kind, Mask, PartName, Parts, Rules, Table};

/// One message with its parts apart. Its bytes follow from them without any check, so that
/// faulty messages can be built too.
#[derive(Clone, Debug)]
pub struct Message {
    /// What the header is made for.
    pub rules: Rules,
    pub id: u16,
    pub header: Vec<u8>,
    pub name: Vec<u8>,
    /// What follows the name's zero.
    pub filler: Vec<u8>,
    pub text: Vec<u8>,
    pub trajectory: Vec<u8>,
    pub samples: Vec<u8>,
    pub attributes: Vec<u8>,
    pub pixels: Vec<u8>,
    pub waveform: Vec<u8>,
}

impl Message {
    pub fn empty(rules: Rules, id: u16) -> Message {
        Message {
            rules,
            id,
            header: vec![],
            name: vec![],
            filler: vec![],
            text: vec![],
            trajectory: vec![],
            samples: vec![],
            attributes: vec![],
            pixels: vec![],
            waveform: vec![],
        }
    }

    pub fn kind(&self) -> Option<Kind> {
        Kind::of_id(self.id)
    }

    /// The message's bytes as it stands in a stream.
    pub fn bytes(&self) -> Vec<u8> {
        let mut bytes = self.id.to_le_bytes().to_vec();
        let mut add = |piece: &[u8]| bytes.extend_from_slice(piece);
        match self.kind() {
            None | Some(Kind::Close) => {}
            Some(Kind::ConfigurationName) => {
                add(&self.name);
                if self.name.len() < 1_024 {
                    add(&[0]);
                    add(&self.filler);
                }
            }
            Some(Kind::ConfigurationText | Kind::HeaderText | Kind::Text) => {
                add(&(self.text.len() as u32).to_le_bytes());
                add(&self.text);
            }
            Some(Kind::Acquisition) => {
                add(&self.header);
                add(&self.trajectory);
                add(&self.samples);
            }
            Some(Kind::Image) => {
                add(&self.header);
                add(&(self.attributes.len() as u64).to_le_bytes());
                add(&self.attributes);
                add(&self.pixels);
            }
            Some(Kind::Waveform) => {
                add(&self.header);
                add(&self.waveform);
            }
        }
        bytes
    }

    /// The parts as a writer is given them.
    pub fn parts(&self) -> Parts<'_> {
        Parts {
            name: &self.name,
            text: &self.text,
            trajectory: &self.trajectory,
            samples: &self.samples,
            attributes: &self.attributes,
            pixels: &self.pixels,
            waveform: &self.waveform,
        }
    }

    pub fn part_mut(&mut self, name: PartName) -> &mut Vec<u8> {
        match name {
            PartName::Name => &mut self.name,
            PartName::Text => &mut self.text,
            PartName::Trajectory => &mut self.trajectory,
            PartName::Samples => &mut self.samples,
            PartName::Attributes => &mut self.attributes,
            PartName::Pixels => &mut self.pixels,
            PartName::Waveform => &mut self.waveform,
        }
    }

    /// The table of this message's header, if its kind has one.
    pub fn table(&self) -> Option<&'static Table> {
        self.kind().and_then(|kind| kind.table(self.rules))
    }

    /// Sets the `i`th element of a named header entry.
    pub fn set(&mut self, name: &str, i: usize, number: u64) {
        let table = self.table().expect("a kind with a header");
        let entry = table.entry(name).expect("an entry of this header");
        assert!(i < entry.count);
        let width = entry.element.size();
        numbers::put(&mut self.header, entry.offset + i * width, width, number);
    }

    /// The header as a writer puts it: an image's says the length of the attributes, whatever it said, and filler
    /// is zero.
    pub fn header_written(&self) -> Vec<u8> {
        let mut written = Message::empty(self.rules, self.id);
        written.header = self.header.clone();
        if let Some(table) = self.table() {
            table.clear_filler(&mut written.header);
        }
        if self.kind() == Some(Kind::Image) {
            written.set(STATED_LENGTH, 0, self.attributes.len() as u64);
        }
        written.header
    }

    /// The text of this message, if its kind has one: its name, text or attributes.
    pub fn own_text(&self) -> Option<&[u8]> {
        let name = self.kind().and_then(text_part)?;
        Some(self.parts().get(name))
    }

    /// Puts another text in its place. A name's filler goes on as it was, and an image's header says what it said:
    /// the length, 0 or another number.
    pub fn set_own_text(&mut self, text: Vec<u8>) {
        let kind = self.kind().expect("a known kind");
        let name = text_part(kind).expect("a kind with text");
        let (before, after) = (self.part_mut(name).len(), text.len());
        *self.part_mut(name) = text;
        match kind {
            Kind::ConfigurationName => {
                let filler = self.filler.iter().copied().cycle();
                let length = 1_023_usize.saturating_sub(after);
                self.filler = match self.filler.is_empty() {
                    true => vec![0; length],
                    false => filler.take(length).collect(),
                };
            }
            Kind::Image if self.get(STATED_LENGTH, 0) == before as u64 && before > 0 => {
                self.set(STATED_LENGTH, 0, after as u64);
            }
            _ => {}
        }
    }

    /// The `i`th element of a named header entry.
    pub fn get(&self, name: &str, i: usize) -> u64 {
        let table = self.table().expect("a kind with a header");
        table.whole(&self.header, name, i)
    }
}

/// A message of a random kind's whole content, well formed, with a body of about `most` bytes
/// at most.
pub fn message(rules: Rules, rng: &mut Rng, kind: Kind, most: u64) -> Message {
    match kind {
        Kind::ConfigurationName => name(rules, rng),
        Kind::ConfigurationText | Kind::HeaderText | Kind::Text => text(rules, rng, kind, most),
        Kind::Close => Message::empty(rules, kind.id()),
        Kind::Acquisition => acquisition(rules, rng, most),
        Kind::Image => image(rules, rng, most),
        Kind::Waveform => waveform(rules, rng, most),
    }
}

/// A name of any length from 0 to 1,023, with any filler after its zero, which is no text.
pub fn name(rules: Rules, rng: &mut Rng) -> Message {
    let length = match rng.below(4) {
        0 => rng.pick(&[0, 1, 1_022, 1_023]),
        1 => rng.below(40),
        2 => texts::length(rng, 1_023) as u64,
        _ => rng.below(1_024),
    } as usize;
    let mut message = Message::empty(rules, Kind::ConfigurationName.id());
    message.name = texts::accepted_name(rules, rng, length);
    let room = 1_023 - message.name.len();
    message.filler = match rng.below(4) {
        0 => vec![0; room],
        1 => texts::good(rng, room),
        _ => rng.bytes(room),
    };
    message
}

pub fn text(rules: Rules, rng: &mut Rng, kind: Kind, most: u64) -> Message {
    let length = texts::length(rng, most);
    let mut message = Message::empty(rules, kind.id());
    message.text = texts::accepted(rules, rng, length);
    message
}

/// A header of random bytes, NaNs and all, but with version 1.
fn random_header(rules: Rules, rng: &mut Rng, kind: Kind) -> Message {
    let mut message = Message::empty(rules, kind.id());
    message.header = rng.bytes(kind.header_size(rules));
    message.set("version", 0, 1);
    message
}

pub fn acquisition(rules: Rules, rng: &mut Rng, most: u64) -> Message {
    let mut message = random_header(rules, rng, Kind::Acquisition);
    // Small counters, so that a search for equal ones meets some.
    for i in 0..17 {
        let counter = rng.below(2);
        message.set("counters", i, counter);
    }
    if rng.one_in(2) {
        for i in 1..17 {
            message.set("counters", i, 0);
        }
    }
    let (samples, active, dimensions) = acquisition_sizes(rng, most);
    message.set("number_of_samples", 0, samples);
    message.set("active_channels", 0, active);
    message.set("trajectory_dimensions", 0, dimensions);
    let spare = rng.size(65_535 - active);
    message.set("available_channels", 0, active + spare);
    let ones = mask_ones(rng, active);
    set_mask(rng, &mut message, ones);
    let pre = rng.below(samples + 1);
    let post = match rng.below(3) {
        0 => samples - pre,
        _ => rng.below(samples - pre + 1),
    };
    message.set("discard_pre", 0, pre);
    message.set("discard_post", 0, post);
    fill_parts(rng, &mut message);
    message
}

fn acquisition_sizes(rng: &mut Rng, most: u64) -> (u64, u64, u64) {
    match rng.below(8) {
        // Sizes whose product is 0 or small however large one of them is.
        0 => (
            0,
            rng.pick(&[0, 1, 1_024, 1_025, 65_535]),
            rng.pick(&[0, 3, 65_535]),
        ),
        1 => (rng.size(65_535), 0, 0),
        2 if most >= 8 * 1_100 => (1, rng.pick(&[1_023, 1_024, 1_025]), 0),
        _ => {
            let samples = rng.size(256);
            let room = most / (samples.max(1) * 4);
            let dimensions = rng.size(room.min(4));
            let active = rng.size(((room - dimensions) / 2).min(64));
            (samples, active, dimensions)
        }
    }
}

/// The ones of a mask: none, as many as channels are active, one more or less, some other number, or all 1,024.
fn mask_ones(rng: &mut Rng, active: u64) -> u64 {
    match rng.below(8) {
        0 | 1 => 0,
        2 | 3 => active.min(1_024),
        4 => (active + 1).min(1_024),
        5 => active.saturating_sub(1).min(1_024),
        6 => rng.size(1_024),
        _ => 1_024,
    }
}

/// Sets a channel mask of that many ones, at most 1,024, anywhere among its bits.
pub fn set_mask(rng: &mut Rng, message: &mut Message, ones: u64) {
    let mut words = [0_u64; 16];
    let mut left = ones;
    // Most of a nearly full mask is set word by word, so that the draw below ends soon.
    for word in words.iter_mut() {
        if left > 512 {
            *word = u64::MAX;
            left -= 64;
        }
    }
    while left > 0 {
        let bit = rng.below(1_024);
        let value = 1 << (bit % 64);
        let word = &mut words[(bit / 64) as usize];
        if *word & value == 0 {
            *word |= value;
            left -= 1;
        }
    }
    for (i, &word) in words.iter().enumerate() {
        message.set("channel_mask", i, word);
    }
}

pub fn image(rules: Rules, rng: &mut Rng, most: u64) -> Message {
    let mut message = random_header(rules, rng, Kind::Image);
    let data_type = 1 + rng.below(8);
    message.set("data_type", 0, data_type);
    let mut sizes = [0; 4];
    if rng.one_in(6) {
        for size in sizes.iter_mut() {
            *size = rng.pick(&[1, 7, 32_768, 65_535]);
        }
        sizes[rng.below(4) as usize] = 0;
    } else {
        let mut room = most / 16;
        for size in sizes.iter_mut() {
            *size = match rng.below(12) {
                0 => 0,
                _ => 1 + rng.size(room.saturating_sub(1).min(40)),
            };
            room /= (*size).max(1);
        }
    }
    for (i, &size) in sizes[..3].iter().enumerate() {
        message.set("matrix_size", i, size);
    }
    message.set("channels", 0, sizes[3]);
    let attributes = texts::length(rng, most.min(600));
    message.attributes = texts::accepted(rules, rng, attributes);
    let stated = stated::sound(rng, message.attributes.len() as u64);
    message.set(STATED_LENGTH, 0, stated);
    fill_parts(rng, &mut message);
    message
}

pub fn waveform(rules: Rules, rng: &mut Rng, most: u64) -> Message {
    let mut message = random_header(rules, rng, Kind::Waveform);
    filler::draw(rng, &mut message);
    let (samples, channels) = match rng.below(8) {
        0 => (0, rng.pick(&[0, 1, 65_535])),
        1 => (rng.size(65_535), 0),
        _ => {
            let samples = rng.size((most / 4).min(300));
            let room = most / (samples.max(1) * 4);
            (samples, rng.size(room.min(300)))
        }
    };
    message.set("number_of_samples", 0, samples);
    message.set("channels", 0, channels);
    fill_parts(rng, &mut message);
    message
}

/// The lengths of the trajectory, samples, pixels and waveform data as the header's numbers ask.
pub fn asked_lengths(message: &Message) -> Vec<(PartName, u128)> {
    let size = |name, i| message.get(name, i) as u16;
    let detail = match message.kind() {
        Some(Kind::Acquisition) => Detail::Acquisition {
            samples: size("number_of_samples", 0),
            active_channels: size("active_channels", 0),
            dimensions: size("trajectory_dimensions", 0),
            // Says nothing of lengths.
            mask: Mask::NotStated,
        },
        Some(Kind::Image) => Detail::Image {
            matrix_size: [
                size("matrix_size", 0),
                size("matrix_size", 1),
                size("matrix_size", 2),
            ],
            channels: size("channels", 0),
            data_type: size("data_type", 0),
            attribute_length: message.attributes.len() as u64,
        },
        Some(Kind::Waveform) => Detail::Waveform {
            samples: size("number_of_samples", 0),
            channels: size("channels", 0),
        },
        _ => return vec![],
    };
    detail.body()
}

/// Gives the message the parts that its header asks for, of random bytes.
pub fn fill_parts(rng: &mut Rng, message: &mut Message) {
    for (name, length) in asked_lengths(message) {
        if name != PartName::Attributes {
            *message.part_mut(name) = rng.bytes(length as usize);
        }
    }
}
