//! The streams that are measured: a configuration name, a header text, readouts (and texts, images or waveforms between
//! them), and the close.

use crate::baseline::headers::Kind;
use crate::baseline::reader::{Record, Records};
use crate::baseline::writer::Message;
use crate::baseline::{IMAGE_HEADER, STATED_LENGTH, WAVEFORM_HEADER};

/// What every other readout may make way for, in its size.
#[derive(Clone, Copy, PartialEq, Eq)]
pub enum Other {
    Image,
    Waveform,
}

/// What a stream's messages are like.
#[derive(Clone, Copy)]
pub struct Shape {
    pub name: &'static str,
    pub channels: u16,
    pub samples: u16,
    /// The length of a text after each readout, if one follows.
    pub text: Option<usize>,
    pub other: Option<Other>,
}

/// Many small messages: readouts of one channel and a short text after each.
pub const SMALL: Shape = Shape {
    name: "small messages",
    channels: 1,
    samples: 8,
    text: Some(26),
    other: None,
};

/// As many messages as a stream may have, in some 1,000 MB.
pub const MEDIUM: Shape = Shape {
    name: "messages of 1 kB",
    channels: 1,
    samples: 82,
    text: None,
    other: None,
};

/// Every other message an image, and every other of these with a header that says 0 of its attributes, so that the
/// normal form and the writer have lengths to put there.
pub const IMAGES: Shape = Shape {
    name: "readouts and images",
    other: Some(Other::Image),
    ..MEDIUM
};

/// Every other message a waveform, with a packed header.
pub const WAVEFORMS: Shape = Shape {
    name: "readouts and waveforms",
    other: Some(Other::Waveform),
    ..MEDIUM
};

/// Large readouts.
pub const LARGE: Shape = Shape {
    name: "large readouts",
    channels: 32,
    samples: 1_024,
    text: None,
    other: None,
};

impl Shape {
    fn readout(&self) -> usize {
        342 + usize::from(self.channels) * usize::from(self.samples) * 8
    }

    /// How many messages make about so many bytes.
    pub fn messages_in(&self, bytes: usize) -> usize {
        match self.text {
            Some(length) => 2 * bytes / (self.readout() + 6 + length),
            None => bytes / self.readout(),
        }
    }

    /// A stream of so many messages, of which four are the name, the header text, the last readout and the
    /// close. The last readout alone has its last counter set, so that a search meets it late.
    pub fn stream(&self, messages: usize) -> Vec<u8> {
        let middle = messages.saturating_sub(4);
        let (readouts, texts) = match self.text {
            Some(_) => (middle - middle / 2, middle / 2),
            None => (middle, 0),
        };
        let texts_bytes = texts * (6 + self.text.unwrap_or(0));
        let mut stream = Vec::with_capacity(4_096 + (readouts + 1) * self.readout() + texts_bytes);
        put_name(&mut stream);
        put_text(&mut stream, 3, 600);
        for i in 0..readouts {
            match self.other.filter(|_| i % 2 == 1) {
                None => self.put_readout(&mut stream, i, false),
                Some(Other::Image) => self.put_image(&mut stream, i),
                Some(Other::Waveform) => self.put_waveform(&mut stream, i),
            }
            if let (true, Some(length)) = (i < texts, self.text) {
                put_text(&mut stream, 5, length);
            }
        }
        self.put_readout(&mut stream, readouts, true);
        stream.extend(4_u16.to_le_bytes());
        stream
    }

    fn put_readout(&self, stream: &mut Vec<u8>, i: usize, last: bool) {
        let mut header = [0; 340];
        let mut put = |at: usize, bytes: &[u8]| header[at..at + bytes.len()].copy_from_slice(bytes);
        put(0, &1_u16.to_le_bytes());
        put(14, &(i as u32).to_le_bytes());
        put(34, &self.samples.to_le_bytes());
        put(36, &self.channels.to_le_bytes());
        put(38, &self.channels.to_le_bytes());
        put(40, &(u64::MAX >> (64 - self.channels)).to_le_bytes());
        put(242, &(i as u16 % 256).to_le_bytes());
        put(254, &((i / 256) as u16).to_le_bytes());
        put(274, &u16::from(last).to_le_bytes());
        stream.extend(1008_u16.to_le_bytes());
        stream.extend(header);
        put_filling(stream, self.readout() - 342);
    }

    /// An image of a readout's size: attributes for the rest of its header, and a complex float for each sample.
    fn put_image(&self, stream: &mut Vec<u8>, i: usize) {
        let attributes = 342 - 208;
        let stated = if i % 4 == 1 { 0 } else { attributes };
        let mut header = [0; IMAGE_HEADER];
        let mut put = |at: usize, bytes: &[u8]| header[at..at + bytes.len()].copy_from_slice(bytes);
        put(0, &1_u16.to_le_bytes());
        put(2, &7_u16.to_le_bytes());
        put(16, &self.samples.to_le_bytes());
        put(18, &self.channels.to_le_bytes());
        put(20, &1_u16.to_le_bytes());
        put(34, &1_u16.to_le_bytes());
        put(126, &(i as u16).to_le_bytes());
        put(STATED_LENGTH, &(stated as u32).to_le_bytes());
        stream.extend(1022_u16.to_le_bytes());
        stream.extend(header);
        stream.extend((attributes as u64).to_le_bytes());
        stream.resize(stream.len() + attributes, b'a');
        put_filling(stream, self.readout() - 342);
    }

    /// A waveform of a readout's size, of one channel.
    fn put_waveform(&self, stream: &mut Vec<u8>, i: usize) {
        let data = self.readout() - 2 - WAVEFORM_HEADER;
        let mut header = [0; WAVEFORM_HEADER];
        let mut put = |at: usize, bytes: &[u8]| header[at..at + bytes.len()].copy_from_slice(bytes);
        put(0, &1_u16.to_le_bytes());
        put(14, &(i as u32).to_le_bytes());
        put(22, &(data as u16 / 4).to_le_bytes());
        put(24, &1_u16.to_le_bytes());
        stream.extend(1026_u16.to_le_bytes());
        stream.extend(header);
        put_filling(stream, data);
    }
}

const NAME: &[u8] = b"default.xml";

/// A name whose bytes after its zero are not zero, so that the normal form has something to clean.
fn put_name(stream: &mut Vec<u8>) {
    stream.extend(1_u16.to_le_bytes());
    stream.extend(NAME);
    stream.push(0);
    stream.resize(1_026, b'x');
}

fn put_text(stream: &mut Vec<u8>, id: u16, length: usize) {
    stream.extend(id.to_le_bytes());
    stream.extend((length as u32).to_le_bytes());
    stream.resize(stream.len() + length, b't');
}

/// Bytes that differ from word to word.
fn put_filling(stream: &mut Vec<u8>, length: usize) {
    let mut word = stream.len() as u64;
    for _ in 0..length / 8 {
        word = word.wrapping_mul(6_364_136_223_846_793_005).wrapping_add(1);
        stream.extend(word.to_le_bytes());
    }
    stream.resize(stream.len() + length % 8, 0);
}

/// Whether `out` is the normal form of one of these streams, whose name is its first message.
pub fn is_normal_form(stream: &[u8], out: &[u8]) -> bool {
    let zero = 2 + NAME.len();
    let mut after_name = Records::of(stream).skip(1);
    out.len() == stream.len()
        && out[..zero] == stream[..zero]
        && out[zero..1_026].iter().all(|&byte| byte == 0)
        && after_name.all(|record| is_normal(stream, out, &record.expect("an accepted stream")))
}

/// The record's bytes, but in an image's header its attribute length.
fn is_normal(stream: &[u8], out: &[u8], record: &Record) -> bool {
    let stored = &stream[record.start..][..record.size];
    let written = &out[record.start..][..record.size];
    match record.kind {
        Kind::Image {
            attribute_length, ..
        } => {
            let stated = 2 + STATED_LENGTH;
            written[..stated] == stored[..stated]
                && written[stated..stated + 4] == (attribute_length as u32).to_le_bytes()
                && written[stated + 4..] == stored[stated + 4..]
        }
        _ => written == stored,
    }
}

/// The messages of an accepted stream with their parts apart, to be written again.
pub fn messages(stream: &[u8]) -> Vec<Message<'_>> {
    let mut messages = vec![];
    for record in Records::of(stream) {
        let record = record.expect("an accepted stream");
        let (front, body) =
            stream[record.start..][..record.size].split_at(record.kind.front() as usize);
        let id = record.kind.id();
        let (header, empty) = (&front[2..], &[][..]);
        messages.push(match record.kind {
            Kind::Name { length } => Message {
                id,
                name: &header[..length],
                ..Message::default()
            },
            Kind::Acquisition { .. } => Message {
                id,
                header,
                trajectory: empty,
                samples: body,
                ..Message::default()
            },
            Kind::Waveform { .. } => Message {
                id,
                header,
                waveform: body,
                ..Message::default()
            },
            Kind::Image { .. } => {
                let (attributes, pixels) = body.split_at(record.kind.parts().0 as usize);
                Message {
                    id,
                    header: &header[..IMAGE_HEADER],
                    attributes,
                    pixels,
                    ..Message::default()
                }
            }
            _ => Message {
                id,
                text: body,
                ..Message::default()
            },
        });
    }
    messages
}
