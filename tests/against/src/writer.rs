//! The writer of one message: its answer, the whole output, and that the message reads back.

use crate::answers;
use crate::case::{library_rules, Case};
use crate::strict;
use crate::tally::{Family, Outcome, Tally};
use cotterleaf::{Part, Stream};
use second_reader::message::STATED_LENGTH;
use second_reader::{self as second, Kind, Layout, Refused, Rules};
use streams::{writer_input, writer_input_refused, writer_refusals, Message, Rng, WriterInput};

/// A message as the wrapper takes it.
pub fn given(message: &Message) -> cotterleaf::Message<'_> {
    cotterleaf::Message {
        id: message.id,
        header: &message.header,
        name: &message.name,
        text: &message.text,
        trajectory: &message.trajectory,
        samples: &message.samples,
        attributes: &message.attributes,
        pixels: &message.pixels,
        waveform: &message.waveform,
    }
}

/// One drawn message: accepted, or made for one of the writer's refusals in turn.
pub fn message_written(tally: &mut Tally, rng: &mut Rng, rules: Rules, number: u64) -> Outcome {
    tally.rules = rules;
    let refusals = writer_refusals(rules);
    let turn = number as usize % (2 * refusals.len());
    let input = match refusals.get(turn) {
        Some(&refusal) => writer_input_refused(rules, rng, refusal),
        None => writer_input(rules, rng),
    };
    let WriterInput {
        message,
        output,
        position,
    } = input;
    let (mut library, mut second) = (output.clone(), output);
    let answer = given(&message).write(library_rules(rules), &mut library, position as usize);
    let by_second = |rules, output: &mut [u8]| {
        let (id, header, parts) = (message.id, &message.header, message.parts());
        second::write(rules, id, header, &parts, output, position)
    };
    let plain = by_second(rules.plain(), &mut second.clone());
    let expected = by_second(rules, &mut second);
    let question = || format!("write at {position} of {} bytes: {message:?}", second.len());
    let expected = expected.map_err(Refused::Other);
    tally.same(Family::Write, question, answers::number(answer), expected)?;
    tally.same_buffer(question, &library, &second)?;
    note_waveform(tally, &message, expected);
    strict::note_given(tally, &message, expected, plain);
    match expected {
        Ok(end) => {
            note_stated_length(tally, &message);
            read_back(tally, &message, &library[position as usize..end as usize])
        }
        Err(_) => Ok(()),
    }
}

/// Notes what a given waveform header holds as filler, how long it is, and why it is refused.
fn note_waveform(tally: &mut Tally, message: &Message, answer: Result<u64, Refused>) {
    if message.kind() != Some(Kind::Waveform) {
        return;
    }
    let layout = message.rules.layout;
    let number = answer.err().map(Refused::number);
    let other_length = "waveform header of the other length given to the writer";
    match (layout, message.header.len(), number) {
        (Layout::Packed, 40, Some(3)) => tally.note(other_length, "40 bytes packed"),
        (Layout::Aligned, 32, Some(3)) => tally.note(other_length, "32 bytes aligned"),
        _ => {}
    }
    if layout == Layout::Packed {
        return;
    }
    let refused = "aligned waveform refused by the writer";
    match number {
        Some(3) => tally.note(refused, "3"),
        Some(4) => tally.note(refused, "4"),
        Some(10) => tally.note(refused, "10"),
        Some(14) => tally.note(refused, "14"),
        Some(18) => tally.note(refused, "18"),
        Some(_) => {}
        None if message.header == message.header_written() => {
            tally.note("filler given to the writer", "zero");
        }
        None => tally.note("filler given to the writer", "not zero"),
    }
}

/// Notes what a given image header says of the attributes that are written.
fn note_stated_length(tally: &mut Tally, message: &Message) {
    if message.kind() == Some(Kind::Image) {
        let length = message.attributes.len() as u64;
        let what = match message.get(STATED_LENGTH, 0) {
            stated if stated == length => "the length",
            0 => "0 with attributes",
            _ => "another number",
        };
        tally.note("image header given to the writer", what);
    }
}

/// The written message between what the order asks for is accepted, and its views and header are what was given, but
/// for an image header's attribute length, which is the true one, and filler, which is zero.
fn read_back(tally: &Tally, message: &Message, written: &[u8]) -> Outcome {
    let kind = message.kind().expect("a written message has a kind");
    let front: &[u8] = if kind.is_data() {
        &[3, 0, 0, 0, 0, 0]
    } else {
        &[]
    };
    let close: &[u8] = if kind == Kind::Close { &[] } else { &[4, 0] };
    let bytes = [front, written, close].concat();
    let case = Case {
        rules: message.rules,
        bytes: &bytes,
    };
    let stream = case.library();
    let n = usize::from(kind.is_data());
    let count = n + 1 + usize::from(kind != Kind::Close);
    let question = |what: &str| format!("{what} read back of {message:?}");
    tally.same_value(|| question("count"), stream.check(), Ok(count))?;
    let header = &bytes[front.len() + 2..][..message.header.len()];
    tally.same_buffer(|| question("header"), header, &message.header_written())?;
    let parts = [
        (Part::Name, &message.name),
        (Part::Text, &message.text),
        (Part::Attributes, &message.attributes),
        (Part::Trajectory, &message.trajectory),
        (Part::Pixels, &message.pixels),
        (Part::Waveform, &message.waveform),
    ];
    for (part, given) in parts {
        // A part that the kind lacks was given empty.
        let view = stream.view(n, part).unwrap_or_default();
        tally.same_buffer(|| question(&format!("{part:?}")), view, given)?;
    }
    let samples = samples_of(stream, n, message);
    tally.same_buffer(|| question("channels"), &samples, &message.samples)
}

/// The samples of all channels of record n, if the message is an acquisition with any.
fn samples_of(stream: Stream, n: usize, message: &Message) -> Vec<u8> {
    let mut samples = Vec::new();
    if message.kind() == Some(Kind::Acquisition) && !message.samples.is_empty() {
        for channel in 0..message.get("active_channels", 0) as usize {
            let view = stream.view(n, Part::Channel(channel));
            samples.extend_from_slice(view.unwrap_or_default());
        }
    }
    samples
}
