//! The baseline is worth comparing with only if it does the same. On drawn, damaged and refused streams, on texts in
//! UTF-8 and not, and on a writer's inputs, library and baseline must give the same answers and write the same bytes.

use crate::baseline::reader::{self, Met};
use crate::baseline::strict::{self, NOT_UTF8};
use crate::baseline::{index, normal, parts, questions, salvage, writer::Message};
use crate::library;
use crate::texts::{self, Script};
use second_reader::Rules;
use streams::{Rng, SHORT_REFUSALS, WRITER_REFUSALS};

/// The baseline knows packed waveform headers alone. Of the strict profile it has the check.
const RULES: Rules = Rules::PACKED;

/// Compares both on so many streams of each sort. Panics at the first difference.
pub fn on_drawn_streams(count: usize, seed: u64) {
    let mut rng = Rng::new(seed);
    let mut strict_answers = [0, 0];
    for round in 0..count {
        for number in plain(&SHORT_REFUSALS) {
            let stream = streams::refused_with(RULES, &mut rng, number);
            let refusal = on_stream(&mut rng, &stream).expect_err("a refused stream");
            assert_eq!(refusal.number, number);
        }
        let messages = streams::well_formed(RULES, &mut rng, 6_000);
        let stream = streams::joined(&messages);
        on_stream(&mut rng, &stream).expect("a well-formed stream");
        on_every_offset(&stream, round % messages.len());
        on_every_byte(&stream);
        let damage = round % streams::DAMAGES.len();
        let damaged = streams::damaged(RULES, &mut rng, damage, 6_000);
        let _ = on_stream(&mut rng, &damaged);
        on_writer_inputs(&mut rng);
        for _ in 0..20 {
            strict_answers[usize::from(on_texts(&mut rng))] += 1;
        }
    }
    assert!(strict_answers.iter().all(|&met| met > 0), "21, and none");
    for close in [false, true] {
        let stream = streams::too_many(close);
        let refusal = library::check(&stream).expect_err("one message too many");
        assert_eq!(refusal.number, 19);
        assert_eq!(reader::check(&stream), Err(refusal));
        on_salvage(&stream);
        on_salvage(&stream[..6_000_000]);
    }
}

/// The numbers of refusal that the plain profile has too.
fn plain(numbers: &[u32]) -> impl Iterator<Item = u32> + '_ {
    numbers.iter().copied().filter(|&number| number != NOT_UTF8)
}

/// Bytes at the borders of RFC 3629's table.
const BORDERS: [u8; 20] = [
    0x00, 0x7F, 0x80, 0x8F, 0x90, 0x9F, 0xA0, 0xBF, 0xC0, 0xC1, 0xC2, 0xDF, 0xE0, 0xED, 0xEF, 0xF0,
    0xF1, 0xF4, 0xF5, 0xFF,
];

/// A text in characters of all lengths, every other time with one byte changed, by the strict profile; gives whether it
/// is UTF-8.
fn on_texts(rng: &mut Rng) -> bool {
    let length = rng.size(300) as usize;
    let mut text = Script::Mixed.text(rng, length).into_bytes();
    if !text.is_empty() && rng.one_in(2) {
        let at = rng.below(text.len() as u64) as usize;
        text[at] = rng.pick(&BORDERS);
    }
    let stream = texts::stream([b"before it", &text[..], b"behind it"]);
    let answer = library::check_strict(&stream);
    assert_eq!(strict::check(&stream), answer);
    answer.is_ok()
}

/// Every question that is measured, about one stream; gives the stream's answer.
fn on_stream(rng: &mut Rng, stream: &[u8]) -> Result<usize, crate::baseline::Refusal> {
    let answer = library::check(stream);
    assert_eq!(reader::check(stream), answer);
    assert_eq!(library::check_strict(stream), strict::check(stream));
    let mut places = vec![];
    let walked = library::walk(stream, |met| places.push(met));
    assert_eq!(walked, answer);
    let records = reader::Records::of(stream).map_while(Result::ok);
    let theirs: Vec<_> = records.map(|record| Met::of(stream, record)).collect();
    assert_eq!(theirs, places);
    for _ in 0..4 {
        let n = streams::record_number(rng, places.len() as u64) as usize;
        let offset = streams::field_offset(RULES, rng) as usize;
        assert_eq!(
            library::field(stream, n, offset),
            questions::field(stream, n, offset)
        );
        let asked: [u16; 17] = match streams::counters(RULES, rng, stream).try_into() {
            Ok(asked) => asked,
            Err(_) => continue,
        };
        assert_eq!(
            library::find(stream, n, &asked),
            questions::find(stream, n, &asked)
        );
    }
    let byte = rng.below(stream.len() as u64 + 2) as usize;
    assert_eq!(library::part_at(stream, byte), parts::part_at(stream, byte));
    on_normal_form(stream);
    on_salvage(stream);
    on_index(rng, stream);
    answer
}

/// The whole header of one record, and what lies beside its elements.
fn on_every_offset(stream: &[u8], n: usize) {
    for offset in 0..=342 {
        let answer = library::field(stream, n, offset);
        assert_eq!(questions::field(stream, n, offset), answer);
    }
}

/// The part of each byte, and that there is none past the end.
fn on_every_byte(stream: &[u8]) {
    for byte in 0..=stream.len() {
        let answer = library::part_at(stream, byte);
        assert_eq!(parts::part_at(stream, byte), answer);
        assert_eq!(answer.is_ok(), byte < stream.len());
    }
}

/// Into an output with room to spare, and into one that is too short.
fn on_normal_form(stream: &[u8]) {
    for length in [stream.len() + 3, stream.len().saturating_sub(1)] {
        let (mut ours, mut theirs) = (vec![0xAA; length], vec![0xAA; length]);
        let answer = library::normal_form(stream, &mut ours);
        assert_eq!(normal::normal_form(stream, &mut theirs), answer);
        assert_eq!(ours, theirs);
    }
}

/// The report, and into outputs with room to spare, with as much as is needed, and with a byte too little.
fn on_salvage(stream: &[u8]) {
    let report = library::salvage_report(stream);
    assert_eq!(salvage::report(stream), report);
    for length in [report.length + 3, report.length, report.length - 1] {
        let (mut ours, mut theirs) = (vec![0xAA; length], vec![0xAA; length]);
        let answer = library::salvage(stream, &mut ours);
        assert_eq!(salvage::salvage(stream, &mut theirs), answer);
        assert_eq!(ours, theirs);
    }
}

fn on_index(rng: &mut Rng, stream: &[u8]) {
    let room = index::length(reader::check(stream).unwrap_or(0));
    for length in [room, room - 1] {
        let (mut ours, mut theirs) = (vec![0xAA; length], vec![0xAA; length]);
        let answer = library::write_index(stream, &mut ours);
        assert_eq!(index::write_index(stream, &mut theirs), answer);
        assert_eq!(ours, theirs);
    }
    let mut files = vec![vec![], vec![0; room]];
    if reader::check(stream).is_ok() {
        let given = streams::given_files(RULES, rng, stream).into_iter();
        files.extend(given.map(|file| file.bytes));
    }
    for file in files {
        let answer = library::index_matches(stream, &file);
        assert_eq!(index::index_matches(stream, &file), answer);
    }
}

fn on_writer_inputs(rng: &mut Rng) {
    let mut inputs = vec![streams::writer_input(RULES, rng)];
    for number in plain(&WRITER_REFUSALS) {
        inputs.push(streams::writer_input_refused(RULES, rng, number));
    }
    for input in inputs {
        let given = &input.message;
        let message = Message {
            id: given.id,
            header: &given.header,
            name: &given.name,
            text: &given.text,
            trajectory: &given.trajectory,
            samples: &given.samples,
            attributes: &given.attributes,
            pixels: &given.pixels,
            waveform: &given.waveform,
        };
        let position = input.position as usize;
        let (mut ours, mut theirs) = (input.output.clone(), input.output.clone());
        let answer = library::write(&message, &mut ours, position);
        assert_eq!(message.write(&mut theirs, position), answer);
        assert_eq!(ours, theirs);
    }
}
