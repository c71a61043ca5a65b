//! The kept streams pass, one for each layout of waveform headers, and whatever is changed in them or in
//! their description is found.

use cotterleaf::{refused, Kind, Mask, Message, Part, Record, Rules, Stream};
use cotterleaf::{AcquisitionHeader, ImageHeader, WaveformHeader};
use field_data::check::check_both;
use field_data::description::Description;
use second_reader::{headers, Layout};

const FOLDER: &str = concat!(env!("CARGO_MANIFEST_DIR"), "/../../field_data/");

const LAYOUTS: [Layout; 2] = [Layout::Packed, Layout::Aligned];

/// The stream of a layout, and the description, which is of both.
fn kept(layout: Layout) -> (Vec<u8>, String) {
    let stream = match layout {
        Layout::Packed => "phantom.mrd",
        Layout::Aligned => "phantom_aligned.mrd",
    };
    let stream = std::fs::read(format!("{FOLDER}{stream}")).unwrap();
    let text = std::fs::read_to_string(format!("{FOLDER}phantom.txt")).unwrap();
    (stream, text)
}

fn rules(layout: Layout) -> Rules {
    match layout {
        Layout::Packed => Rules::packed(),
        Layout::Aligned => Rules::aligned(),
    }
}

fn second_rules(layout: Layout) -> second_reader::Rules {
    second_reader::Rules {
        layout,
        ..second_reader::Rules::default()
    }
}

/// Whether the check passes, for a description that may not even be readable.
fn passes(layout: Layout, stream: &[u8], text: &str) -> Result<(), String> {
    check_both(layout, stream, &Description::parse(text)?).map(|_| ())
}

/// The bytes of the stream that are filler of waveform headers; none where these are packed.
fn filler(layout: Layout, stream: &[u8]) -> Vec<usize> {
    let records = second_reader::records(second_rules(layout), stream).unwrap();
    let waveforms = records
        .iter()
        .filter(|record| record.detail.kind() == second_reader::Kind::Waveform);
    let table = match layout {
        Layout::Packed => &headers::WAVEFORM,
        Layout::Aligned => &headers::ALIGNED_WAVEFORM,
    };
    let of_header = |start: usize| table.filler().into_iter().map(move |at| start + 2 + at);
    waveforms
        .flat_map(|record| of_header(record.start as usize))
        .collect()
}

#[test]
fn both_readers_find_what_the_ismrmrd_library_holds() {
    for layout in LAYOUTS {
        what_the_ismrmrd_library_holds(layout);
    }
}

fn what_the_ismrmrd_library_holds(layout: Layout) {
    let (stream, text) = kept(layout);
    let description = Description::parse(&text).unwrap();
    let compared = check_both(layout, &stream, &description).unwrap();
    assert_eq!(compared.records, description.records.len());
    let count = |id| {
        description
            .records
            .iter()
            .filter(|record| record.id == id)
            .count()
    };
    assert_eq!([3, 1008, 1022, 1026, 4].map(count), [1, 43, 2, 3, 1]);
}

/// Nothing in a stream tells its layout, but under the other one the first waveform of these has a size over the limit.
#[test]
fn under_the_other_layout_the_first_waveform_is_too_large() {
    for layout in LAYOUTS {
        let (stream, text) = kept(layout);
        let other = second_rules(layout).with_other_layout().layout;
        let refusal = Stream::new(rules(other), &stream).check().unwrap_err();
        let place = refusal.place.unwrap();
        assert_eq!((refusal.number, place.record), (refused::TOO_LARGE, 46));
        assert!(passes(other, &stream, &text).is_err());
    }
}

/// What that library writes as texts is UTF-8; one byte of its header text that is not is found by both readers.
#[test]
fn texts_are_utf8() {
    for layout in LAYOUTS {
        let (mut stream, _) = kept(layout);
        let strict = rules(layout).strict();
        let count = Stream::new(rules(layout), &stream).check();
        assert_eq!(Stream::new(strict, &stream).check(), count);
        let second = second_reader::check(second_rules(layout).strict(), &stream);
        assert_eq!(second.unwrap() as usize, count.unwrap());
        stream[20] = 0xFF;
        assert_eq!(Stream::new(rules(layout), &stream).check(), count);
        let refusal = Stream::new(strict, &stream).check().unwrap_err();
        assert_eq!(refusal.number, refused::TEXT_NOT_UTF8);
        let second = second_reader::check(second_rules(layout).strict(), &stream);
        assert_eq!(second.unwrap_err().number, 21);
    }
}

/// The padding of the library's structs lies in the stream as it was in memory: zero as the library's constructor has
/// it, and whatever else convert.cpp left there.
#[test]
fn filler_is_the_padding_of_the_librarys_structs() {
    let (packed, _) = kept(Layout::Packed);
    assert!(filler(Layout::Packed, &packed).is_empty());
    let (stream, _) = kept(Layout::Aligned);
    let bytes = filler(Layout::Aligned, &stream);
    let bytes: Vec<u8> = bytes.into_iter().map(|at| stream[at]).collect();
    assert_eq!(bytes, [[0; 8], [0xA5; 8], [0x5A; 8]].concat());
}

/// The phantom's masks are zero, one acquisition's names its channels, and after the ISMRMRD library's own `resize` to
/// fewer channels it still names those from before.
#[test]
fn masks_are_told_as_the_field_leaves_them() {
    let (stream, _) = kept(Layout::Packed);
    let masks: Vec<Mask> = Stream::new(Rules::packed(), &stream)
        .records()
        .filter_map(|record| match record.unwrap().kind {
            Kind::Acquisition { mask, .. } => Some(mask),
            _ => None,
        })
        .collect();
    let mut due = vec![Mask::NotStated; 41];
    due.extend([Mask::Agrees { ones: 3 }, Mask::Differs { ones: 3 }]);
    assert_eq!(masks, due);
}

/// The description covers every byte of the stream but filler, so that no flipped bit goes unseen.
#[test]
fn a_flipped_bit_is_found_wherever_it_stands() {
    let (stream, text) = kept(Layout::Packed);
    let positions = (0..stream.len()).step_by(509);
    for (i, at) in positions.enumerate() {
        let mut damaged = stream.clone();
        damaged[at] ^= 1 << (i % 8);
        let found = passes(Layout::Packed, &damaged, &text);
        assert!(found.is_err(), "byte {at}");
    }
}

/// The acquisition that has another value in every element: each byte of its message counts.
#[test]
fn a_flipped_bit_is_found_in_every_byte_of_the_full_header() {
    let (stream, text) = kept(Layout::Packed);
    let places = second_reader::records(second_reader::Rules::PACKED, &stream).unwrap();
    let full = places[42];
    assert_eq!(full.detail.kind(), second_reader::Kind::Acquisition);
    for at in (full.start..full.start + full.size).step_by(3) {
        let mut damaged = stream.clone();
        damaged[at as usize] ^= 0x80;
        let found = passes(Layout::Packed, &damaged, &text);
        assert!(found.is_err(), "byte {at}");
    }
}

/// The last waveform, in whose message each byte counts but the filler, which does not.
#[test]
fn a_flipped_bit_of_an_aligned_waveform_is_found_but_in_filler() {
    let (stream, text) = kept(Layout::Aligned);
    let filler = filler(Layout::Aligned, &stream);
    let places = second_reader::records(second_reader::Rules::ALIGNED, &stream).unwrap();
    let last = places[48];
    assert_eq!(last.detail.kind(), second_reader::Kind::Waveform);
    for at in (last.start..last.start + last.size).map(|at| at as usize) {
        let mut damaged = stream.clone();
        damaged[at] ^= 1 << (at % 8);
        let found = passes(Layout::Aligned, &damaged, &text);
        assert_eq!(found.is_ok(), filler.contains(&at), "byte {at}: {found:?}");
    }
}

/// The line with the end of its last word changed.
fn changed(line: &str) -> String {
    let (front, last) = line.rsplit_once(' ').unwrap_or(("", line));
    let last = match last.strip_suffix('0') {
        Some(kept) => format!("{kept}1"),
        None => format!("{}0", &last[..last.len() - 1]),
    };
    format!("{front} {last}").trim_start().to_string()
}

fn with_line(lines: &[&str], at: usize, line: Option<&str>) -> String {
    let mut lines = lines.to_vec();
    match line {
        Some(line) => lines[at] = line,
        None => drop(lines.remove(at)),
    }
    lines.join("\n")
}

#[test]
fn a_changed_or_missing_line_of_the_description_is_found() {
    changed_and_missing_lines(Layout::Packed, "record 42 ");
    // What is before the waveforms is the same in both streams.
    changed_and_missing_lines(Layout::Aligned, "record 46 ");
}

/// The lines of the tables, and those from a record on.
fn changed_and_missing_lines(layout: Layout, from: &str) {
    let (stream, text) = kept(layout);
    let lines: Vec<&str> = text.lines().collect();
    let at = |start: &str| lines.iter().position(|line| line.starts_with(start));
    let tables = 1..at("record 0 ").unwrap();
    for at in tables.chain(at(from).unwrap()..lines.len()) {
        let line = lines[at];
        let other = with_line(&lines, at, Some(&changed(line)));
        assert!(passes(layout, &stream, &other).is_err(), "{line}");
        let fewer = with_line(&lines, at, None);
        assert!(passes(layout, &stream, &fewer).is_err(), "without {line}");
    }
}

/// A record's header bytes and parts as the library gives them, written by the library's writer.
fn written_again(stream: &Stream, record: &Record, out: &mut [u8], position: usize) -> usize {
    let part = |part| stream.view(record.number, part).unwrap_or(&[]);
    let channels: Vec<&[u8]> = match record.kind {
        Kind::Acquisition {
            active_channels, ..
        } => (0..usize::from(active_channels))
            .map(|channel| part(Part::Channel(channel)))
            .collect(),
        _ => vec![],
    };
    let header = match record.kind {
        Kind::Acquisition { .. } => AcquisitionHeader::SIZE,
        Kind::Image { .. } => ImageHeader::SIZE,
        Kind::Waveform { .. } => WaveformHeader::size(stream.rules().layout),
        _ => 0,
    };
    let message = Message {
        id: record.kind.id(),
        header: &stream.bytes()[record.start + 2..][..header],
        name: part(Part::Name),
        text: part(Part::Text),
        trajectory: part(Part::Trajectory),
        samples: &channels.concat(),
        attributes: part(Part::Attributes),
        pixels: part(Part::Pixels),
        waveform: part(Part::Waveform),
    };
    message.write(stream.rules(), out, position).unwrap()
}

/// The streams have no configuration name, and their image headers say their attribute lengths, so that nothing but
/// filler is otherwise in what is written: packed, the stream is its own normal form.
#[test]
fn the_library_writes_the_same_bytes_again_but_filler() {
    for layout in LAYOUTS {
        let (bytes, _) = kept(layout);
        let mut normal = bytes.clone();
        let filler = filler(layout, &bytes);
        filler.into_iter().for_each(|at| normal[at] = 0);
        assert_eq!(normal == bytes, layout == Layout::Packed);
        let stream = Stream::new(rules(layout), &bytes);
        let mut out = vec![0xAA; bytes.len()];
        let mut position = 0;
        for record in stream.records() {
            position = written_again(&stream, &record.unwrap(), &mut out, position);
        }
        assert_eq!(position, bytes.len());
        assert!(out == normal);
        out.fill(0xAA);
        assert_eq!(stream.normal_form(&mut out), Ok(bytes.len()));
        assert!(out == normal);
    }
}
