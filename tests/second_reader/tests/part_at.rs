//! Every byte named once (document 02, E12): the part of each byte, for each kind, under each layout and profile.

mod common;

use common::*;
use second_reader::MessagePart as Is;
use second_reader::*;
use std::ops::Range;

under_all_rules! {
    a_close_is_its_id
    a_text_is_id_length_and_text
    an_empty_text_holds_no_byte
    a_name_ends_before_its_zero_which_belongs_to_the_rest
    an_acquisition_is_id_header_trajectory_and_channels
    an_acquisition_without_a_trajectory_samples_or_channels
    an_image_is_id_header_length_attributes_and_pixels
    an_image_without_attributes_or_pixels
    a_waveform_is_id_header_and_data
    elements_of_an_acquisition_header
    elements_of_an_image_header
    parts_adjoin_from_the_first_byte_to_the_last
    each_byte_is_in_exactly_one_part
    each_view_is_exactly_its_part
    a_byte_past_the_end_is_16
    the_stream_refusal_comes_first_for_any_byte
}

/// A run of bytes with one answer: the record's number, the part, and where the part lies.
type Run = (u64, Is, Range<u64>);

/// The runs of a stream, by asking for each of its bytes. The bytes of a run are exactly those of the part.
fn runs(rules: Rules, stream: &[u8]) -> Vec<Run> {
    let mut runs: Vec<Run> = Vec::new();
    for byte in 0..stream.len() as u64 {
        let answer = part_at(rules, stream, byte).unwrap();
        let record = kind_and_place(rules, stream, GivenIndex::NONE, answer.record.number);
        assert_eq!(record, Ok(answer.record));
        let place = answer.place.start..answer.place.start + answer.place.length;
        assert!(place.contains(&byte));
        let run = (answer.record.number, answer.part, place);
        if runs.last() != Some(&run) {
            assert_eq!(run.2.start, byte, "a part begins with its first byte");
            runs.push(run);
        }
    }
    runs
}

/// Record 1 of a stream that an empty header text begins: its runs, counted from its first byte.
fn runs_of(rules: Rules, message: &[u8]) -> Vec<(Is, Range<u64>)> {
    let runs = runs(rules, &whole(&[message]));
    let size = message.len() as u64;
    let front = [(0, Is::Id, 0..2), (0, Is::Length, 2..6)];
    assert_eq!(runs[..2], front);
    let close = (2, Is::Id, 6 + size..8 + size);
    assert_eq!(runs.last(), Some(&close));
    let own = &runs[2..runs.len() - 1];
    assert!(own.iter().all(|run| run.0 == 1));
    let from_its_start = |range: &Range<u64>| range.start - 6..range.end - 6;
    own.iter()
        .map(|(_, part, range)| (*part, from_its_start(range)))
        .collect()
}

fn a_close_is_its_id(rules: Rules) {
    assert_eq!(runs(rules, &close()), [(0, Is::Id, 0..2)]);
    assert_eq!(part_at(rules, &close(), 2), Err(Refused::Other(16)));
}

fn a_text_is_id_length_and_text(rules: Rules) {
    for id in [2, 3, 5] {
        let stream = [text_message(id, b"hi"), close()].concat();
        let expected = [
            (0, Is::Id, 0..2),
            (0, Is::Length, 2..6),
            (0, Is::Text, 6..8),
            (1, Is::Id, 8..10),
        ];
        assert_eq!(runs(rules, &stream), expected);
    }
}

fn an_empty_text_holds_no_byte(rules: Rules) {
    for id in [2, 3, 5] {
        let stream = [text_message(id, b""), close()].concat();
        let expected = [(0, Is::Id, 0..2), (0, Is::Length, 2..6), (1, Is::Id, 6..8)];
        assert_eq!(runs(rules, &stream), expected);
    }
}

fn a_name_ends_before_its_zero_which_belongs_to_the_rest(rules: Rules) {
    // What follows the zero may be anything, other zeros too.
    for filler in [0, 0x41] {
        let stream = [name_message(b"ab", filler), close()].concat();
        let expected = [
            (0, Is::Id, 0..2),
            (0, Is::Name, 2..4),
            (0, Is::NameRest, 4..1_026),
            (1, Is::Id, 1_026..1_028),
        ];
        assert_eq!(runs(rules, &stream), expected);
        let empty = [name_message(b"", filler), close()].concat();
        let expected = [
            (0, Is::Id, 0..2),
            (0, Is::NameRest, 2..1_026),
            (1, Is::Id, 1_026..1_028),
        ];
        assert_eq!(runs(rules, &empty), expected);
    }
    // The longest name leaves the zero alone.
    let longest = [name_message(&[0x41; 1_023], 0), close()].concat();
    let expected = [
        (0, Is::Id, 0..2),
        (0, Is::Name, 2..1_025),
        (0, Is::NameRest, 1_025..1_026),
        (1, Is::Id, 1_026..1_028),
    ];
    assert_eq!(runs(rules, &longest), expected);
}

fn an_acquisition_is_id_header_trajectory_and_channels(rules: Rules) {
    let message = acquisition(&acquisition_header(3, 4, 2));
    let expected = [
        (Is::Id, 0..2),
        (Is::Header, 2..342),
        (Is::Trajectory, 342..366),
        (Is::Channel(0), 366..390),
        (Is::Channel(1), 390..414),
        (Is::Channel(2), 414..438),
        (Is::Channel(3), 438..462),
    ];
    assert_eq!(runs_of(rules, &message), expected);
}

fn an_acquisition_without_a_trajectory_samples_or_channels(rules: Rules) {
    let of = |samples, channels, dimensions| {
        let header = acquisition_header(samples, channels, dimensions);
        runs_of(rules, &acquisition(&header))
    };
    let front = [(Is::Id, 0..2), (Is::Header, 2..342)];
    let channels = [(Is::Channel(0), 342..350), (Is::Channel(1), 350..358)];
    let trajectory = [(Is::Trajectory, 342..354)];
    assert_eq!(of(1, 2, 0), [&front[..], &channels].concat());
    assert_eq!(of(1, 0, 3), [&front[..], &trajectory].concat());
    for (samples, channels, dimensions) in [(0, 2, 3), (0, 1_025, 65_535), (9, 0, 0)] {
        assert_eq!(of(samples, channels, dimensions), front);
    }
}

fn an_image_is_id_header_length_attributes_and_pixels(rules: Rules) {
    // The header says the length of its attributes, or 0: both are bytes of the header.
    for stated in [4, 0] {
        let header = image_header([2, 3, 1], 2, 5, stated);
        let expected = [
            (Is::Id, 0..2),
            (Is::Header, 2..200),
            (Is::Length, 200..208),
            (Is::Attributes, 208..212),
            (Is::Pixels, 212..260),
        ];
        let message = image(&header, b"meta", &[9; 48]);
        assert_eq!(runs_of(rules, &message), expected);
    }
}

fn an_image_without_attributes_or_pixels(rules: Rules) {
    let front = [(Is::Id, 0..2), (Is::Header, 2..200), (Is::Length, 200..208)];
    let none = image_header([65_535, 65_535, 0], 65_535, 8, 0);
    assert_eq!(runs_of(rules, &image(&none, b"", &[])), front);
    let one_pixel = image(&image_header([1, 1, 1], 1, 8, 0), b"", &[7; 16]);
    let pixels = [(Is::Pixels, 208..224)];
    assert_eq!(runs_of(rules, &one_pixel), [&front[..], &pixels].concat());
    let attributes_alone = image(&image_header([1, 0, 1], 1, 8, 3), b"abc", &[]);
    let attributes = [(Is::Attributes, 208..211)];
    let expected = [&front[..], &attributes].concat();
    assert_eq!(runs_of(rules, &attributes_alone), expected);
}

fn a_waveform_is_id_header_and_data(rules: Rules) {
    let end = match rules.layout {
        Layout::Packed => 34,
        Layout::Aligned => 42,
    };
    let front = [(Is::Id, 0..2), (Is::Header, 2..end)];
    let message = waveform_message(&waveform_header(rules, 2, 3), &[8; 24]);
    let data = [(Is::Waveform, end..end + 24)];
    assert_eq!(runs_of(rules, &message), [&front[..], &data].concat());
    for (samples, channels) in [(0, 0), (5, 0), (0, 5)] {
        let message = waveform_message(&waveform_header(rules, samples, channels), &[]);
        assert_eq!(runs_of(rules, &message), front);
    }
}

/// What each byte of record 1's header is.
fn header_bytes(rules: Rules, message: &[u8], size: u64) -> Vec<HeaderByte> {
    let stream = whole(&[message]);
    let header = 6 + 2..6 + 2 + size;
    for byte in 0..stream.len() as u64 {
        let is = part_at(rules, &stream, byte).unwrap().header_byte;
        assert_eq!(is.is_some(), header.contains(&byte), "byte {byte}");
    }
    header
        .map(|byte| part_at(rules, &stream, byte).unwrap().header_byte.unwrap())
        .collect()
}

/// `count` elements of `size` bytes each.
fn elements(bytes: &mut Vec<HeaderByte>, count: u64, size: u64) {
    for _ in 0..count {
        let offset = bytes.len() as u64;
        bytes.extend((0..size).map(|_| HeaderByte::Element { offset, size }));
    }
}

/// The bytes of a header whose elements adjoin: counts and sizes from its first element to its last.
fn adjoining(runs: &[(u64, u64)]) -> Vec<HeaderByte> {
    let mut bytes = Vec::new();
    for &(count, size) in runs {
        elements(&mut bytes, count, size);
    }
    bytes
}

fn elements_of_an_acquisition_header(rules: Rules) {
    // Version, flags, uid to physiology stamps, samples and channels, the mask, discards to dimensions, sample time
    // to table position, counters, user ints and floats.
    let expected = adjoining(&[
        (1, 2),
        (1, 8),
        (6, 4),
        (3, 2),
        (16, 8),
        (5, 2),
        (16, 4),
        (17, 2),
        (16, 4),
    ]);
    assert_eq!(expected.len(), 340);
    let message = acquisition(&acquisition_header(1, 1, 1));
    let shown = header_bytes(rules, &message, 340);
    assert_eq!(shown, expected);
    let last_of_the_mask = HeaderByte::Element {
        offset: 160,
        size: 8,
    };
    assert_eq!(shown[160..168], [last_of_the_mask; 8]);
}

fn elements_of_an_image_header(rules: Rules) {
    // Version and type, flags, uid, matrix size, field of view, channels, position to table, average to set, stamps,
    // type to series, user ints and floats, and the attribute length.
    let expected = adjoining(&[
        (2, 2),
        (1, 8),
        (1, 4),
        (3, 2),
        (3, 4),
        (1, 2),
        (15, 4),
        (6, 2),
        (4, 4),
        (3, 2),
        (16, 4),
        (1, 4),
    ]);
    assert_eq!(expected.len(), 198);
    let message = image(&image_header([1, 1, 1], 1, 1, 0), b"a", &[0; 2]);
    let shown = header_bytes(rules, &message, 198);
    assert_eq!(shown, expected);
    let attribute_length = HeaderByte::Element {
        offset: 194,
        size: 4,
    };
    assert_eq!(shown[194..], [attribute_length; 4]);
}

#[test]
fn elements_of_a_packed_waveform_header() {
    let expected = adjoining(&[(1, 2), (1, 8), (3, 4), (2, 2), (1, 4), (1, 2)]);
    assert_eq!(expected.len(), 32);
    for rules in [Rules::PACKED, Rules::PACKED.strict()] {
        let message = waveform_message(&waveform_header(rules, 1, 1), &[0; 4]);
        assert_eq!(header_bytes(rules, &message, 32), expected);
    }
}

#[test]
fn elements_and_filler_of_an_aligned_waveform_header() {
    let mut expected = adjoining(&[(1, 2)]);
    expected.extend([HeaderByte::Filler; 6]);
    for (count, size) in [(1, 8), (3, 4), (2, 2), (1, 4), (1, 2)] {
        elements(&mut expected, count, size);
    }
    expected.extend([HeaderByte::Filler; 2]);
    assert_eq!(expected.len(), 40);
    for rules in [Rules::ALIGNED, Rules::ALIGNED.strict()] {
        let mut header = waveform_header(rules, 1, 1);
        for filler in [0, 0xFF] {
            for at in [2, 3, 4, 5, 6, 7, 38, 39] {
                header[at] = filler;
            }
            let message = waveform_message(&header, &[0; 4]);
            assert_eq!(header_bytes(rules, &message, 40), expected);
        }
    }
}

/// A stream with each kind that may stand in it, some without all that they may hold.
fn mixed(rules: Rules, configuration: &[u8]) -> Vec<u8> {
    [
        text_message(5, b"note"),
        configuration.to_vec(),
        text_message(3, b"<header/>"),
        acquisition(&acquisition_header(3, 2, 2)),
        image(&image_header([2, 3, 1], 2, 5, 4), b"meta", &[9; 48]),
        waveform_message(&waveform_header(rules, 2, 3), &[8; 24]),
        acquisition(&acquisition_header(0, 2, 1)),
        acquisition(&acquisition_header(2, 1, 0)),
        image(&image_header([0, 5, 5], 5, 8, 0), b"", &[]),
        image(&image_header([1, 1, 1], 1, 1, 0), b"", &[1; 2]),
        waveform_message(&waveform_header(rules, 5, 0), &[]),
        text_message(5, b""),
        close(),
    ]
    .concat()
}

/// Such streams with each configuration.
fn mixed_streams(rules: Rules) -> Vec<Vec<u8>> {
    let configurations = [
        name_message(b"default.xml", 0x11),
        name_message(b"", 0),
        text_message(2, b"<configuration/>"),
        text_message(2, b""),
    ];
    configurations
        .iter()
        .map(|configuration| mixed(rules, configuration))
        .collect()
}

fn parts_adjoin_from_the_first_byte_to_the_last(rules: Rules) {
    for stream in mixed_streams(rules) {
        let mut end = 0;
        for record in records(rules, &stream).unwrap() {
            assert_eq!(record.start, end);
            for (_, place) in parts_of(rules, &record) {
                assert_eq!(place.start, end);
                end += place.length;
            }
            assert_eq!(record.start + record.size, end);
        }
        assert_eq!(stream.len() as u64, end);
    }
}

fn each_byte_is_in_exactly_one_part(rules: Rules) {
    for stream in mixed_streams(rules) {
        let records = records(rules, &stream).unwrap();
        let parts: Vec<(u64, Is, Part)> = records
            .iter()
            .flat_map(|record| {
                let parts = parts_of(rules, record).into_iter();
                parts.map(|(part, place)| (record.number, part, place))
            })
            .collect();
        for byte in 0..stream.len() as u64 {
            let contains = |place: &Part| byte.wrapping_sub(place.start) < place.length;
            let holding: Vec<_> = parts.iter().filter(|part| contains(&part.2)).collect();
            let [(number, part, place)] = holding[..] else {
                panic!("byte {byte} is in {holding:?}");
            };
            let answer = part_at(rules, &stream, byte).unwrap();
            assert_eq!(answer.record.number, *number);
            assert_eq!((answer.part, answer.place), (*part, *place));
        }
    }
}

/// The view of a part, for those that one shows.
fn view(rules: Rules, stream: &[u8], n: u64, part: Is) -> Option<Result<Part, Refused>> {
    let given = GivenIndex::NONE;
    Some(match part {
        Is::Id | Is::Length | Is::Header | Is::NameRest => return None,
        Is::Name => name(rules, stream, given, n),
        Is::Text => text(rules, stream, given, n),
        Is::Attributes => attributes(rules, stream, given, n),
        Is::Trajectory => trajectory(rules, stream, given, n),
        Is::Channel(c) => channel(rules, stream, given, n, c),
        Is::Pixels => pixels(rules, stream, given, n),
        Is::Waveform => waveform(rules, stream, given, n),
    })
}

fn each_view_is_exactly_its_part(rules: Rules) {
    for stream in mixed_streams(rules) {
        for record in records(rules, &stream).unwrap() {
            for (part, place) in parts_of(rules, &record) {
                if let Some(shown) = view(rules, &stream, record.number, part) {
                    assert_eq!(shown, Ok(place), "{part:?} of {record:?}");
                }
            }
        }
    }
}

fn a_byte_past_the_end_is_16(rules: Rules) {
    for stream in mixed_streams(rules) {
        let length = stream.len() as u64;
        assert!(part_at(rules, &stream, length - 1).is_ok());
        for byte in [length, length + 1, u64::from(u32::MAX), u64::MAX] {
            assert_eq!(part_at(rules, &stream, byte), Err(Refused::Other(16)));
        }
    }
}

fn the_stream_refusal_comes_first_for_any_byte(rules: Rules) {
    // Whole messages, and then one that lacks its last byte.
    let torn = headed(&[&text_message(5, b"note"), &text_message(5, b"note")[..9]]);
    let refused = |number, record, byte| {
        Err(Refused::Stream(Refusal {
            number,
            record,
            byte,
        }))
    };
    for byte in (0..30).chain([u64::MAX]) {
        assert_eq!(part_at(rules, &torn, byte), refused(11, 2, 16));
        assert_eq!(part_at(rules, &[], byte), refused(13, 0, 0));
        assert_eq!(part_at(rules, &[4, 0, 0], byte), refused(12, 1, 2));
    }
}

#[test]
fn the_strict_profile_refuses_and_the_plain_one_names_the_part() {
    let stream = whole(&[&text_message(5, b"\xFF")]);
    let refused = Refused::Stream(Refusal {
        number: 21,
        record: 1,
        byte: 6,
    });
    for [plain, strict] in [Rules::PACKED, Rules::ALIGNED].map(|rules| [rules, rules.strict()]) {
        assert_eq!(part_at(plain, &stream, 12).unwrap().part, Is::Text);
        for byte in [0, 12, 14, 15, u64::MAX] {
            assert_eq!(part_at(strict, &stream, byte), Err(refused));
        }
    }
}

#[test]
fn a_byte_can_be_data_packed_and_filler_aligned() {
    // Packed 3 samples of 1 channel, aligned 1 of 1: both of 46 bytes.
    let mut bytes = vec![0x21; 44];
    put16(&mut bytes, 0, 1);
    put16(&mut bytes, 22, 3);
    put16(&mut bytes, 24, 1);
    put16(&mut bytes, 28, 1);
    put16(&mut bytes, 30, 1);
    let stream = whole(&[&message(1026, &[&bytes])]);
    let packed = part_at(Rules::PACKED, &stream, 6 + 2 + 39).unwrap();
    assert_eq!((packed.part, packed.header_byte), (Is::Waveform, None));
    let aligned = part_at(Rules::ALIGNED, &stream, 6 + 2 + 39).unwrap();
    let filler = Some(HeaderByte::Filler);
    assert_eq!((aligned.part, aligned.header_byte), (Is::Header, filler));
}
