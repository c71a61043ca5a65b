//! Aligned waveform headers (document 02, E3), with offsets written out from the paper, and streams
//! read under the other layout than the one they were made for.

mod common;

use common::*;
use second_reader::*;

const ALIGNED: Rules = Rules::ALIGNED;
const PACKED: Rules = Rules::PACKED;

/// The bytes of an aligned header that carry nothing.
const FILLER: [usize; 8] = [2, 3, 4, 5, 6, 7, 38, 39];

/// An aligned header with a number of its own in every element and this byte as filler.
fn header_with(filler: u8, samples: u16, channels: u16) -> Vec<u8> {
    let mut header = vec![filler; 40];
    put16(&mut header, 0, 1);
    put64(&mut header, 8, 0x8000_0000_0000_0041);
    put32(&mut header, 16, 0x0102_0304);
    put32(&mut header, 20, 0xA1B2_C3D4);
    put32(&mut header, 24, 0x1122_3344);
    put16(&mut header, 28, samples);
    put16(&mut header, 30, channels);
    put32(&mut header, 32, 0xFFC0_0001);
    put16(&mut header, 36, 0xFEDC);
    header
}

/// Two samples of three channels.
fn wave(filler: u8) -> Vec<u8> {
    let data: Vec<u8> = (1..=24).collect();
    waveform_message(&header_with(filler, 2, 3), &data)
}

fn number(rules: Rules, stream: &[u8]) -> u32 {
    match check(rules, stream) {
        Ok(_) => 0,
        Err(refusal) => refusal.number,
    }
}

fn normal(rules: Rules, stream: &[u8]) -> Vec<u8> {
    let mut output = vec![0xAA; stream.len()];
    assert_eq!(
        normal_form(rules, stream, &mut output),
        Ok(stream.len() as u64)
    );
    output
}

#[test]
fn check_3_goes_by_40_bytes() {
    let header = header_with(0xEE, 0, 0);
    for length in 0..=40 {
        let stream = headed(&[&message(1026, &[&header[..length]])]);
        let expected = if length < 40 { 3 } else { 13 };
        assert_eq!(number(ALIGNED, &stream), expected, "{length} bytes");
    }
    // A whole packed header is 3, whatever its version.
    let mut packed = waveform_header(PACKED, 0, 0);
    for version in [1, 0] {
        put16(&mut packed, 0, version);
        let stream = headed(&[&message(1026, &[&packed])]);
        assert_eq!(number(ALIGNED, &stream), 3);
    }
    // The version stays where it was.
    let mut header = header_with(1, 0, 0);
    put16(&mut header, 0, 256);
    assert_eq!(number(ALIGNED, &whole(&[&message(1026, &[&header])])), 4);
}

#[test]
fn filler_is_not_checked_and_says_nothing_of_the_size() {
    for filler in [0, 1, 0x7F, 0x80, 0xFF] {
        let stream = whole(&[&wave(filler)]);
        let record = kind_and_place(ALIGNED, &stream, GivenIndex::NONE, 1).unwrap();
        let expected = Detail::Waveform {
            samples: 2,
            channels: 3,
        };
        assert_eq!((record.start, record.size), (6, 42 + 24));
        assert_eq!(record.detail, expected);
        let view = waveform(ALIGNED, &stream, GivenIndex::NONE, 1);
        assert_eq!(place_of_view(&view), (0, 6 + 42, 24));
        assert_eq!(check(ALIGNED, &stream), Ok(3));
    }
}

#[test]
fn check_10_counts_the_longer_header() {
    // 67,108,854 numbers: 268,435,450 bytes packed, 268,435,458 aligned.
    let sizes = [
        (65_535, 1_024, 11, 11),
        (17_159, 3_911, 11, 11),
        (17_449, 3_846, 11, 10),
        (64_219, 1_045, 11, 10),
        (44_949, 1_493, 10, 10),
        (65_535, 1_025, 10, 10),
    ];
    for (samples, channels, packed, aligned) in sizes {
        for (rules, expected) in [(PACKED, packed), (ALIGNED, aligned)] {
            let header = waveform_header(rules, samples, channels);
            let stream = headed(&[&message(1026, &[&header])]);
            assert_eq!(number(rules, &stream), expected, "{samples} x {channels}");
            let answer = write(rules, 1026, &header, &Parts::default(), &mut [], 0);
            // The writer has no 11: the missing data is 18.
            let expected = if expected == 11 { 18 } else { 10 };
            assert_eq!(answer, Err(expected), "{samples} x {channels}");
        }
    }
}

#[test]
fn fields_at_every_offset_of_an_aligned_header() {
    let stream = whole(&[&wave(0xFF)]);
    let expected = |offset: u64| match offset {
        0 => Ok(Field::Whole(1)),
        8 => Ok(Field::Whole(0x8000_0000_0000_0041)),
        16 => Ok(Field::Whole(0x0102_0304)),
        20 => Ok(Field::Whole(0xA1B2_C3D4)),
        24 => Ok(Field::Whole(0x1122_3344)),
        28 => Ok(Field::Whole(2)),
        30 => Ok(Field::Whole(3)),
        32 => Ok(Field::Float(0xFFC0_0001)),
        36 => Ok(Field::Whole(0xFEDC)),
        _ => Err(Refused::Other(20)),
    };
    for offset in (0..60).chain([u64::from(u32::MAX), u64::MAX]) {
        let answer = field(ALIGNED, &stream, GivenIndex::NONE, 1, offset);
        assert_eq!(answer, expected(offset), "offset {offset}");
    }
}

#[test]
fn the_index_has_the_counter_of_the_aligned_place() {
    let stream = whole(&[&wave(0xEE)]);
    let columns = own_columns(ALIGNED, &stream).unwrap();
    let expected = (
        vec![0, 6, 72],
        vec![3, 1026, 4],
        vec![0, 0xA1B2_C3D4_u32, 0],
    );
    assert_eq!(columns, expected);
    let file = index_bytes(ALIGNED, &stream).unwrap();
    assert_eq!(file[16 + 17 + 13..][..4], [0xD4, 0xC3, 0xB2, 0xA1]);
    // Filler is in neither form.
    let other = whole(&[&wave(0x11)]);
    assert_eq!(index_bytes(ALIGNED, &other).unwrap(), file);
    assert_eq!(agrees(ALIGNED, &other, GivenIndex::file(&file)), Ok(true));
}

#[test]
fn the_normal_form_clears_filler_and_nothing_else() {
    let text = text_message(5, b"\xFF\xFF");
    let stream = whole(&[&wave(0xEE), &text, &wave(0x01), &wave(0)]);
    let expected = whole(&[&wave(0), &text, &wave(0), &wave(0)]);
    assert_eq!(normal(ALIGNED, &stream), expected);
    assert_eq!(normal(ALIGNED, &expected), expected);
    let changed: Vec<usize> = (0..stream.len())
        .filter(|&at| stream[at] != expected[at])
        .collect();
    let filler_from = |start: usize| FILLER.map(|offset| start + 2 + offset);
    let second = 6 + 66 + text.len();
    assert_eq!(changed, [filler_from(6), filler_from(second)].concat());
    // No room: nothing is written.
    let mut short = vec![7; stream.len() - 1];
    let answer = normal_form(ALIGNED, &stream, &mut short);
    assert_eq!(answer, Err(Refused::Other(14)));
    assert!(short.iter().all(|&byte| byte == 7));
}

#[test]
fn the_normal_form_clears_names_lengths_and_filler_in_one_stream() {
    let made = |filler: u8, stated: u32| {
        [
            name_message(b"radial", filler),
            text_message(3, b"h"),
            wave(filler),
            image(&image_header([0; 3], 0, 1, stated), b"ab", &[]),
            wave(filler),
            close(),
        ]
        .concat()
    };
    for (filler, stated) in [(0x5A, 0), (0x5A, 2), (0, 0), (0, 2)] {
        assert_eq!(normal(ALIGNED, &made(filler, stated)), made(0, 2));
    }
}

#[test]
fn records_differ_by_every_bit_but_those_of_filler() {
    let of = |message: &[u8]| contents(ALIGNED, &whole(&[message]));
    let message = wave(0x33);
    let mine = of(&message);
    assert!(mine.is_ok());
    let same = |bit: &usize| {
        let mut other = message.clone();
        other[bit / 8] ^= 1 << (bit % 8);
        let equal = of(&other) == mine;
        // One meaning, one normal form, and the other way round.
        if check(ALIGNED, &whole(&[&other])).is_ok() {
            let normal = |message: &[u8]| normal(ALIGNED, &whole(&[message]));
            assert_eq!(normal(&other) == normal(&message), equal, "bit {bit}");
        }
        equal
    };
    let equal: Vec<usize> = (16..8 * message.len()).filter(same).collect();
    let filler: Vec<usize> = (0..64).map(|i| 8 * (2 + FILLER[i / 8]) + i % 8).collect();
    assert_eq!(equal, filler);
}

/// The writer's answer into a room of 100 bytes, of which it leaves the first three and what follows.
fn written(rules: Rules, header: &[u8], data: &[u8]) -> Result<Vec<u8>, u32> {
    let parts = Parts {
        waveform: data,
        ..Parts::default()
    };
    let mut output = vec![0xAA; 100];
    let answer = write(rules, 1026, header, &parts, &mut output, 3);
    let end = answer.map_or(3, |end| end as usize);
    assert!(output[..3].iter().all(|&byte| byte == 0xAA));
    assert!(output[end..].iter().all(|&byte| byte == 0xAA));
    answer.map(|_| output[3..end].to_vec())
}

#[test]
fn the_writer_takes_40_bytes_and_makes_filler_zero() {
    let data: Vec<u8> = (1..=24).collect();
    for filler in [0, 1, 0x80, 0xFF] {
        let header = header_with(filler, 2, 3);
        assert_eq!(written(ALIGNED, &header, &data), Ok(wave(0)));
    }
    for length in [0, 32, 39, 41, 198, 340] {
        let mut header = header_with(0, 2, 3);
        header.resize(length, 0);
        assert_eq!(written(ALIGNED, &header, &data), Err(3), "{length} bytes");
    }
    assert_eq!(
        written(ALIGNED, &waveform_header(PACKED, 2, 3), &data),
        Err(3)
    );
    assert_eq!(written(PACKED, &header_with(0, 2, 3), &data), Err(3));
}

#[test]
fn no_refusal_of_the_writer_looks_at_filler() {
    for filler in [0, 1, 0xFF] {
        let mut header = header_with(filler, 2, 3);
        assert_eq!(written(ALIGNED, &header, &[0; 23]), Err(18));
        assert_eq!(written(ALIGNED, &header, &[0; 24]).map(drop), Ok(()));
        put16(&mut header, 0, 0);
        assert_eq!(written(ALIGNED, &header, &[0; 24]), Err(4));
        let large = header_with(filler, 65_535, 65_535);
        assert_eq!(written(ALIGNED, &large, &[0; 24]), Err(10));
        // 42 bytes and 56 of data are one more than the room from 3 on.
        let long = header_with(filler, 14, 1);
        assert_eq!(written(ALIGNED, &long, &[0; 56]), Err(14));
        let fits = header_with(filler, 13, 1);
        assert_eq!(written(ALIGNED, &fits, &[0; 52]).map(drop), Ok(()));
    }
}

/// A waveform message that both layouts accept: packed 3 samples of 1 channel, aligned 1 of 1, both of
/// 46 bytes. `last` is a byte of data when packed, and filler when aligned.
fn ambiguous(last: u8) -> Vec<u8> {
    let mut bytes = vec![0x21; 44];
    put16(&mut bytes, 0, 1);
    put16(&mut bytes, 22, 3);
    put16(&mut bytes, 24, 1);
    put16(&mut bytes, 28, 1);
    put16(&mut bytes, 30, 1);
    bytes[39] = last;
    message(1026, &[&bytes])
}

#[test]
fn a_stream_can_be_accepted_under_both_layouts_with_different_records() {
    let stream = whole(&[&ambiguous(9)]);
    let of = |rules| records(rules, &stream).unwrap()[1];
    for (rules, samples) in [(PACKED, 3), (ALIGNED, 1)] {
        let expected = Detail::Waveform {
            samples,
            channels: 1,
        };
        assert_eq!((of(rules).start, of(rules).size), (6, 46));
        assert_eq!(of(rules).detail, expected);
    }
    let contents_of = |rules| contents(rules, &stream).unwrap();
    assert_ne!(contents_of(PACKED), contents_of(ALIGNED));
    let data = |rules| waveform(rules, &stream, GivenIndex::NONE, 1).map(|part| part.length);
    assert_eq!((data(PACKED), data(ALIGNED)), (Ok(12), Ok(4)));
    // Packed there is no filler, aligned there is.
    assert_eq!(normal(PACKED, &stream), stream);
    assert_ne!(normal(ALIGNED, &stream), stream);
    let counter = |rules| own_columns(rules, &stream).unwrap().2[1];
    assert_eq!(counter(PACKED), 0x2121_2121);
    assert_eq!(counter(ALIGNED), 0x0003_2121);
}

#[test]
fn an_index_made_under_the_other_layout_is_right_only_where_it_is_equal() {
    let mut stream = whole(&[&ambiguous(9)]);
    let agree = |stream: &[u8], made: Rules, asked: Rules| {
        let file = index_bytes(made, stream).unwrap();
        let (starts, ids, counters) = own_columns(made, stream).unwrap();
        let columns = GivenIndex::columns(&starts, &ids, &counters);
        let by_file = agrees(asked, stream, GivenIndex::file(&file)).unwrap();
        assert_eq!(agrees(asked, stream, columns), Ok(by_file));
        by_file
    };
    for (made, asked) in [(PACKED, ALIGNED), (ALIGNED, PACKED)] {
        assert!(agree(&stream, made, made));
        assert!(!agree(&stream, made, asked));
    }
    // The same number at both places of the scan counter.
    put32(&mut stream, 6 + 2 + 14, 0x0003_2121);
    for (made, asked) in [(PACKED, ALIGNED), (ALIGNED, PACKED)] {
        assert!(agree(&stream, made, asked));
    }
}

#[test]
fn a_stream_can_be_accepted_under_one_layout_only() {
    let refused = |rules, stream: &[u8]| {
        let refusal = check(rules, stream).unwrap_err();
        (refusal.number, refusal.record, refusal.byte)
    };
    // A packed header, and only a close behind it.
    let packed = whole(&[&waveform_message(&waveform_header(PACKED, 0, 9), &[])]);
    assert_eq!(check(PACKED, &packed), Ok(3));
    assert_eq!(refused(ALIGNED, &packed), (3, 1, 6));
    // Read as aligned it has no data, and what is left of the data is an unknown id.
    let packed = whole(&[&waveform_message(&waveform_header(PACKED, 4, 1), &[1; 16])]);
    assert_eq!(check(PACKED, &packed), Ok(3));
    assert_eq!(refused(ALIGNED, &packed), (2, 2, 48));
    // Read as packed, the counter's upper half is the samples and the stamp's lower half the channels.
    let aligned = whole(&[&wave(0)]);
    assert_eq!(check(ALIGNED, &aligned), Ok(3));
    assert_eq!(refused(PACKED, &aligned), (10, 1, 6));
    // Read as packed it has no data, and what is left of the header is an unknown id.
    let aligned = whole(&[&waveform_message(&waveform_header(ALIGNED, 0, 0), &[])]);
    assert_eq!(check(ALIGNED, &aligned), Ok(3));
    assert_eq!(refused(PACKED, &aligned), (2, 2, 40));
}

#[test]
fn two_streams_are_compared_under_one_layout() {
    let (one, other) = (whole(&[&ambiguous(9)]), whole(&[&ambiguous(10)]));
    // Filler when aligned, a byte of data when packed.
    assert_eq!(contents(ALIGNED, &one), contents(ALIGNED, &other));
    assert_eq!(normal(ALIGNED, &one), normal(ALIGNED, &other));
    assert_ne!(contents(PACKED, &one), contents(PACKED, &other));
    assert_ne!(normal(PACKED, &one), normal(PACKED, &other));
}

#[test]
fn one_set_of_numbers_is_one_content_in_either_layout() {
    let of = |rules, counter: usize| {
        let mut header = waveform_header(rules, 1, 1);
        put32(&mut header, counter, 77);
        let stream = whole(&[&waveform_message(&header, &[1, 2, 3, 4])]);
        contents(rules, &stream).unwrap()
    };
    assert_eq!(of(PACKED, 14), of(ALIGNED, 20));
    // A number at another place is another.
    assert_ne!(of(PACKED, 14), of(ALIGNED, 16));
}

#[test]
fn the_listing_stays_packed() {
    let stream = whole(&[&ambiguous(9)]);
    let listed = "record id start bytes\n0 3 0 6\n1 1026 6 46\n2 4 52 2\nok 3 records 54 bytes\n";
    assert_eq!(listing(&stream), listed);
    // Accepted as aligned, judged as packed.
    let stream = whole(&[&wave(0)]);
    assert_eq!(listing(&stream), "refused 10 at record 1 byte 6\n");
    let stream = whole(&[&waveform_message(&waveform_header(PACKED, 0, 9), &[])]);
    assert!(listing(&stream).ends_with("ok 3 records 42 bytes\n"));
}

#[test]
fn without_waveforms_the_layout_is_not_looked_at() {
    let stream = [
        name_message(b"name", 0xEE),
        text_message(3, b"h"),
        acquisition(&acquisition_header(2, 2, 1)),
        image(&image_header([2, 1, 1], 1, 1, 0), b"att", &[0; 4]),
        close(),
    ]
    .concat();
    for length in 0..=stream.len() {
        let cut = &stream[..length];
        assert_eq!(records(PACKED, cut), records(ALIGNED, cut));
        assert_eq!(contents(PACKED, cut), contents(ALIGNED, cut));
        assert_eq!(index_bytes(PACKED, cut), index_bytes(ALIGNED, cut));
    }
    assert_eq!(normal(PACKED, &stream), normal(ALIGNED, &stream));
}
