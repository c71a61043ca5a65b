//! Views, fields, flags, find and steps, without and with a given index.

mod common;

use common::*;
use second_reader::*;

under_all_rules! {
    places_one_after_another
    kinds_with_their_own_numbers
    views_lie_where_the_paper_puts_them
    accepted_empty_views_have_their_natural_place
    each_view_is_there_for_its_own_kinds_only
    fields_by_offset
    an_image_header_that_says_0_is_shown_as_it_is_and_its_eight_bytes_decide
    find_takes_all_seventeen_and_starts_at_the_record_asked_for
    the_stream_refusal_comes_first_then_15_then_the_others
}

/// One record of each kind that may stand in one stream: 0 text, 1 name, 2 header text,
/// 3 acquisition (3 samples, 2 channels, 2 dimensions), 4 image, 5 waveform, 6 acquisition of
/// zero sizes, 7 empty image, 8 empty waveform, 9 empty text, 10 close.
fn mixed(rules: Rules) -> Vec<u8> {
    let mut header = acquisition_header(3, 2, 2);
    put32(&mut header, 14, 0xA1B2_C3D4);
    for i in 0..17 {
        put16(&mut header, 242 + 2 * i, 100 + i as u16);
    }
    let mut waveform_head = waveform_header(rules, 2, 3);
    put32(&mut waveform_head, waveform_counter(rules), 77);
    let mut image_head = image_header([2, 3, 1], 2, 5, 4);
    // Where an acquisition has its scan counter.
    put32(&mut image_head, 14, 0xFFFF_FFFF);
    put16(&mut image_head, 16, 2);
    [
        text_message(5, b"note"),
        name_message(b"default.xml", 0xEE),
        text_message(3, b"<header/>"),
        acquisition(&header),
        image(&image_head, b"meta", &[9; 48]),
        waveform_message(&waveform_head, &[8; 24]),
        acquisition(&acquisition_header(0, 2, 0)),
        image(&image_header([0, 5, 5], 5, 8, 0), b"", &[]),
        waveform_message(&waveform_header(rules, 5, 0), &[]),
        text_message(5, b""),
        close(),
    ]
    .concat()
}

fn starts(rules: Rules) -> Vec<u64> {
    records(rules, &mixed(rules))
        .unwrap()
        .iter()
        .map(|record| record.start)
        .collect()
}

type View = fn(Rules, &[u8], GivenIndex, u64) -> Result<Part, Refused>;

/// Refusal, start and length of a view of record n, asked without an index.
fn at(rules: Rules, stream: &[u8], view: View, n: u64) -> (u32, u64, u64) {
    place_of_view(&view(rules, stream, GivenIndex::NONE, n))
}

/// The same of one channel's samples.
fn channel_at(rules: Rules, stream: &[u8], n: u64, c: u64) -> (u32, u64, u64) {
    place_of_view(&channel(rules, stream, GivenIndex::NONE, n, c))
}

fn places_one_after_another(rules: Rules) {
    let stream = mixed(rules);
    let header = waveform_size(rules) as u64;
    let acquisition = 342 + 24 + 48;
    let image = 208 + 4 + 48;
    let waveform = 2 + header + 24;
    let empty = [342, 208, 2 + header, 6, 2];
    let sizes = [&[10, 1_026, 15, acquisition, image, waveform], &empty[..]].concat();
    let mut start = 0;
    let records = records(rules, &stream).unwrap();
    for (i, (record, &size)) in records.iter().zip(&sizes).enumerate() {
        assert_eq!(record.number, i as u64);
        assert_eq!((record.start, record.size), (start, size));
        start += size;
    }
    assert_eq!(start, stream.len() as u64);
    for number in [11, u64::MAX] {
        let answer = kind_and_place(rules, &stream, GivenIndex::NONE, number);
        assert_eq!(answer, Err(Refused::Other(16)));
    }
}

fn kinds_with_their_own_numbers(rules: Rules) {
    let records = records(rules, &mixed(rules)).unwrap();
    let details: Vec<Detail> = records.iter().map(|record| record.detail).collect();
    assert_eq!(details[0], Detail::Text { length: 4 });
    assert_eq!(details[1], Detail::ConfigurationName { length: 11 });
    assert_eq!(details[2], Detail::HeaderText { length: 9 });
    let image = Detail::Image {
        matrix_size: [2, 3, 1],
        channels: 2,
        data_type: 5,
        attribute_length: 4,
    };
    assert_eq!(details[4], image);
    let waveform = Detail::Waveform {
        samples: 2,
        channels: 3,
    };
    assert_eq!(details[5], waveform);
    assert_eq!(details[10], Detail::Close);
}

fn views_lie_where_the_paper_puts_them(rules: Rules) {
    let stream = mixed(rules);
    let starts = starts(rules);
    let shown = |view: View, n| {
        let part = view(rules, &stream, GivenIndex::NONE, n).unwrap();
        bytes_of(&stream, part)
    };
    assert_eq!(shown(text, 2), b"<header/>");
    assert_eq!(shown(name, 1), b"default.xml");
    let at = |view, n| at(rules, &stream, view, n);
    let channel_at = |n, c| channel_at(rules, &stream, n, c);
    assert_eq!(at(text, 0), (0, 6, 4));
    assert_eq!(at(name, 1), (0, 12, 11));
    assert_eq!(at(trajectory, 3), (0, starts[3] + 342, 24));
    assert_eq!(channel_at(3, 0), (0, starts[3] + 366, 24));
    assert_eq!(channel_at(3, 1), (0, starts[3] + 390, 24));
    assert_eq!(channel_at(3, 2), (17, 0, 0));
    assert_eq!(channel_at(3, u64::MAX), (17, 0, 0));
    assert_eq!(at(attributes, 4), (0, starts[4] + 208, 4));
    assert_eq!(at(pixels, 4), (0, starts[4] + 212, 48));
    let header = waveform_size(rules) as u64;
    assert_eq!(at(waveform, 5), (0, starts[5] + 2 + header, 24));
}

fn accepted_empty_views_have_their_natural_place(rules: Rules) {
    let stream = mixed(rules);
    let starts = starts(rules);
    let at = |view, n| at(rules, &stream, view, n);
    assert_eq!(at(trajectory, 6), (0, starts[6] + 342, 0));
    let channel_at = |n, c| channel_at(rules, &stream, n, c);
    assert_eq!(channel_at(6, 1), (0, starts[6] + 342, 0));
    assert_eq!(channel_at(6, 2), (17, 0, 0));
    assert_eq!(at(attributes, 7), (0, starts[7] + 208, 0));
    assert_eq!(at(pixels, 7), (0, starts[7] + 208, 0));
    let header = waveform_size(rules) as u64;
    assert_eq!(at(waveform, 8), (0, starts[8] + 2 + header, 0));
    assert_eq!(at(text, 9), (0, starts[9] + 6, 0));
}

fn each_view_is_there_for_its_own_kinds_only(rules: Rules) {
    let stream = mixed(rules);
    let first_channel: View = |rules, stream, given, n| channel(rules, stream, given, n, 0);
    let views: [(View, &[u64]); 7] = [
        (text, &[0, 2, 9]),
        (name, &[1]),
        (trajectory, &[3, 6]),
        (first_channel, &[3, 6]),
        (attributes, &[4, 7]),
        (pixels, &[4, 7]),
        (waveform, &[5, 8]),
    ];
    for (view, own) in views {
        for n in 0..13 {
            let expected = match n {
                _ if own.contains(&n) => 0,
                0..=10 => 17,
                _ => 16,
            };
            assert_eq!(at(rules, &stream, view, n).0, expected);
        }
    }
    let configuration = [text_message(2, b"cfg"), close()].concat();
    assert_eq!(at(rules, &configuration, text, 0), (0, 6, 3));
}

fn fields_by_offset(rules: Rules) {
    let mut header = acquisition_header(1, 1, 0);
    put64(&mut header, 2, 0x8000_0000_0000_0040);
    put32(&mut header, 26, 123);
    put64(&mut header, 48, 0);
    put32(&mut header, 178, 0xFFC0_0001);
    put32(&mut header, 304, 0x8000_0000);
    let mut image_head = image_header([0; 3], 0, 1, 0);
    put32(&mut image_head, 130, 0xFFFF_FFFE);
    let mut waveform_head = waveform_header(rules, 0, 0);
    put32(&mut waveform_head, waveform_counter(rules), 1_024);
    let stream = whole(&[
        &acquisition(&header),
        &image(&image_head, b"", &[]),
        &waveform_message(&waveform_head, &[]),
    ]);
    let of = |number, offset| field(rules, &stream, GivenIndex::NONE, number, offset);
    assert_eq!(of(1, 0), Ok(Field::Whole(1)));
    assert_eq!(of(1, 2), Ok(Field::Whole(0x8000_0000_0000_0040)));
    assert_eq!(of(1, 26), Ok(Field::Whole(123)));
    assert_eq!(of(1, 178), Ok(Field::Float(0xFFC0_0001)));
    assert_eq!(of(1, 304), Ok(Field::Signed(i32::MIN)));
    assert_eq!(of(1, 336), Ok(Field::Float(0)));
    assert_eq!(of(2, 130), Ok(Field::Signed(-2)));
    assert_eq!(of(2, 194), Ok(Field::Whole(0)));
    let counter = waveform_counter(rules) as u64;
    assert_eq!(of(3, counter), Ok(Field::Whole(1_024)));
    assert_eq!(of(3, waveform_size(rules) as u64), Err(Refused::Other(20)));
    for (number, offset) in [(1, 1), (1, 28), (1, 340), (2, 198), (3, u64::MAX)] {
        assert_eq!(of(number, offset), Err(Refused::Other(20)));
    }
    for number in [0, 4] {
        assert_eq!(of(number, 0), Err(Refused::Other(20)));
    }
    assert_eq!(of(5, 1), Err(Refused::Other(16)));
}

/// A stream of an image with 3 bytes of attributes, of which its header says this number, and a text.
fn stating(stated: u32) -> Vec<u8> {
    let header = image_header([2, 1, 1], 1, 1, stated);
    whole(&[
        &image(&header, b"abc", &[5, 6, 7, 8]),
        &text_message(5, b"t"),
    ])
}

fn an_image_header_that_says_0_is_shown_as_it_is_and_its_eight_bytes_decide(rules: Rules) {
    let none = GivenIndex::NONE;
    for stated in [0, 3] {
        let stream = stating(stated);
        let record = kind_and_place(rules, &stream, none, 1).unwrap();
        let image = Detail::Image {
            matrix_size: [2, 1, 1],
            channels: 1,
            data_type: 1,
            attribute_length: 3,
        };
        assert_eq!((record.start, record.size), (6, 208 + 3 + 4));
        assert_eq!(record.detail, image);
        assert_eq!(at(rules, &stream, attributes, 1), (0, 6 + 208, 3));
        assert_eq!(at(rules, &stream, pixels, 1), (0, 6 + 211, 4));
        assert_eq!(at(rules, &stream, text, 2), (0, 6 + 215 + 6, 1));
        let stored = Field::Whole(u64::from(stated));
        assert_eq!(field(rules, &stream, none, 1, 194), Ok(stored));
        assert_eq!(field(rules, &stream, none, 1, 198), Err(Refused::Other(20)));
        let listed = "0 3 0 6\n1 1022 6 215\n2 5 221 7\n3 4 228 2\n";
        assert!(listing(&stream).contains(listed));
    }
    // Neither form of the index has that number.
    let [zero, length] = [0, 3].map(stating);
    assert_eq!(index_bytes(rules, &zero), index_bytes(rules, &length));
    assert_eq!(own_columns(rules, &zero), own_columns(rules, &length));
}

#[test]
fn flags_outside_1_to_64_change_nothing() {
    for n in [0, 65, 66, 128, u64::MAX] {
        assert!(!flag_is_set(u64::MAX, n));
        assert_eq!(flag_set(5, n), 5);
        assert_eq!(flag_cleared(5, n), 5);
    }
    for n in 1..=64_u64 {
        assert_eq!(flag_set(0, n), 1_u64.rotate_left(n as u32 - 1));
        assert!(flag_is_set(flag_set(0, n), n));
        assert!(!flag_is_set(flag_cleared(u64::MAX, n), n));
        assert_eq!(flag_set(flag_cleared(u64::MAX, n), n), u64::MAX);
    }
    assert_eq!(flag_set(0, 64), 1 << 63);
}

#[test]
fn counter_steps() {
    assert_eq!(counter_step(7, 7), 0);
    assert_eq!(counter_step(7, 8), 1);
    assert_eq!(counter_step(7, 10), 3);
    assert_eq!(counter_step(7, 6), -1);
    assert_eq!(counter_step(0, u32::MAX), -1);
    assert_eq!(counter_step(u32::MAX, 1), 2);
    assert_eq!(counter_step(0, 2_147_483_647), 2_147_483_647);
    assert_eq!(counter_step(2_147_483_648, 0), -2_147_483_648);
}

fn find_takes_all_seventeen_and_starts_at_the_record_asked_for(rules: Rules) {
    let counted = |step: u16, last: u16| {
        let mut header = acquisition_header(0, 0, 0);
        put16(&mut header, 242, step);
        put16(&mut header, 274, last);
        acquisition(&header)
    };
    let stream = whole(&[
        &counted(1, 2),
        &text_message(5, b""),
        &counted(1, 3),
        &counted(1, 2),
    ]);
    let asked = |step, last| {
        let mut counters = [0; 17];
        counters[0] = step;
        counters[16] = last;
        counters
    };
    let found = |from, counters: &[u16]| find(rules, &stream, GivenIndex::NONE, from, counters);
    assert_eq!(found(0, &asked(1, 2)), Ok(1));
    assert_eq!(found(1, &asked(1, 2)), Ok(1));
    assert_eq!(found(2, &asked(1, 2)), Ok(4));
    assert_eq!(found(0, &asked(1, 3)), Ok(3));
    assert_eq!(found(5, &asked(1, 2)), Err(Refused::Other(16)));
    assert_eq!(found(6, &asked(1, 2)), Err(Refused::Other(16)));
    assert_eq!(found(u64::MAX, &asked(1, 2)), Err(Refused::Other(16)));
    assert_eq!(found(0, &asked(0, 2)), Err(Refused::Other(16)));
    assert_eq!(found(0, &asked(1, 2)[..16]), Err(Refused::Other(16)));
    assert_eq!(found(0, &[]), Err(Refused::Other(16)));
}

/// The numbers that every question gives for a stream, a given index and a record number.
fn numbers_of(rules: Rules, stream: &[u8], given: GivenIndex, number: u64) -> Vec<u32> {
    let of = |answer: Result<(), Refused>| answer.map_or_else(Refused::number, |()| 0);
    vec![
        of(kind_and_place(rules, stream, given, number).map(drop)),
        of(text(rules, stream, given, number).map(drop)),
        of(name(rules, stream, given, number).map(drop)),
        of(attributes(rules, stream, given, number).map(drop)),
        of(trajectory(rules, stream, given, number).map(drop)),
        of(channel(rules, stream, given, number, 0).map(drop)),
        of(pixels(rules, stream, given, number).map(drop)),
        of(waveform(rules, stream, given, number).map(drop)),
        of(field(rules, stream, given, number, 0).map(drop)),
        of(find(rules, stream, given, number, &[0; 17]).map(drop)),
    ]
}

fn the_stream_refusal_comes_first_then_15_then_the_others(rules: Rules) {
    let stream = mixed(rules);
    let file = index_bytes(rules, &stream).unwrap();
    let (starts, ids, counters) = own_columns(rules, &stream).unwrap();
    for number in 0..12 {
        let plain = numbers_of(rules, &stream, GivenIndex::NONE, number);
        assert_eq!(
            numbers_of(rules, &stream, GivenIndex::file(&file), number),
            plain
        );
        let columns = GivenIndex::columns(&starts, &ids, &counters);
        assert_eq!(numbers_of(rules, &stream, columns, number), plain);
        assert_eq!(
            numbers_of(rules, &stream, GivenIndex::file(&[]), number),
            [15; 10]
        );
        let short = GivenIndex::columns(&starts, &ids, &counters[1..]);
        assert_eq!(numbers_of(rules, &stream, short, number), [15; 10]);
    }
    assert_eq!(numbers_of(rules, &stream, GivenIndex::NONE, 11), [16; 10]);
    let cut = &stream[..stream.len() - 2];
    assert_eq!(numbers_of(rules, cut, GivenIndex::file(&[]), 11), [13; 10]);
    let refused = text(rules, cut, GivenIndex::NONE, 0).unwrap_err();
    let expected = Refusal {
        number: 13,
        record: 10,
        byte: cut.len() as u64,
    };
    assert_eq!(refused, Refused::Stream(expected));
}
