//! The writer, the normal form and the index.

mod common;

use common::*;
use second_reader::*;

under_all_rules! {
    one_message_of_each_kind_without_a_header
    one_message_of_each_kind_with_a_header
    refusals_2_and_3
    refusal_5
    refusals_6_to_8
    the_writer_puts_the_true_attribute_length_and_never_gives_9
    no_other_refusal_of_the_writer_looks_at_the_stated_length
    refusal_10_by_the_header_comes_before_18_and_14
    refusal_10_by_a_given_length_comes_before_18_and_14
    refusal_18_for_each_part_of_each_kind
    refusal_18_where_the_sum_is_right_and_the_lengths_are_not
    refusal_14_by_output_and_position
    normal_form_puts_the_true_length_into_every_image_header
    normal_form_cleans_a_name_and_the_images_after_it
    normal_form_cleans_names_of_any_length
    normal_form_refuses_the_stream_then_the_output
    records_differ_by_kind_and_by_every_part
    records_of_images_differ_by_every_bit_but_those_of_the_stated_length
    columns_hold_start_id_and_counter
    columns_that_are_too_short_are_14_and_stay
    index_file_refuses_the_stream_then_the_output
    a_given_file_must_equal_byte_for_byte
    given_columns_may_be_longer_but_not_shorter_or_different
    both_forms_given_at_once_must_both_agree
}

fn written(rules: Rules, id: u16, header: &[u8], parts: &Parts) -> Result<Vec<u8>, u32> {
    let mut output = vec![0xAA; 2_000];
    let end = write(rules, id, header, parts, &mut output, 3);
    match end {
        Ok(end) => {
            assert!(output[..3].iter().all(|&byte| byte == 0xAA));
            assert!(output[end as usize..].iter().all(|&byte| byte == 0xAA));
            Ok(output[3..end as usize].to_vec())
        }
        Err(number) => {
            assert!(
                output.iter().all(|&byte| byte == 0xAA),
                "{number} wrote a byte"
            );
            Err(number)
        }
    }
}

fn one_message_of_each_kind_without_a_header(rules: Rules) {
    let none = Parts::default();
    assert_eq!(written(rules, 4, &[], &none), Ok(close()));
    let parts = Parts {
        name: b"name",
        ..none
    };
    assert_eq!(written(rules, 1, &[], &parts), Ok(name_message(b"name", 0)));
    for id in [2, 3, 5] {
        for text in [&b""[..], b"some text"] {
            let parts = Parts { text, ..none };
            let expected = text_message(id, text);
            assert_eq!(written(rules, id, &[], &parts), Ok(expected));
        }
    }
}

fn one_message_of_each_kind_with_a_header(rules: Rules) {
    let none = Parts::default();
    let header = acquisition_header(3, 2, 1);
    let message = acquisition(&header);
    let parts = Parts {
        trajectory: &message[342..354],
        samples: &message[354..],
        ..none
    };
    assert_eq!(written(rules, 1008, &header, &parts), Ok(message.clone()));
    let header = image_header([2, 2, 1], 1, 1, 3);
    let parts = Parts {
        attributes: b"abc",
        pixels: &[1, 2, 3, 4, 5, 6, 7, 8],
        ..none
    };
    let expected = image(&header, parts.attributes, parts.pixels);
    assert_eq!(written(rules, 1022, &header, &parts), Ok(expected));
    let header = waveform_header(rules, 1, 2);
    let parts = Parts {
        waveform: &[1, 2, 3, 4, 5, 6, 7, 8],
        ..none
    };
    let expected = waveform_message(&header, parts.waveform);
    assert_eq!(written(rules, 1026, &header, &parts), Ok(expected));
}

fn refusals_2_and_3(rules: Rules) {
    let none = Parts::default();
    assert_eq!(written(rules, 0, &[], &none), Err(2));
    assert_eq!(written(rules, 6, &[1, 2], &none), Err(2));
    for id in 1..=5 {
        assert_eq!(written(rules, id, &[0], &none), Err(3));
    }
    for (id, size) in [(1008, 340), (1022, 198), (1026, waveform_size(rules))] {
        for length in [0, size - 1, size + 1] {
            assert_eq!(written(rules, id, &vec![0; length], &none), Err(3));
        }
        assert_eq!(written(rules, id, &vec![0; size], &none), Err(4));
    }
    assert_eq!(written(rules, 1022, &[0; 206], &none), Err(3));
}

fn refusal_5(rules: Rules) {
    let named = |name: &[u8]| {
        written(
            rules,
            1,
            &[],
            &Parts {
                name,
                ..Parts::default()
            },
        )
    };
    assert_eq!(named(&[b'n'; 1_023]), Ok(name_message(&[b'n'; 1_023], 0)));
    assert_eq!(named(&[b'n'; 1_024]), Err(5));
    assert_eq!(named(b"na\0me"), Err(5));
    assert_eq!(named(b"\0"), Err(5));
    assert_eq!(named(b""), Ok(name_message(b"", 0)));
}

fn refusals_6_to_8(rules: Rules) {
    let none = Parts::default();
    let mut header = acquisition_header(0, 1, 0);
    put16(&mut header, 168, 1);
    put16(&mut header, 36, 0);
    assert_eq!(written(rules, 1008, &header, &none), Err(6));
    put16(&mut header, 36, 1);
    assert_eq!(written(rules, 1008, &header, &none), Err(7));
    put16(&mut header, 168, 0);
    // Any mask is written as it is given.
    for mask in [0, 1 << 40, 3, u64::MAX] {
        put64(&mut header, 40, mask);
        let message = written(rules, 1008, &header, &none).expect("no mask is refused");
        assert_eq!(message[2..], header);
    }
    let attributes = Parts {
        attributes: b"ab",
        ..none
    };
    assert_eq!(
        written(rules, 1022, &image_header([0; 3], 0, 9, 1), &attributes),
        Err(8)
    );
    assert!(written(rules, 1022, &image_header([0; 3], 0, 8, 2), &attributes).is_ok());
}

/// What an image header may hold as attribute length, right or not.
const STATED: [u32; 8] = [0, 1, 2, 3, 4, 256, 1 << 31, u32::MAX];

fn the_writer_puts_the_true_attribute_length_and_never_gives_9(rules: Rules) {
    for stated in STATED {
        for attributes in [&b""[..], b"abc"] {
            let header = image_header([2, 1, 1], 1, 1, stated);
            let parts = Parts {
                attributes,
                pixels: &[1, 2, 3, 4],
                ..Parts::default()
            };
            let true_header = image_header([2, 1, 1], 1, 1, attributes.len() as u32);
            let expected = image(&true_header, attributes, parts.pixels);
            assert_eq!(written(rules, 1022, &header, &parts), Ok(expected.clone()));
            assert_eq!(check(rules, &whole(&[&expected])), Ok(3));
        }
    }
}

fn no_other_refusal_of_the_writer_looks_at_the_stated_length(rules: Rules) {
    let parts = Parts {
        attributes: b"abc",
        ..Parts::default()
    };
    let judged = |header: &[u8]| written(rules, 1022, header, &parts);
    for stated in STATED {
        let mut header = image_header([1; 3], 1, 9, stated);
        assert_eq!(judged(&header[..197]), Err(3));
        assert_eq!(judged(&header), Err(8));
        put16(&mut header, 0, 2);
        assert_eq!(judged(&header), Err(4));
        let header = image_header([65_535; 3], 9, 8, stated);
        assert_eq!(judged(&header), Err(10));
        let header = image_header([1; 3], 1, 8, stated);
        assert_eq!(judged(&header), Err(18));
        let header = image_header([0; 3], 1, 8, stated);
        let mut short = [0; 210];
        assert_eq!(write(rules, 1022, &header, &parts, &mut short, 0), Err(14));
    }
}

/// The writer's refusal into an output without any room.
fn refused_without_room(rules: Rules, id: u16, header: &[u8], parts: &Parts) -> u32 {
    write(rules, id, header, parts, &mut [], 0).expect_err("no message fits")
}

fn refusal_10_by_the_header_comes_before_18_and_14(rules: Rules) {
    let headers = [
        (1008, acquisition_header(65_535, 65_535, 0)),
        (1022, image_header([32_768; 3], 32_768, 8, 0)),
        (1026, waveform_header(rules, 65_535, 65_535)),
    ];
    for (id, header) in headers {
        let number = refused_without_room(rules, id, &header, &Parts::default());
        assert_eq!(number, 10, "id {id}");
    }
}

fn refusal_10_by_a_given_length_comes_before_18_and_14(rules: Rules) {
    let long = vec![0; 268_435_451];
    let none = Parts::default();
    // At the limit the part that a text lacks shows, then the missing output.
    let texts: [(&[u8], &[u8], u32); 3] = [
        (&long, &[1], 10),
        (&long[1..], &[1], 18),
        (&long[1..], &[], 14),
    ];
    for id in [2, 3, 5] {
        for (text, pixels, expected) in texts {
            let parts = Parts {
                text,
                pixels,
                ..none
            };
            assert_eq!(refused_without_room(rules, id, &[], &parts), expected);
        }
    }
    // An image's by the given attributes, whatever the header says of them.
    let most = 268_435_456 - 208;
    for stated in [0, 7, most, most + 1] {
        let header = image_header([0; 3], 0, 1, stated);
        for (length, expected) in [(most + 1, 10), (most, 14)] {
            let parts = Parts {
                attributes: &long[..length as usize],
                ..none
            };
            assert_eq!(refused_without_room(rules, 1022, &header, &parts), expected);
        }
    }
}

/// One part alone.
fn one_part(name: PartName, bytes: &[u8]) -> Parts<'_> {
    let mut parts = Parts::default();
    match name {
        PartName::Name => parts.name = bytes,
        PartName::Text => parts.text = bytes,
        PartName::Trajectory => parts.trajectory = bytes,
        PartName::Samples => parts.samples = bytes,
        PartName::Attributes => parts.attributes = bytes,
        PartName::Pixels => parts.pixels = bytes,
        PartName::Waveform => parts.waveform = bytes,
    }
    parts
}

fn refusal_18_for_each_part_of_each_kind(rules: Rules) {
    let byte: &[u8] = &[1];
    let headers = [
        (1, vec![]),
        (2, vec![]),
        (3, vec![]),
        (4, vec![]),
        (5, vec![]),
        (1008, acquisition_header(0, 0, 0)),
        (1022, image_header([0; 3], 0, 1, 0)),
        (1026, waveform_header(rules, 0, 0)),
    ];
    for (id, header) in &headers {
        for name in PartName::ALL {
            let expected = match (id, name) {
                (1, PartName::Name) => Ok(name_message(byte, 0)),
                (2 | 3 | 5, PartName::Text) => Ok(text_message(*id, byte)),
                (1022, PartName::Attributes) => {
                    Ok(image(&image_header([0; 3], 0, 1, 1), byte, &[]))
                }
                _ => Err(18),
            };
            let answer = written(rules, *id, header, &one_part(name, byte));
            assert_eq!(answer, expected, "id {id} {name:?}");
        }
    }
}

fn refusal_18_where_the_sum_is_right_and_the_lengths_are_not(rules: Rules) {
    let header = acquisition_header(1, 1, 1);
    let judged = |trajectory: &[u8], samples: &[u8]| {
        let parts = Parts {
            trajectory,
            samples,
            ..Parts::default()
        };
        written(rules, 1008, &header, &parts).map(drop)
    };
    assert_eq!(judged(&[0; 8], &[0; 4]), Err(18));
    assert_eq!(judged(&[0; 4], &[0; 8]), Ok(()));
}

fn refusal_14_by_output_and_position(rules: Rules) {
    let parts = Parts {
        text: b"abc",
        ..Parts::default()
    };
    let at = |length: usize, position: u64| {
        let mut output = vec![0; length];
        write(rules, 5, &[], &parts, &mut output, position)
    };
    assert_eq!(at(9, 0), Ok(9));
    assert_eq!(at(8, 0), Err(14));
    assert_eq!(at(12, 3), Ok(12));
    assert_eq!(at(12, 4), Err(14));
    assert_eq!(at(12, 12), Err(14));
    assert_eq!(at(12, 13), Err(14));
    assert_eq!(at(0, 0), Err(14));
    assert_eq!(at(12, u64::MAX), Err(14));
    assert_eq!(at(12, u64::MAX - 5), Err(14));
}

fn normal(rules: Rules, stream: &[u8]) -> Vec<u8> {
    let mut output = vec![0xAA; stream.len()];
    assert_eq!(
        normal_form(rules, stream, &mut output),
        Ok(stream.len() as u64)
    );
    output
}

fn normal_form_puts_the_true_length_into_every_image_header(rules: Rules) {
    // Two images with attributes and one without, and what each header says of them.
    let stating = |first: u32, last: u32| {
        let header = |stated| image_header([1; 3], 1, 1, stated);
        whole(&[
            &image(&header(first), b"abc", &[1, 2]),
            &text_message(5, b"between"),
            &image(&header(0), b"", &[3, 4]),
            &image(&header(last), &[b'x'; 300], &[5, 6]),
        ])
    };
    let expected = stating(3, 300);
    for (first, last) in [(0, 0), (0, 300), (3, 0), (3, 300)] {
        let stream = stating(first, last);
        // One meaning, one set of bytes, and that is its own normal form.
        assert_eq!(contents(rules, &stream), contents(rules, &expected));
        assert_eq!(normal(rules, &stream), expected);
    }
    assert_eq!(normal(rules, &expected), expected);
    // The four bytes of the number and no others were changed.
    let zero = stating(0, 0);
    let changed: Vec<usize> = (0..zero.len())
        .filter(|&i| zero[i] != expected[i])
        .collect();
    let second = 6 + 213 + 13 + 210;
    assert_eq!(changed, [6 + 196, second + 196, second + 197]);
}

fn normal_form_cleans_a_name_and_the_images_after_it(rules: Rules) {
    let made = |filler: u8, stated: u32| {
        let header = image_header([0; 3], 0, 1, stated);
        [
            name_message(b"radial", filler),
            text_message(3, b"h"),
            image(&header, b"ab", &[]),
            close(),
        ]
        .concat()
    };
    for (filler, stated) in [(0, 0), (0x5A, 0), (0x5A, 2), (0, 2)] {
        assert_eq!(normal(rules, &made(filler, stated)), made(0, 2));
    }
}

fn normal_form_cleans_names_of_any_length(rules: Rules) {
    let rest = [text_message(3, b"\0\x01"), close()].concat();
    for length in [0, 1, 500, 1_022, 1_023] {
        let name = vec![b'n'; length];
        let stream = [&name_message(&name, 0x5A)[..], &rest].concat();
        let expected = [&name_message(&name, 0)[..], &rest].concat();
        let mut output = vec![1; stream.len() + 2];
        assert_eq!(
            normal_form(rules, &stream, &mut output),
            Ok(stream.len() as u64)
        );
        assert_eq!(output[..stream.len()], expected);
        assert_eq!(output[stream.len()..], [1, 1]);
        assert_eq!(contents(rules, &stream), contents(rules, &expected));
    }
}

fn normal_form_refuses_the_stream_then_the_output(rules: Rules) {
    let stream = [text_message(5, b"abc"), close()].concat();
    let mut output = vec![7; stream.len() - 1];
    assert_eq!(
        normal_form(rules, &stream, &mut output),
        Err(Refused::Other(14))
    );
    assert!(output.iter().all(|&byte| byte == 7));
    let refusal = Refusal {
        number: 13,
        record: 1,
        byte: 9,
    };
    assert_eq!(
        normal_form(rules, &stream[..9], &mut []),
        Err(Refused::Stream(refusal))
    );
}

fn records_differ_by_kind_and_by_every_part(rules: Rules) {
    let of = |messages: &[&[u8]]| contents(rules, &whole(messages)).unwrap();
    let header = acquisition_header(1, 1, 1);
    let message = acquisition(&header);
    for byte in 2..message.len() {
        let mut other = message.clone();
        other[byte] ^= 1;
        if check(rules, &whole(&[&other])).is_ok() {
            assert_ne!(of(&[&message]), of(&[&other]), "byte {byte}");
        }
    }
    let as_configuration = [text_message(2, b"same"), close()].concat();
    let as_text = [text_message(5, b"same"), close()].concat();
    assert_ne!(
        contents(rules, &as_configuration),
        contents(rules, &as_text)
    );
}

fn records_of_images_differ_by_every_bit_but_those_of_the_stated_length(rules: Rules) {
    let of = |message: &[u8]| contents(rules, &whole(&[message]));
    let message = image(&image_header([1; 3], 1, 1, 4), b"attr", &[1, 2]);
    let mine = of(&message);
    assert!(mine.is_ok());
    let same = |bit: &usize| {
        let mut other = message.clone();
        other[bit / 8] ^= 1 << (bit % 8);
        of(&other) == mine
    };
    // Bit 2 of that number makes 0 of 4; any other change of it is refused.
    let equal: Vec<usize> = (16..8 * message.len()).filter(same).collect();
    assert_eq!(equal, [8 * 196 + 2]);
}

fn indexed(rules: Rules) -> Vec<u8> {
    let mut acquisition_head = acquisition_header(0, 0, 0);
    put32(&mut acquisition_head, 14, 0x0102_0304);
    let mut image_head = image_header([0; 3], 0, 1, 0);
    put32(&mut image_head, 12, u32::MAX);
    let mut waveform_head = waveform_header(rules, 0, 0);
    put32(&mut waveform_head, waveform_counter(rules), 0xFFFF_FFFF);
    whole(&[
        &acquisition(&acquisition_head),
        &image(&image_head, b"", &[]),
        &waveform_message(&waveform_head, &[]),
    ])
}

fn columns_hold_start_id_and_counter(rules: Rules) {
    let stream = indexed(rules);
    let mut starts = [9; 6];
    let mut ids = [9; 7];
    let mut counters = [9; 5];
    assert_eq!(
        fill_columns(rules, &stream, &mut starts, &mut ids, &mut counters),
        Ok(5)
    );
    let last = 558 + waveform_size(rules) as u64;
    assert_eq!(starts, [0, 6, 348, 556, last, 9]);
    assert_eq!(ids, [3, 1008, 1022, 1026, 4, 9, 9]);
    assert_eq!(counters, [0, 0x0102_0304, 0, 0xFFFF_FFFF, 0]);
}

fn columns_that_are_too_short_are_14_and_stay(rules: Rules) {
    let stream = indexed(rules);
    for short in 0..3 {
        let length = |column| if column == short { 4 } else { 5 };
        let mut starts = vec![9; length(0)];
        let mut ids = vec![9; length(1)];
        let mut counters = vec![9; length(2)];
        let answer = fill_columns(rules, &stream, &mut starts, &mut ids, &mut counters);
        assert_eq!(answer, Err(Refused::Other(14)));
        assert!(starts.iter().all(|&start| start == 9));
        assert!(ids.iter().all(|&id| id == 9));
        assert!(counters.iter().all(|&counter| counter == 9));
    }
    let answer = fill_columns(rules, &stream[..6], &mut [], &mut [], &mut []);
    assert_eq!(answer.unwrap_err().number(), 13);
}

fn index_file_refuses_the_stream_then_the_output(rules: Rules) {
    let stream = indexed(rules);
    let size = 5 + 11 + 5 * 17 + 7;
    assert_eq!(index_bytes(rules, &stream).unwrap().len(), size);
    let mut output = vec![3; size - 1];
    assert_eq!(
        write_index(rules, &stream, &mut output),
        Err(Refused::Other(14))
    );
    assert!(output.iter().all(|&byte| byte == 3));
    assert_eq!(
        write_index(rules, &stream[..6], &mut output)
            .unwrap_err()
            .number(),
        13
    );
}

fn a_given_file_must_equal_byte_for_byte(rules: Rules) {
    let stream = indexed(rules);
    let file = index_bytes(rules, &stream).unwrap();
    let agrees =
        |bytes: &[u8]| second_reader::agrees(rules, &stream, GivenIndex::file(bytes)).unwrap();
    assert!(agrees(&file));
    for byte in 0..file.len() {
        let mut other = file.clone();
        other[byte] ^= 1;
        assert!(!agrees(&other), "byte {byte}");
        assert!(!agrees(&file[..byte]), "{byte} bytes");
    }
    assert!(!agrees(&[&file[..], &[0]].concat()));
    assert_eq!(
        second_reader::agrees(rules, &stream, GivenIndex::NONE),
        Ok(true)
    );
}

fn given_columns_may_be_longer_but_not_shorter_or_different(rules: Rules) {
    let stream = indexed(rules);
    let (starts, ids, counters) = own_columns(rules, &stream).unwrap();
    let agrees = |starts: &[u64], ids: &[u16], counters: &[u32]| {
        second_reader::agrees(rules, &stream, GivenIndex::columns(starts, ids, counters)).unwrap()
    };
    assert!(agrees(&starts, &ids, &counters));
    assert!(agrees(
        &[&starts[..], &[1, 2]].concat(),
        &[&ids[..], &[7]].concat(),
        &counters
    ));
    assert!(!agrees(&starts[..4], &ids, &counters));
    assert!(!agrees(&starts, &ids[..4], &counters));
    assert!(!agrees(&starts, &ids, &counters[..4]));
    for record in 0..5 {
        let mut other = starts.clone();
        other[record] += 1;
        assert!(!agrees(&other, &ids, &counters));
        let mut other = ids.clone();
        other[record] += 1;
        assert!(!agrees(&starts, &other, &counters));
        let mut other = counters.clone();
        other[record] ^= 1;
        assert!(!agrees(&starts, &ids, &other));
    }
}

fn both_forms_given_at_once_must_both_agree(rules: Rules) {
    let stream = indexed(rules);
    let (starts, ids, counters) = own_columns(rules, &stream).unwrap();
    let file = index_bytes(rules, &stream).unwrap();
    let columns = GivenIndex::columns(&starts, &ids, &counters).columns;
    let both = |file| {
        let given = GivenIndex {
            file: Some(file),
            columns,
        };
        agrees(rules, &stream, given)
    };
    assert_eq!(both(&file), Ok(true));
    assert_eq!(both(&file[1..]), Ok(false));
}
