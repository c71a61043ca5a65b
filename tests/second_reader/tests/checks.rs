//! Both sides of each check, and the order in which checks are made.

mod common;

use common::*;
use second_reader::*;

fn number_under(rules: Rules, stream: &[u8]) -> u32 {
    match check(rules, stream) {
        Ok(_) => 0,
        Err(refusal) => refusal.number,
    }
}

/// The number under all rules, which agree on streams without waveforms whose texts are UTF-8.
fn number(stream: &[u8]) -> u32 {
    one_answer(|rules| number_under(rules, stream))
}

#[test]
fn check_3_looks_at_the_whole_fixed_part() {
    for (id, fixed) in [(1_u16, 1_024), (2, 4), (5, 4)] {
        assert_eq!(number(&message(id, &[&vec![0; fixed - 1]])), 3);
        // A fixed part of zeros is a whole message of these kinds.
        assert_eq!(number(&message(id, &[&vec![0; fixed]])), 13);
    }
    for rules in Rules::ALL {
        for (id, fixed) in [(1008_u16, 340), (1022, 206), (1026, waveform_size(rules))] {
            let zeros = |length| headed(&[&message(id, &[&vec![0; length]])]);
            // The version is not looked at before the fixed part is there.
            assert_eq!(number_under(rules, &zeros(fixed - 1)), 3);
            assert_eq!(number_under(rules, &zeros(fixed)), 4);
        }
    }
    // A whole image header without its 8-byte length.
    let header = image_header([0; 3], 0, 99, 0);
    assert_eq!(number(&headed(&[&message(1022, &[&header])])), 3);
    assert_eq!(number(&headed(&[&[0xF0, 0x03]])), 3);
}

#[test]
fn check_4_takes_version_1_only() {
    let versions = [0, 1, 2, 256, 257, 65_535];
    let under = |rules| versions.map(|version| (rules, version));
    for (rules, version) in Rules::ALL.map(under).concat() {
        let mut acquisition_bytes = acquisition(&acquisition_header(1, 1, 1));
        let mut image_bytes = image(&image_header([1; 3], 1, 1, 0), &[], &[0; 2]);
        let mut waveform_bytes = waveform_message(&waveform_header(rules, 1, 1), &[0; 4]);
        for bytes in [
            &mut acquisition_bytes,
            &mut image_bytes,
            &mut waveform_bytes,
        ] {
            put16(bytes, 2, version);
            let expected = if version == 1 { 0 } else { 4 };
            assert_eq!(number_under(rules, &whole(&[bytes])), expected);
        }
    }
}

#[test]
fn check_5_needs_a_zero_in_the_name() {
    let name = vec![b'n'; 1_023];
    let mut bytes = name_message(&name, 1);
    assert_eq!(number(&[&bytes[..], &[4, 0]].concat()), 0);
    bytes[1_025] = b'n';
    assert_eq!(number(&[&bytes[..], &[4, 0]].concat()), 5);
    // A zero right after the name's 1,024 bytes does not count.
    assert_eq!(number(&[&bytes[..], &[0, 0]].concat()), 5);
}

#[test]
fn check_6_compares_active_and_available_channels_alone() {
    let judged = |available: u16, active: u16, mask: u64| {
        let mut header = acquisition_header(1, active, 0);
        put16(&mut header, 36, available);
        put64(&mut header, 40, mask);
        number(&whole(&[&acquisition(&header)]))
    };
    // Whatever the mask says.
    for mask in [0, 0b111, 0b11, 0b1111, u64::MAX] {
        assert_eq!(judged(3, 3, mask), 0);
        assert_eq!(judged(2, 3, mask), 6);
        assert_eq!(judged(65_535, 3, mask), 0);
        assert_eq!(judged(0, 0, mask), 0);
        assert_eq!(judged(0, 1, mask), 6);
    }
}

#[test]
fn a_mask_is_not_stated_or_agrees_or_differs() {
    let told = |active: u16, mask: &[(usize, u64)]| {
        let mut header = acquisition_header(0, active, 0);
        put16(&mut header, 36, 2_000);
        for &(word, ones) in mask {
            put64(&mut header, 40 + 8 * word, ones);
        }
        let stream = whole(&[&acquisition(&header)]);
        let records = one_answer(|rules| records(rules, &stream)).expect("no mask is refused");
        match records[1].detail {
            Detail::Acquisition { mask, .. } => mask,
            other => panic!("no acquisition: {other:?}"),
        }
    };
    let (agrees, differs) = (|ones| Mask::Agrees { ones }, |ones| Mask::Differs { ones });
    assert_eq!(told(3, &[]), Mask::NotStated);
    assert_eq!(told(0, &[]), Mask::NotStated);
    assert_eq!(told(3, &[(0, 0b111)]), agrees(3));
    assert_eq!(told(3, &[(0, 0b11)]), differs(2));
    assert_eq!(told(3, &[(0, 0b1111)]), differs(4));
    // Bits spread over the words are only counted.
    assert_eq!(told(3, &[(0, 1 << 63), (7, 1), (15, 1 << 63)]), agrees(3));
    assert_eq!(told(0, &[(15, 1 << 63)]), differs(1));
    // A mask has 1,024 bits; more channels than that may be active.
    let all: Vec<(usize, u64)> = (0..16).map(|word| (word, u64::MAX)).collect();
    assert_eq!(told(1_024, &[]), Mask::NotStated);
    assert_eq!(told(1_024, &all), agrees(1_024));
    assert_eq!(told(1_025, &all), differs(1_024));
    assert_eq!(told(1_025, &[]), Mask::NotStated);
}

#[test]
fn check_7_sums_without_a_wrap() {
    let judged = |samples: u16, pre: u16, post: u16| {
        let mut header = acquisition_header(samples, 0, 0);
        put16(&mut header, 168, pre);
        put16(&mut header, 170, post);
        number(&whole(&[&acquisition(&header)]))
    };
    assert_eq!(judged(10, 4, 6), 0);
    assert_eq!(judged(10, 4, 7), 7);
    assert_eq!(judged(10, 11, 0), 7);
    assert_eq!(judged(65_535, 65_535, 0), 0);
    assert_eq!(judged(65_535, 65_535, 1), 7);
    assert_eq!(judged(0, 32_768, 32_768), 7);
}

#[test]
fn check_8_takes_types_1_to_8_of_their_sizes() {
    let sizes = [2, 2, 4, 4, 4, 8, 8, 16];
    for (i, size) in sizes.into_iter().enumerate() {
        let header = image_header([3, 2, 1], 2, i as u16 + 1, 0);
        let bytes = image(&header, &[], &vec![0; 12 * size]);
        assert_eq!(number(&whole(&[&bytes])), 0);
    }
    for data_type in [0, 9, 255, 257, 65_535] {
        let header = image_header([0; 3], 0, data_type, 0);
        assert_eq!(number(&whole(&[&image(&header, &[], &[])])), 8);
    }
}

#[test]
fn check_9_compares_all_eight_bytes() {
    let header = image_header([0; 3], 0, 1, 5);
    let good = image(&header, b"attrs", &[]);
    assert_eq!(number(&whole(&[&good])), 0);
    for byte in 200..208 {
        let mut bytes = good.clone();
        bytes[byte] ^= 0x80;
        assert_eq!(number(&whole(&[&bytes])), 9, "byte {byte}");
    }
}

#[test]
fn check_9_takes_the_true_length_or_zero_in_the_header() {
    let judged = |stated: u32, attributes: &[u8]| {
        let header = image_header([2, 1, 1], 1, 1, stated);
        number(&whole(&[&image(&header, attributes, &[7; 4])]))
    };
    assert_eq!(judged(5, b"attrs"), 0);
    assert_eq!(judged(0, b"attrs"), 0);
    for stated in [1, 4, 6, 5 << 8, 5 << 24, u32::MAX] {
        assert_eq!(judged(stated, b"attrs"), 9, "{stated}");
    }
    // Without attributes the true length is 0 itself.
    assert_eq!(judged(0, b""), 0);
    for stated in [1, 2, 256, 1 << 31, u32::MAX] {
        assert_eq!(judged(stated, b""), 9, "{stated}");
    }
    // Of the 32 numbers that one bit makes of 4, 0 alone passes.
    assert_eq!(judged(4, b"attr"), 0);
    for bit in 0..32 {
        let expected = if bit == 2 { 0 } else { 9 };
        assert_eq!(judged(4 ^ 1 << bit, b"attr"), expected, "bit {bit}");
    }
}

#[test]
fn check_9_takes_no_low_word_of_a_longer_length() {
    let judged = |stated: u32, length: u64| {
        let header = image_header([0; 3], 0, 1, stated);
        number(&whole(&[&message(1022, &[&header, &length.to_le_bytes()])]))
    };
    let past = 1_u64 << 32;
    // With 0 in the header the length decides, and is over the limit.
    for length in [past, past + 5, past << 31, u64::MAX] {
        assert_eq!(judged(0, length), 10, "{length}");
    }
    assert_eq!(judged(5, past + 5), 9);
    assert_eq!(judged(1, past + 5), 9);
    assert_eq!(judged(1, past), 9);
    assert_eq!(judged(u32::MAX, past), 9);
    assert_eq!(judged(u32::MAX, u64::MAX), 9);
    // The longest that the header can state.
    assert_eq!(judged(u32::MAX, past - 1), 10);
    assert_eq!(judged(0, past - 1), 10);
    assert_eq!(judged(u32::MAX - 1, past - 1), 9);
}

#[test]
fn check_10_at_the_limits_of_acquisitions_and_images() {
    let first_after =
        |header: Vec<u8>, id: u16, rest: &[u8]| number(&headed(&[&message(id, &[&header, rest])]));
    let mut header = acquisition_header(0, 0, 0);
    put16(&mut header, 34, 65_535);
    put16(&mut header, 176, 1_024);
    // 65,535 x 4,096 = 268,431,360: within.
    assert_eq!(first_after(header.clone(), 1008, &[]), 11);
    put16(&mut header, 176, 1_025);
    assert_eq!(first_after(header, 1008, &[]), 10);
    // An image meets the limit exactly by its attributes.
    let limit = 268_435_456 - 208;
    let lengths = |length: u32| (image_header([0; 3], 7, 8, length), u64::from(length));
    let (header, length) = lengths(limit);
    assert_eq!(first_after(header, 1022, &length.to_le_bytes()), 11);
    let (header, length) = lengths(limit + 1);
    assert_eq!(first_after(header, 1022, &length.to_le_bytes()), 10);
    let header = image_header([1; 3], 1, 1, limit - 2);
    assert_eq!(
        first_after(header, 1022, &u64::from(limit - 2).to_le_bytes()),
        11
    );
    let header = image_header([1; 3], 1, 1, limit - 1);
    assert_eq!(
        first_after(header, 1022, &u64::from(limit - 1).to_le_bytes()),
        10
    );
    // The same where the header says 0.
    for (length, expected) in [(limit, 11), (limit + 1, 10)] {
        let length = u64::from(length).to_le_bytes();
        let header = image_header([0; 3], 7, 8, 0);
        assert_eq!(first_after(header, 1022, &length), expected);
    }
}

#[test]
fn products_that_pass_32_or_64_bits_are_10() {
    // Samples of 2^32 bytes.
    let header = acquisition_header(32_768, 16_384, 0);
    assert_eq!(number(&whole(&[&message(1008, &[&header])])), 10);
    for rules in Rules::ALL {
        let stream = whole(&[&message(1026, &[&waveform_header(rules, 32_768, 32_768)])]);
        assert_eq!(number_under(rules, &stream), 10);
    }
    // Pixels of 2^64 bytes, then of 2^32.
    let header = image_header([32_768; 3], 32_768, 8, 0);
    assert_eq!(number(&whole(&[&image(&header, &[], &[])])), 10);
    let header = image_header([256; 3], 256, 1, 0);
    assert_eq!(number(&whole(&[&image(&header, &[], &[])])), 10);
}

#[test]
fn zero_sizes_are_accepted() {
    for (samples, channels, dimensions) in [(0, 0, 0), (0, 65_535, 65_535), (9, 0, 0)] {
        let header = acquisition_header(samples, channels, dimensions);
        assert_eq!(number(&whole(&[&acquisition(&header)])), 0);
    }
    for (matrix, channels) in [([0, 65_535, 65_535], 65_535), ([65_535; 3], 0)] {
        let header = image_header(matrix, channels, 8, 0);
        assert_eq!(number(&whole(&[&image(&header, &[], &[])])), 0);
    }
    for rules in Rules::ALL {
        for (samples, channels) in [(0, 65_535), (65_535, 0)] {
            let stream = whole(&[&message(
                1026,
                &[&waveform_header(rules, samples, channels)],
            )]);
            assert_eq!(number_under(rules, &stream), 0);
        }
    }
}

#[test]
fn check_11_wants_every_byte_of_the_message() {
    for rules in Rules::ALL {
        let messages = [
            text_message(5, b"text"),
            acquisition(&acquisition_header(2, 2, 1)),
            image(&image_header([2, 1, 1], 1, 1, 3), b"att", &[0; 4]),
            image(&image_header([2, 1, 1], 1, 1, 0), b"att", &[0; 4]),
            waveform_message(&waveform_header(rules, 2, 1), &[0; 8]),
        ];
        for bytes in &messages {
            let cut = &bytes[..bytes.len() - 1];
            assert_eq!(number_under(rules, &headed(&[bytes])), 13);
            assert_eq!(number_under(rules, &headed(&[cut])), 11);
        }
    }
}

#[test]
fn order_of_messages() {
    let texts = |ids: &[u16]| {
        let messages: Vec<Vec<u8>> = ids.iter().map(|&id| text_message(id, b"t")).collect();
        number(&[&messages.concat()[..], &[4, 0]].concat())
    };
    assert_eq!(texts(&[]), 0);
    assert_eq!(texts(&[5, 2, 5, 3, 5]), 0);
    assert_eq!(texts(&[2]), 0);
    assert_eq!(texts(&[3]), 0);
    assert_eq!(texts(&[2, 2]), 12);
    assert_eq!(texts(&[3, 2]), 12);
    assert_eq!(texts(&[3, 3]), 12);
    assert_eq!(texts(&[2, 3, 2]), 12);
    let name = name_message(b"n", 0);
    let text = text_message(2, b"");
    assert_eq!(number(&[&name[..], &[4, 0]].concat()), 0);
    assert_eq!(number(&[&name[..], &name, &[4, 0]].concat()), 12);
    assert_eq!(number(&[&name[..], &text, &[4, 0]].concat()), 12);
    assert_eq!(number(&[&text[..], &name, &[4, 0]].concat()), 12);
    assert_eq!(number(&[4, 0, 4, 0]), 12);
    for rules in Rules::ALL {
        let wave = waveform_message(&waveform_header(rules, 1, 1), &[0; 4]);
        assert_eq!(number_under(rules, &whole(&[&wave, &wave])), 0);
        assert_eq!(number(&[&wave[..], &[4, 0]].concat()), 12);
        assert_eq!(number(&[&text[..], &wave, &[4, 0]].concat()), 12);
        assert_eq!(number_under(rules, &whole(&[&wave, &text])), 12);
    }
}

#[test]
fn order_of_checks_at_one_message() {
    // An unknown id after the close is 12, as is a single byte.
    assert_eq!(number(&[4, 0, 6, 0]), 12);
    // 2 before 3, and before the order.
    assert_eq!(number(&[6, 0, 0]), 2);
    // 12 before 3, 4 and 11: a second header text cut short, an image of version 0 too early.
    assert_eq!(number(&headed(&[&[3, 0]])), 12);
    assert_eq!(number(&message(1022, &[&[0; 206]])), 12);
    // 4 before 6, 6 before 7, 7 before 10.
    let mut header = acquisition_header(0, 5, 0);
    put16(&mut header, 0, 2);
    put16(&mut header, 36, 4);
    put16(&mut header, 168, 1);
    assert_eq!(number(&headed(&[&message(1008, &[&header])])), 4);
    put16(&mut header, 0, 1);
    assert_eq!(number(&headed(&[&message(1008, &[&header])])), 6);
    put16(&mut header, 36, 5);
    assert_eq!(number(&headed(&[&message(1008, &[&header])])), 7);
    let mut header = acquisition_header(65_535, 65_535, 65_535);
    put16(&mut header, 168, 65_535);
    put16(&mut header, 170, 1);
    assert_eq!(number(&headed(&[&message(1008, &[&header])])), 7);
    // 4 before 8, 8 before 9, 9 before 10, 10 before 11.
    let mut header = image_header([65_535; 3], 65_535, 9, 1);
    put16(&mut header, 0, 0);
    assert_eq!(number(&headed(&[&image(&header, &[], &[])])), 4);
    put16(&mut header, 0, 1);
    assert_eq!(number(&headed(&[&image(&header, &[], &[])])), 8);
    put16(&mut header, 2, 8);
    assert_eq!(number(&headed(&[&image(&header, &[], &[])])), 9);
    put32(&mut header, 194, 0);
    assert_eq!(number(&headed(&[&image(&header, &[], &[])])), 10);
}

#[test]
fn the_first_faulty_message_decides() {
    for rules in Rules::ALL {
        let refused = |stream: &[u8]| {
            let refusal = check(rules, stream).unwrap_err();
            (refusal.number, refusal.record, refusal.byte)
        };
        let mut stream = whole(&[&text_message(5, b"abc"), &message(7, &[])]);
        assert_eq!(refused(&stream), (2, 2, 15));
        put16(&mut stream, 6, 1);
        assert_eq!(refused(&stream), (12, 1, 6));
    }
}

#[test]
fn check_19_among_its_neighbours() {
    let texts = |count: usize| text_message(5, b"").repeat(count);
    let checked = |stream: &[u8]| one_answer(|rules| check(rules, stream));
    let refused = |stream: &[u8]| {
        let refusal = checked(stream).unwrap_err();
        (refusal.number, refusal.record, refusal.byte)
    };
    let mut full = texts(1_000_000);
    // 13 stands before 19, and 19 before 1, 2 and all others.
    assert_eq!(refused(&full), (13, 1_000_000, 6_000_000));
    full.push(5);
    assert_eq!(refused(&full), (19, 1_000_000, 6_000_000));
    full.push(5);
    assert_eq!(refused(&full), (19, 1_000_000, 6_000_000));
    // The millionth message may be the close, and a byte after it is 12.
    let mut closed = texts(999_999);
    closed.extend_from_slice(&close());
    assert_eq!(checked(&closed), Ok(1_000_000));
    closed.push(0);
    assert_eq!(refused(&closed), (12, 1_000_000, 5_999_996));
    let mut over = texts(1_000_000);
    over.extend_from_slice(&close());
    assert_eq!(refused(&over), (19, 1_000_000, 6_000_000));
}
