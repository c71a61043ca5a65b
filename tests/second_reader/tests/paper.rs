//! Every P line, every other "Both sides of each line", the index example and the listing
//! example of document 01.

mod common;

use common::*;
use second_reader::*;

/// The check's answer under all rules, which agree on streams without waveforms whose texts are UTF-8.
fn checked(stream: &[u8]) -> Result<u64, Refusal> {
    one_answer(|rules| check(rules, stream))
}

fn refused(stream: &[u8]) -> (u32, u64, u64) {
    let refusal = checked(stream).expect_err("a refused stream");
    (refusal.number, refusal.record, refusal.byte)
}

#[test]
fn p1_a_close_alone_is_one_record() {
    assert_eq!(checked(&[4, 0]), Ok(1));
}

#[test]
fn p2_empty() {
    assert_eq!(refused(&[]), (13, 0, 0));
}

#[test]
fn p3_one_byte_where_an_id_is_due() {
    assert_eq!(refused(&[4]), (1, 0, 0));
}

#[test]
fn p4_a_byte_after_the_close() {
    assert_eq!(refused(&[4, 0, 0]), (12, 1, 2));
}

#[test]
fn p5_an_unknown_id() {
    assert_eq!(refused(&[6, 0]), (2, 0, 0));
}

#[test]
fn p6_a_short_fixed_part() {
    assert_eq!(refused(&[3, 0, 0, 0, 0]), (3, 0, 0));
}

#[test]
fn p7_a_short_body() {
    assert_eq!(refused(&[3, 0, 1, 0, 0, 0]), (11, 0, 0));
}

#[test]
fn p8_no_close() {
    assert_eq!(refused(&[5, 0, 0, 0, 0, 0]), (13, 1, 6));
}

#[test]
fn p9_data_before_the_header() {
    assert_eq!(refused(&[0xF0, 0x03]), (12, 0, 0));
}

#[test]
fn p10_sizes_of_an_acquisition() {
    for (dimensions, size) in [(0, 4_438), (2, 6_486)] {
        let stream = whole(&[&acquisition(&acquisition_header(256, 2, dimensions))]);
        let expected = Detail::Acquisition {
            samples: 256,
            active_channels: 2,
            dimensions,
            mask: Mask::NotStated,
        };
        for rules in Rules::ALL {
            let record = kind_and_place(rules, &stream, GivenIndex::NONE, 1).unwrap();
            assert_eq!((record.start, record.size), (6, size));
            assert_eq!(record.detail, expected);
        }
    }
}

#[test]
fn p11_flag_7_alone() {
    assert_eq!(flag_set(0, 7), 64);
    assert!(flag_is_set(64, 7));
    assert_eq!(flag_cleared(64, 7), 0);
    let set: Vec<u64> = (0..100).filter(|&n| flag_is_set(64, n)).collect();
    assert_eq!(set, [7]);
}

#[test]
fn p12_counter_steps() {
    assert_eq!(counter_step(4_294_967_295, 0), 1);
    assert_eq!(counter_step(0, 2_147_483_648), -2_147_483_648);
}

#[test]
fn a_text_at_the_limit_passes_check_10_and_one_more_is_10() {
    for id in [2_u16, 3, 5] {
        let length_only = |length: u32| message(id, &[&length.to_le_bytes()]);
        assert_eq!(refused(&length_only(268_435_450)), (11, 0, 0));
        assert_eq!(refused(&length_only(268_435_451)), (10, 0, 0));
    }
}

#[test]
fn a_stream_with_a_text_at_the_limit_is_accepted() {
    // The text stays zero, so that only the touched pages take memory.
    let mut stream = vec![0; 268_435_456 + 2];
    put16(&mut stream, 0, 5);
    put32(&mut stream, 2, 268_435_450);
    put16(&mut stream, 268_435_456, 4);
    assert_eq!(checked(&stream), Ok(2));
    for rules in Rules::ALL {
        let part = text(rules, &stream, GivenIndex::NONE, 0).unwrap();
        assert_eq!((part.start, part.length), (6, 268_435_450));
    }
}

#[test]
fn the_largest_image_is_10() {
    let header = image_header([65_535; 3], 65_535, 8, 0);
    assert_eq!(refused(&whole(&[&image(&header, &[], &[])])), (10, 1, 6));
}

const INDEX_EXAMPLE: [u8; 8] = [3, 0, 0, 0, 0, 0, 4, 0];

#[test]
fn index_example() {
    #[rustfmt::skip]
    let expected = [
        0x01, 0x02, 0x00, 0x01, 0x00,
        0x02, 0x08, 0x00, 0x08, 0x00, 0x00, 0x00, 0x00, 0x00, 0x00, 0x00,
        0x03, 0x0E, 0x00, 0x00, 0x00, 0x00, 0x00, 0x00, 0x00, 0x00, 0x00,
        0x03, 0x00, 0x00, 0x00, 0x00, 0x00,
        0x03, 0x0E, 0x00, 0x06, 0x00, 0x00, 0x00, 0x00, 0x00, 0x00, 0x00,
        0x04, 0x00, 0x00, 0x00, 0x00, 0x00,
        0x04, 0x04, 0x00, 0x02, 0x00, 0x00, 0x00,
    ];
    for rules in Rules::ALL {
        assert_eq!(index_bytes(rules, &INDEX_EXAMPLE).unwrap(), expected);
        let mut output = [7; 60];
        assert_eq!(write_index(rules, &INDEX_EXAMPLE, &mut output), Ok(57));
        assert_eq!(output[..57], expected);
        assert_eq!(output[57..], [7; 3]);
        let columns = own_columns(rules, &INDEX_EXAMPLE).unwrap();
        assert_eq!(columns, (vec![0, 6], vec![3, 4], vec![0, 0]));
    }
}

#[test]
fn listing_example() {
    let expected = "record id start bytes\n0 3 0 6\n1 4 6 2\nok 2 records 8 bytes\n";
    assert_eq!(listing(&INDEX_EXAMPLE), expected);
}

#[test]
fn listing_of_a_refused_stream() {
    assert_eq!(listing(&[]), "refused 13 at record 0 byte 0\n");
}

#[test]
fn listing_at_and_over_its_limit() {
    let mut stream = text_message(5, &vec![1; 65_536 - 6 - 2]);
    stream.extend_from_slice(&close());
    assert_eq!(stream.len(), 65_536);
    let expected = "record id start bytes\n0 5 0 65534\n1 4 65534 2\nok 2 records 65536 bytes\n";
    assert_eq!(listing(&stream), expected);
    stream.push(0);
    assert_eq!(listing(&stream), "input over 65536 bytes\n");
    assert_eq!(listing(&vec![0xFF; 1_000_000]), "input over 65536 bytes\n");
}
