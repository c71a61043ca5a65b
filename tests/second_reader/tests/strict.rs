//! The strict profile (document 02, E9): check 21 of each kind that has text, among the other checks, in every question
//! and in the writer.

mod common;

use common::*;
use second_reader::*;

const STRICT: Rules = Rules::PACKED.strict();
const PLAIN: Rules = Rules::PACKED;

/// A text of a message of each kind that has one, in a stream of its own, and where that message is.
struct Texted {
    what: &'static str,
    make: fn(&[u8]) -> Vec<u8>,
    record: u64,
    byte: u64,
}

fn attributed(attributes: &[u8]) -> Vec<u8> {
    let header = image_header([1, 1, 1], 1, 1, attributes.len() as u32);
    whole(&[&image(&header, attributes, &[0xFF, 0xFE])])
}

const TEXTED: [Texted; 5] = [
    Texted {
        what: "name",
        make: |text| [name_message(text, 0), close()].concat(),
        record: 0,
        byte: 0,
    },
    Texted {
        what: "configuration text",
        make: |text| [text_message(2, text), close()].concat(),
        record: 0,
        byte: 0,
    },
    Texted {
        what: "header text",
        make: |text| [text_message(3, text), close()].concat(),
        record: 0,
        byte: 0,
    },
    Texted {
        what: "text",
        make: |text| whole(&[&text_message(5, text)]),
        record: 1,
        byte: 6,
    },
    Texted {
        what: "attributes",
        make: attributed,
        record: 1,
        byte: 6,
    },
];

/// Texts that are UTF-8; the first byte and the last number of each form.
const GOOD: [&[u8]; 16] = [
    b"",
    b"\x01",
    b"\x7F",
    b"plain text",
    b"\xC2\x80",
    b"\xDF\xBF",
    b"\xE0\xA0\x80",
    b"\xED\x9F\xBF",
    b"\xEE\x80\x80",
    b"\xEF\xBF\xBE",
    b"\xEF\xBF\xBF",
    b"\xEF\xBB\xBFa",
    b"\xF0\x90\x80\x80",
    b"\xF4\x8F\xBF\xBF",
    b"a\xC3\xA9\xE2\x82\xAC\xF0\x9D\x84\x9E",
    b"\xF0\x9D\x84\x9Ea\xC3\xA9",
];

/// Texts that are not; the numbers next to those.
const BAD: [&[u8]; 20] = [
    b"\x80",
    b"\xBF",
    b"a\x80b",
    b"\xC0\x80",
    b"\xC1\xBF",
    b"\xC2",
    b"\xC2a",
    b"\xE0\x80\x80",
    b"\xE0\x9F\xBF",
    b"\xE2\x82",
    b"\xED\xA0\x80",
    b"\xED\xBF\xBF",
    b"\xED\xA0\xB4\xED\xB4\x9E",
    b"\xF0\x80\x80\x80",
    b"\xF0\x8F\xBF\xBF",
    b"\xF0\x9D\x84",
    b"\xF4\x90\x80\x80",
    b"\xF5\x80\x80\x80",
    b"\xF8\x88\x80\x80\x80",
    b"plain text\xFF",
];

fn refused(rules: Rules, stream: &[u8]) -> (u32, u64, u64) {
    match check(rules, stream) {
        Ok(_) => (0, 0, 0),
        Err(refusal) => (refusal.number, refusal.record, refusal.byte),
    }
}

fn number(stream: &[u8]) -> u32 {
    refused(STRICT, stream).0
}

#[test]
fn each_text_is_utf8_in_the_strict_profile_and_anything_in_the_plain_one() {
    for layout in Rules::PLAIN {
        for Texted {
            what,
            make,
            record,
            byte,
        } in TEXTED
        {
            for text in GOOD {
                assert!(
                    check(layout.strict(), &make(text)).is_ok(),
                    "{what} {text:02X?}"
                );
                assert!(check(layout, &make(text)).is_ok());
            }
            for text in BAD {
                let refused = refused(layout.strict(), &make(text));
                assert_eq!(refused, (21, record, byte), "{what} {text:02X?}");
                assert!(check(layout, &make(text)).is_ok());
            }
        }
    }
}

#[test]
fn a_zero_is_a_character_of_a_text_and_the_end_of_a_name() {
    for Texted { what, make, .. } in TEXTED {
        let expected = if what == "name" { 0 } else { 21 };
        assert_eq!(number(&make(b"a\0b")), 0, "{what}");
        assert_eq!(number(&make(b"a\0\xFF")), expected, "{what}");
        assert_eq!(number(&make(b"\xC3\0\xA9")), 21, "{what}");
    }
}

#[test]
fn the_filler_of_a_name_is_no_text() {
    for filler in [0, 1, 0x80, 0xC3, 0xED, 0xFF] {
        for name in [&b""[..], b"n", "é".as_bytes()] {
            let stream = [name_message(name, filler), close()].concat();
            assert_eq!(check(STRICT, &stream), Ok(2), "{filler:02X}");
        }
    }
    // A name without any filler: 1,023 bytes, of which the last is whole or not.
    let full = [vec![b'n'; 1_021], vec![0xC3, 0xA9]].concat();
    assert_eq!(number(&[name_message(&full, 0), close()].concat()), 0);
    let cut = [vec![b'n'; 1_022], vec![0xC3]].concat();
    assert_eq!(number(&[name_message(&cut, 0xA9), close()].concat()), 21);
}

#[test]
fn headers_samples_pixels_and_waveforms_are_no_text() {
    let [samples, pixels, data] = [[0xFF; 8]; 3];
    for rules in Rules::STRICT {
        let mut header = acquisition_header(1, 1, 0);
        header[276..].fill(0xFF);
        let acquisition = message(1008, &[&header, &samples]);
        let mut header = image_header([1; 3], 1, 7, 0);
        header[130..194].fill(0xFF);
        let image = image(&header, b"", &pixels);
        let waveform = waveform_message(&waveform_header(rules, 2, 1), &data);
        let stream = whole(&[&acquisition, &image, &waveform]);
        assert_eq!(check(rules, &stream), Ok(5));
    }
}

#[test]
fn no_character_runs_from_one_part_or_message_into_the_next() {
    let (half, rest) = (b"a\xE2\x82", b"\xACb");
    // Together they are a character.
    assert!(utf8::is_well_formed(&[&half[..], rest].concat()));
    let texts = whole(&[&text_message(5, half), &text_message(5, rest)]);
    assert_eq!(refused(STRICT, &texts), (21, 1, 6));
    // The rest alone is no text either.
    let rest_alone = whole(&[&text_message(5, b"a"), &text_message(5, rest)]);
    assert_eq!(refused(STRICT, &rest_alone), (21, 2, 13));
    let header = image_header([1, 1, 1], 1, 1, 3);
    let into_pixels = whole(&[&image(&header, half, rest)]);
    assert_eq!(refused(STRICT, &into_pixels), (21, 1, 6));
}

#[test]
fn check_21_comes_after_11() {
    let bad = text_message(5, b"\xFF\xFFabc");
    for length in 6..bad.len() {
        assert_eq!(number(&headed(&[&bad[..length]])), 11, "{length} bytes");
    }
    assert_eq!(number(&headed(&[&bad])), 21);
    // The attributes are all there, and one byte of pixels is missing.
    let image = image(&image_header([1, 1, 1], 1, 1, 2), b"\xC3\xC3", &[1, 2]);
    assert_eq!(number(&headed(&[&image[..image.len() - 1]])), 11);
    assert_eq!(number(&headed(&[&image])), 21);
}

#[test]
fn check_21_comes_after_3_to_10_and_12() {
    let bad = b"\xFF\xFF";
    let with_header = |header: &[u8]| number(&whole(&[&image(header, bad, &[])]));
    assert_eq!(with_header(&image_header([0; 3], 0, 1, 2)), 21);
    assert_eq!(with_header(&image_header([0; 3], 0, 1, 0)), 21);
    assert_eq!(with_header(&image_header([0; 3], 0, 1, 3)), 9);
    assert_eq!(with_header(&image_header([0; 3], 0, 9, 2)), 8);
    assert_eq!(with_header(&image_header([65_535; 3], 65_535, 8, 2)), 10);
    let mut header = image_header([0; 3], 0, 1, 2);
    put16(&mut header, 0, 2);
    assert_eq!(with_header(&header), 4);
    // 3 and 5 of a name, 10 of a text.
    let mut name = name_message(&[0xFF; 1_023], 0);
    assert_eq!(number(&name[..1_025]), 3);
    name[1_025] = 1;
    assert_eq!(number(&name), 5);
    let mut text = text_message(5, bad);
    put32(&mut text, 2, 268_435_451);
    assert_eq!(number(&text), 10);
    // Order comes before the message's own checks.
    assert_eq!(number(&headed(&[&text_message(3, bad)])), 12);
    assert_eq!(number(&headed(&[&text_message(2, bad)])), 12);
    assert_eq!(number(&[close(), text_message(5, bad)].concat()), 12);
}

#[test]
fn an_earlier_21_decides_before_any_later_fault() {
    let bad = text_message(5, b"\x80");
    let faults = [
        message(7, &[]),
        vec![5],
        vec![],
        text_message(3, b""),
        text_message(5, b"a")[..6].to_vec(),
        message(1008, &[&[0; 340]]),
        text_message(5, b"\xFF"),
        [close(), vec![0]].concat(),
    ];
    for fault in &faults {
        let stream = headed(&[&text_message(5, b"a"), &bad, fault]);
        assert_eq!(refused(STRICT, &stream), (21, 2, 13), "{fault:02X?}");
        // Without it the later one does.
        let stream = headed(&[&text_message(5, b"a"), &text_message(5, b"\x01"), fault]);
        let (number, record, _) = refused(STRICT, &stream);
        assert!(number != 0 && record > 2, "{fault:02X?}");
    }
    // And an earlier fault before it.
    assert_eq!(
        refused(STRICT, &headed(&[&message(7, &[]), &bad])),
        (2, 1, 6)
    );
}

#[test]
fn check_21_among_1_000_000_messages() {
    let bad = text_message(5, b"\xFF");
    let texts = |count: usize| text_message(5, b"").repeat(count);
    // The last that may begin is judged, the next is 19 whatever it holds.
    let last = [texts(999_999), bad.clone()].concat();
    assert_eq!(refused(STRICT, &last), (21, 999_999, 5_999_994));
    let one_more = [texts(1_000_000), bad].concat();
    assert_eq!(refused(STRICT, &one_more), (19, 1_000_000, 6_000_000));
}

#[test]
fn every_question_gives_the_21_of_the_stream_first() {
    let stream = whole(&[&text_message(5, b"\xC3")]);
    let refusal = Refusal {
        number: 21,
        record: 1,
        byte: 6,
    };
    let refused = Refused::Stream(refusal);
    let file = index_bytes(PLAIN, &stream).unwrap();
    let (starts, ids, counters) = own_columns(PLAIN, &stream).unwrap();
    let given = [
        GivenIndex::NONE,
        GivenIndex::file(&file),
        GivenIndex::file(&[]),
        GivenIndex::columns(&starts, &ids, &counters),
    ];
    for given in given {
        for n in [0, 1, 99] {
            assert_eq!(kind_and_place(STRICT, &stream, given, n), Err(refused));
            assert_eq!(text(STRICT, &stream, given, n), Err(refused));
            assert_eq!(channel(STRICT, &stream, given, n, 0), Err(refused));
            assert_eq!(field(STRICT, &stream, given, n, 0), Err(refused));
            assert_eq!(find(STRICT, &stream, given, n, &[0; 17]), Err(refused));
        }
        assert_eq!(agrees(STRICT, &stream, given), Err(refusal));
    }
    assert_eq!(records(STRICT, &stream), Err(refusal));
    assert_eq!(contents(STRICT, &stream), Err(refusal));
    // Before 14 too.
    assert_eq!(normal_form(STRICT, &stream, &mut []), Err(refused));
    assert_eq!(write_index(STRICT, &stream, &mut []), Err(refused));
    let filled = fill_columns(STRICT, &stream, &mut [], &mut [], &mut []);
    assert_eq!(filled, Err(refused));
}

#[test]
fn what_both_profiles_accept_is_the_same_under_both() {
    let stream = [
        name_message("naïve".as_bytes(), 0xFF),
        text_message(3, "größer".as_bytes()),
        text_message(5, b"a\0b"),
        image(
            &image_header([1, 1, 1], 1, 1, 0),
            "é".as_bytes(),
            &[0xFF; 2],
        ),
        close(),
    ]
    .concat();
    assert_eq!(records(STRICT, &stream), records(PLAIN, &stream));
    assert_eq!(contents(STRICT, &stream), contents(PLAIN, &stream));
    assert_eq!(index_bytes(STRICT, &stream), index_bytes(PLAIN, &stream));
    let normal = |rules| {
        let mut output = vec![0xAA; stream.len()];
        assert_eq!(
            normal_form(rules, &stream, &mut output),
            Ok(stream.len() as u64)
        );
        output
    };
    assert_eq!(normal(STRICT), normal(PLAIN));
    // The normal form stays accepted.
    assert_eq!(check(STRICT, &normal(STRICT)), Ok(5));
}

/// The writer's answer to a text of this kind into this many bytes, and that a refusal writes nothing.
fn written(rules: Rules, id: u16, text: &[u8], pixels: &[u8], room: usize) -> Result<u64, u32> {
    let header = match id {
        1022 => image_header([0; 3], 0, 1, 0),
        _ => vec![],
    };
    let mut parts = Parts {
        pixels,
        ..Parts::default()
    };
    match id {
        1 => parts.name = text,
        1022 => parts.attributes = text,
        _ => parts.text = text,
    }
    let mut output = vec![0xAA; room];
    let answer = write(rules, id, &header, &parts, &mut output, 0);
    assert!(answer.is_ok() || output.iter().all(|&byte| byte == 0xAA));
    answer
}

#[test]
fn the_writer_gives_21_after_18_and_before_14() {
    for layout in Rules::PLAIN {
        for id in [1, 2, 3, 5, 1022] {
            for text in BAD {
                let answer = |rules, pixels, room| written(rules, id, text, pixels, room);
                assert_eq!(
                    answer(layout.strict(), &[], 2_000),
                    Err(21),
                    "{id} {text:02X?}"
                );
                assert_eq!(answer(layout.strict(), &[], 0), Err(21));
                assert_eq!(answer(layout.strict(), &[1], 0), Err(18));
                assert!(answer(layout, &[], 2_000).is_ok());
                assert_eq!(answer(layout, &[], 0), Err(14));
            }
            for text in GOOD {
                let answer = |room| written(layout.strict(), id, text, &[], room);
                assert!(answer(2_000).is_ok(), "{id} {text:02X?}");
                assert_eq!(answer(0), Err(14));
            }
        }
    }
}

#[test]
fn the_writers_other_refusals_come_before_21() {
    let write = |id, header: &[u8], parts: &Parts| write(STRICT, id, header, parts, &mut [], 0);
    let bad = b"\xFF";
    let none = Parts::default();
    let text = Parts { text: bad, ..none };
    assert_eq!(write(6, &[], &text), Err(2));
    assert_eq!(write(5, &[0], &text), Err(3));
    let attributes = Parts {
        attributes: bad,
        ..none
    };
    let mut header = image_header([65_535; 3], 65_535, 8, 1);
    assert_eq!(write(1022, &header, &attributes), Err(10));
    put16(&mut header, 2, 9);
    assert_eq!(write(1022, &header, &attributes), Err(8));
    put16(&mut header, 0, 2);
    assert_eq!(write(1022, &header, &attributes), Err(4));
    let name = |name| Parts { name, ..none };
    assert_eq!(write(1, &[], &name(b"\xFF\0")), Err(5));
    assert_eq!(write(1, &[], &name(&[0xFF; 1_024])), Err(5));
    assert_eq!(write(1, &[], &name(&[0xFF; 1_023])), Err(21));
    let long = vec![0xFF; 268_435_451];
    let text = |text| Parts { text, ..none };
    assert_eq!(write(3, &[], &text(&long)), Err(10));
    assert_eq!(write(3, &[], &text(&long[1..])), Err(21));
    // A text that the kind lacks is 18, whatever it holds.
    for text in [&b"a"[..], bad] {
        let parts = Parts { text, ..none };
        assert_eq!(write(4, &[], &parts), Err(18));
        assert_eq!(write(1, &[], &parts), Err(18));
    }
}

#[test]
fn samples_pixels_and_waveforms_are_written_as_they_are() {
    let data = [0xFF; 8];
    for rules in Rules::STRICT {
        let write = |id, header: &[u8], parts: &Parts| {
            let mut output = vec![0; 400];
            write(rules, id, header, parts, &mut output, 0).map(drop)
        };
        let none = Parts::default();
        let parts = Parts {
            samples: &data,
            ..none
        };
        assert_eq!(write(1008, &acquisition_header(1, 1, 0), &parts), Ok(()));
        let parts = Parts {
            pixels: &data,
            ..none
        };
        assert_eq!(write(1022, &image_header([1; 3], 1, 7, 0), &parts), Ok(()));
        let parts = Parts {
            waveform: &data,
            ..none
        };
        assert_eq!(write(1026, &waveform_header(rules, 2, 1), &parts), Ok(()));
    }
}

#[test]
fn the_listing_stays_plain() {
    let stream = whole(&[&text_message(5, b"\xFF\xC3")]);
    assert_eq!(refused(STRICT, &stream), (21, 1, 6));
    let listed = "record id start bytes\n0 3 0 6\n1 5 6 8\n2 4 14 2\nok 3 records 16 bytes\n";
    assert_eq!(listing(&stream), listed);
}
