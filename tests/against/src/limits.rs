//! The lines of document 01 that are not marked P, both sides of check 9, of a waveform's checks and of check 21 as
//! document 02 has them, the limits of 1,000,000 messages, and what is saved of streams around them: on both readers,
//! under all rules, with the paper's answer.

use crate::answers;
use crate::case::{library_rules, Case};
use crate::part_at;
use crate::salvage_limits;
use crate::stream;
use crate::tally::{Difference, Outcome, Tally};
use crate::writer::given;
use cotterleaf::Message;
use second_reader::message::STATED_LENGTH;
use second_reader::{self as second, Kind, Refusal, Refused, Rules};
use streams::{around_the_limit, huge_images, messages, too_many, AroundTheLimit, Rng};

/// The longest text that passes check 10.
pub const LONGEST_TEXT: usize = 268_435_450;

fn refused(number: u32, record: u64, byte: u64) -> Result<u64, Refusal> {
    Err(Refusal {
        number,
        record,
        byte,
    })
}

/// Both readers' check gives the paper's answer, under all rules.
fn paper(tally: &mut Tally, line: &str, bytes: &[u8], answer: Result<u64, Refusal>) -> Outcome {
    for rules in Rules::ALL {
        paper_under(tally, line, Case { rules, bytes }, answer)?;
    }
    Ok(())
}

/// The same under these rules.
fn paper_under(tally: &mut Tally, line: &str, case: Case, answer: Result<u64, Refusal>) -> Outcome {
    tally.rules = case.rules;
    let answer = answer.map_err(Refused::from);
    let second = second::check(case.rules, case.bytes).map_err(Refused::from);
    let library = answers::number(case.library().check());
    let question = || format!("{line}, where the paper says {answer:?}");
    let agreed = tally.same_value(question, library, second);
    agreed.and_then(|()| tally.same_value(question, library, answer))
}

/// A text of `length` zeros at the front of `bytes`, then the close.
fn set_text(bytes: &mut [u8], length: usize) -> &[u8] {
    bytes[..2].copy_from_slice(&[5, 0]);
    bytes[2..6].copy_from_slice(&(length as u32).to_le_bytes());
    bytes[6 + length..8 + length].copy_from_slice(&[4, 0]);
    &bytes[..8 + length]
}

/// Both writers refuse the message with this number, into an output without room, under all rules: 14 says that
/// check 10 is passed.
fn write_refused(tally: &mut Tally, line: &str, message: &Message, number: u32) -> Outcome {
    for rules in Rules::ALL {
        write_refused_under(tally, rules, line, message, number)?;
    }
    Ok(())
}

/// The same under these rules.
fn write_refused_under(
    tally: &mut Tally,
    rules: Rules,
    line: &str,
    message: &Message,
    number: u32,
) -> Outcome {
    tally.rules = rules;
    let library = message.write(library_rules(rules), &mut [], 0);
    let library = library.map_err(|refusal| refusal.number);
    let library = library.map(|end| end as u64);
    let parts = second::Parts {
        name: message.name,
        text: message.text,
        attributes: message.attributes,
        waveform: message.waveform,
        ..second::Parts::default()
    };
    let second = second::write(rules, message.id, message.header, &parts, &mut [], 0);
    let question = || format!("{line} written, where the paper says {number}");
    tally.same_value(question, library, second)?;
    tally.same_value(question, library, Err(number))
}

/// Both ends of each part of a stream with a message at the limit. Plain, as a strict one's text is read for each byte.
fn parts_of_largest(tally: &mut Tally, case: Case) -> Outcome {
    tally.rules = case.rules;
    part_at::ask_both_ends(tally, case)
}

fn longest_text(tally: &mut Tally) -> Outcome {
    let mut bytes = vec![0; LONGEST_TEXT + 1 + 8];
    let passes = set_text(&mut bytes, LONGEST_TEXT);
    paper(tally, "text of 268,435,450 bytes", passes, Ok(2))?;
    for rules in Rules::PLAIN {
        parts_of_largest(
            tally,
            Case {
                rules,
                bytes: passes,
            },
        )?;
    }
    for (length, number) in [(LONGEST_TEXT, 14), (LONGEST_TEXT + 1, 10)] {
        let message = Message {
            id: 5,
            text: &bytes[6..][..length],
            ..Message::default()
        };
        let line = format!("text of {length} bytes");
        write_refused(tally, &line, &message, number)?;
    }
    longest_text_not_utf8(tally, &mut bytes)?;
    let one_more = set_text(&mut bytes, LONGEST_TEXT + 1);
    paper(tally, "one more byte of text", one_more, refused(10, 0, 0))
}

/// Half a character as the last byte of the longest text, and a byte more than it may have.
fn longest_text_not_utf8(tally: &mut Tally, bytes: &mut [u8]) -> Outcome {
    bytes[6 + LONGEST_TEXT - 1..][..2].fill(0xC3);
    let texts = [(LONGEST_TEXT, 21), (LONGEST_TEXT + 1, 10)];
    let rules = Rules::PACKED.strict();
    for (length, number) in texts {
        let message = Message {
            id: 5,
            text: &bytes[6..][..length],
            ..Message::default()
        };
        let line = format!("text of {length} bytes that ends in half a character");
        write_refused_under(tally, rules, &line, &message, number)?;
    }
    let line = "half a character at the end of the longest text";
    let case = Case {
        rules,
        bytes: set_text(bytes, LONGEST_TEXT),
    };
    paper_under(tally, line, case, refused(21, 0, 0))?;
    paper_under(tally, line, case.under(rules.plain()), Ok(2))?;
    // It is gone for what follows.
    bytes[6 + LONGEST_TEXT - 1] = 0;
    Ok(())
}

fn largest_image(tally: &mut Tally, rng: &mut Rng) -> Outcome {
    let mut image = messages::image(Rules::PACKED, rng, 40);
    image.set("data_type", 0, 8);
    for i in 0..3 {
        image.set("matrix_size", i, 65_535);
    }
    image.set("channels", 0, 65_535);
    let bytes = [vec![3, 0, 0, 0, 0, 0], image.bytes(), vec![4, 0]].concat();
    let line = "image with all four sizes 65,535 and type 8";
    paper(tally, line, &bytes, refused(10, 1, 6))
}

/// An image header of no pixels that says this number of its attributes.
fn header_saying(stated: u64) -> Vec<u8> {
    let mut image = streams::Message::empty(Rules::PACKED, 1022);
    image.header = vec![0; 198];
    image.set("version", 0, 1);
    image.set("data_type", 0, 1);
    image.set(STATED_LENGTH, 0, stated);
    image.header
}

const U32_MAX: u64 = u32::MAX as u64;

/// What a header says, the 8-byte length, and the number of refusal, 0 where there is none.
const LENGTHS: [(u64, u64, u32); 18] = [
    (3, 3, 0),
    (0, 3, 0),
    (2, 3, 9),
    (4, 3, 9),
    (1, 1, 0),
    (0, 1, 0),
    (0, 0, 0),
    (1, 0, 9),
    (U32_MAX, 0, 9),
    (0, U32_MAX, 10),
    (U32_MAX, U32_MAX, 10),
    (0, U32_MAX + 1, 10),
    (1, U32_MAX + 1, 9),
    (0, U32_MAX + 6, 10),
    (5, U32_MAX + 6, 9),
    (1, U32_MAX + 6, 9),
    (0, u64::MAX, 10),
    (U32_MAX, u64::MAX, 9),
];

/// Both sides of check 9.
fn attribute_lengths(tally: &mut Tally) -> Outcome {
    for (stated, length, number) in LENGTHS {
        let front = [&[3, 0, 0, 0, 0, 0, 0xFE, 3], &header_saying(stated)[..]].concat();
        // Of the longer attributes none are there.
        let attributes = b"abc".get(..length as usize).unwrap_or_default();
        let bytes = [&front, &length.to_le_bytes()[..], attributes, &[4, 0]].concat();
        let line = format!("{length} bytes of attributes of which the header says {stated}");
        let answer = match number {
            0 => Ok(3),
            _ => refused(number, 1, 6),
        };
        paper(tally, &line, &bytes, answer)?;
    }
    Ok(())
}

/// The writer goes by the given attributes alone: never 9, and 10 also where their length has a small low word.
fn longest_attributes(tally: &mut Tally) -> Outcome {
    // Nothing is written into them, and no reader looks into more than the longest, so that they take no memory.
    let attributes = vec![0; (1 << 32) + 5];
    let lengths: [(usize, u32); 4] = [
        (268_435_248, 14),
        (268_435_249, 10),
        (1 << 32, 10),
        ((1 << 32) + 5, 10),
    ];
    for (length, number) in lengths {
        for stated in [0, 5, length as u64, U32_MAX] {
            let message = Message {
                id: 1022,
                header: &header_saying(stated),
                attributes: &attributes[..length],
                ..Message::default()
            };
            let line = format!("{length} bytes of attributes of which the header says {stated}");
            for rules in Rules::PLAIN {
                write_refused_under(tally, rules, &line, &message, number)?;
            }
            // The strict profile reads all of them, which once is enough for.
            if stated == 0 {
                write_refused_under(tally, Rules::PACKED.strict(), &line, &message, number)?;
            }
        }
    }
    Ok(())
}

/// Texts that are UTF-8: the examples of RFC 3629, and the first and last number of each form around surrogates.
const UTF8: [&[u8]; 15] = [
    b"",
    b"\x41\xE2\x89\xA2\xCE\x91\x2E",
    b"\xED\x95\x9C\xEA\xB5\xAD\xEC\x96\xB4",
    b"\xE6\x97\xA5\xE6\x9C\xAC\xE8\xAA\x9E",
    b"\xEF\xBB\xBF\xF0\xA3\x8E\xB4",
    b"\x01",
    b"\x7F",
    b"\xC2\x80",
    b"\xDF\xBF",
    b"\xE0\xA0\x80",
    b"\xED\x9F\xBF",
    b"\xEE\x80\x80",
    b"\xEF\xBF\xBF",
    b"\xF0\x90\x80\x80",
    b"\xF4\x8F\xBF\xBF",
];

/// Texts that are not: the numbers next to those, and sequences that are cut, too long, or of no form.
const NOT_UTF8: [&[u8]; 22] = [
    b"\x80",
    b"\xBF",
    b"\xC0\x80",
    b"\xC1\xBF",
    b"\xC2",
    b"\xC2\x7F",
    b"\xC2\xC0",
    b"\xDF\xBF\x80",
    b"\xE0\x80\x80",
    b"\xE0\x9F\xBF",
    b"\xE0\xA0",
    b"\xED\xA0\x80",
    b"\xED\xBF\xBF",
    b"\xED\xA0\xBD\xED\xB8\x80",
    b"\xF0\x80\x80\x80",
    b"\xF0\x8F\xBF\xBF",
    b"\xF0\x90\x80",
    b"\xF4\x90\x80\x80",
    b"\xF5\x80\x80\x80",
    b"\xF7\xBF\xBF\xBF",
    b"\xF8\x88\x80\x80\x80",
    b"\xFF",
];

/// Both sides of check 21, in each kind that has text.
fn utf8_lines(tally: &mut Tally) -> Outcome {
    let sides = UTF8.map(|text| (text, 0)).into_iter();
    for (text, number) in sides.chain(NOT_UTF8.map(|text| (text, 21))) {
        for kind in streams::TEXTED {
            for rules in Rules::STRICT {
                utf8_line(tally, rules, kind, text, number)?;
                utf8_line(tally, rules.plain(), kind, text, 0)?;
            }
        }
    }
    Ok(())
}

/// One text of one kind, in a stream and given to the writer: 14 says that check 21 is passed.
fn utf8_line(tally: &mut Tally, rules: Rules, kind: Kind, text: &[u8], number: u32) -> Outcome {
    let mut message = streams::Message::empty(rules, kind.id());
    if kind == Kind::Image {
        message.header = header_saying(0);
    }
    message.set_own_text(text.to_vec());
    let front: &[u8] = match kind.is_data() {
        true => &[3, 0, 0, 0, 0, 0],
        false => &[],
    };
    let bytes = [front, &message.bytes(), &[4, 0]].concat();
    let line = format!("{kind:?} of {text:02X?}");
    let record = u64::from(kind.is_data());
    let answer = match number {
        0 => Ok(2 + record),
        _ => refused(number, record, front.len() as u64),
    };
    paper_under(
        tally,
        &line,
        Case {
            rules,
            bytes: &bytes,
        },
        answer,
    )?;
    let number = if number == 0 { 14 } else { number };
    write_refused_under(tally, rules, &line, &given(&message), number)
}

/// A waveform header of version 1 with this many samples and channels and filler that is not zero.
fn waveform_header(rules: Rules, (samples, channels): (u64, u64)) -> Vec<u8> {
    let mut waveform = streams::Message::empty(rules, Kind::Waveform.id());
    waveform.header = vec![0xEE; Kind::Waveform.header_size(rules)];
    waveform.set("version", 0, 1);
    waveform.set("number_of_samples", 0, samples);
    waveform.set("channels", 0, channels);
    waveform.header
}

/// What is written in a stream before a waveform's header: a header text of no bytes, and the id.
const WAVEFORM_FRONT: [u8; 8] = [3, 0, 0, 0, 0, 0, 2, 4];

/// Both sides of check 3 of a waveform, which goes by 32 bytes or by 40, and a whole one without data.
fn shortest_waveforms(tally: &mut Tally) -> Outcome {
    for rules in Rules::ALL {
        let header = waveform_header(rules, (0, 9));
        let stream = [&WAVEFORM_FRONT, &header[..], &[4, 0]].concat();
        let size = 8 + header.len();
        for length in 8..size {
            let line = format!("{} bytes of a waveform header", length - 8);
            let bytes = &stream[..length];
            paper_under(tally, &line, Case { rules, bytes }, refused(3, 1, 6))?;
        }
        let (whole, bytes) = ("a whole waveform header", &stream[..size]);
        let unclosed = refused(13, 2, size as u64);
        paper_under(tally, whole, Case { rules, bytes }, unclosed)?;
        let (closed, bytes) = ("a whole waveform header and a close", &stream[..]);
        paper_under(tally, closed, Case { rules, bytes }, Ok(3))?;
    }
    Ok(())
}

/// Both sides of check 10 of a waveform: an aligned header leaves room for two numbers less.
fn largest_waveforms(tally: &mut Tally) -> Outcome {
    // Its pages are touched at the front and at the end alone.
    let mut bytes = vec![0; 268_435_456 + 64];
    for rules in Rules::ALL {
        let AroundTheLimit { within, over } = around_the_limit(rules);
        let sides = within.map(|sizes| (sizes, true)).into_iter();
        for (sizes, fits) in sides.chain(over.map(|sizes| (sizes, false))) {
            let header = waveform_header(rules, sizes);
            let data = 8 + header.len();
            let length = 4 * sizes.0 as usize * sizes.1 as usize;
            bytes[..8].copy_from_slice(&WAVEFORM_FRONT);
            bytes[8..data].copy_from_slice(&header);
            bytes[data + length..][..2].copy_from_slice(&[4, 0]);
            let line = format!("waveform of {sizes:?} samples and channels");
            let case = Case {
                rules,
                bytes: &bytes[..data + length + 2],
            };
            let answer = if fits { Ok(3) } else { refused(10, 1, 6) };
            paper_under(tally, &line, case, answer)?;
            if fits && rules == rules.plain() {
                parts_of_largest(tally, case)?;
            }
            let message = Message {
                id: Kind::Waveform.id(),
                header: &header,
                waveform: &bytes[data..][..length],
                ..Message::default()
            };
            let number = if fits { 14 } else { 10 };
            write_refused_under(tally, rules, &line, &message, number)?;
            bytes[data + length..][..2].fill(0);
        }
    }
    Ok(())
}

/// The acquisition of the most channels, of one sample each: both ends of some of them.
fn most_channels(tally: &mut Tally) -> Outcome {
    let mut acquisition = streams::Message::empty(Rules::PACKED, Kind::Acquisition.id());
    acquisition.header = vec![0; 340];
    acquisition.set("version", 0, 1);
    for name in ["available_channels", "active_channels"] {
        acquisition.set(name, 0, 65_535);
    }
    acquisition.set("number_of_samples", 0, 1);
    acquisition.samples = vec![0; 8 * 65_535];
    let bytes = [vec![3, 0, 0, 0, 0, 0], acquisition.bytes(), vec![4, 0]].concat();
    let ends = |channel: usize| {
        let start = 6 + 2 + 340 + 8 * channel;
        [start, start + 7]
    };
    let asked = [0, 1, 255, 256, 32_767, 32_768, 65_534, 65_535].map(ends);
    for rules in Rules::ALL {
        let case = Case {
            rules,
            bytes: &bytes,
        };
        paper_under(tally, "acquisition of 65,535 channels", case, Ok(3))?;
        part_at::ask_bytes(tally, case, &asked.concat())?;
    }
    Ok(())
}

/// The checks of 1,000,000 messages, and every family of calls on both sides of the limit.
fn most_messages(tally: &mut Tally, rng: &mut Rng) -> Outcome {
    let text = [5, 0, 0, 0, 0, 0];
    let mut most = text.repeat(999_999);
    most.extend([4, 0]);
    paper(tally, "1,000,000 messages", &most, Ok(1_000_000))?;
    ask_under(tally, rng, Rules::PACKED, &most)?;
    most.push(0);
    let after_close = refused(12, 1_000_000, 5_999_996);
    paper(tally, "a byte after 1,000,000 messages", &most, after_close)?;

    let over = refused(19, 1_000_000, 6_000_000);
    paper(tally, "one text more", &too_many(false), over)?;
    last_text_not_utf8(tally)?;
    let mut bytes = too_many(true);
    paper(tally, "one close more", &bytes, over)?;
    for rules in Rules::ALL {
        ask_under(tally, rng, rules, &bytes)?;
    }
    bytes.truncate(6_000_001);
    paper(tally, "one byte more", &bytes, over)?;
    bytes.truncate(6_000_000);
    let unclosed = refused(13, 1_000_000, 6_000_000);
    paper(tally, "1,000,000 texts", &bytes, unclosed)
}

/// The last message that may begin is 21 in the strict profile, and the one after it 19, whatever it holds.
fn last_text_not_utf8(tally: &mut Tally) -> Outcome {
    let (text, bad) = ([5, 0, 0, 0, 0, 0], [5, 0, 1, 0, 0, 0, 0xFF]);
    let cases = [
        (999_999, refused(21, 999_999, 5_999_994)),
        (1_000_000, refused(19, 1_000_000, 6_000_000)),
    ];
    for (count, answer) in cases {
        let bytes = [&text.repeat(count), &bad[..]].concat();
        for rules in Rules::STRICT {
            let line = format!("text not UTF-8 after {count} messages");
            paper_under(
                tally,
                &line,
                Case {
                    rules,
                    bytes: &bytes,
                },
                answer,
            )?;
        }
    }
    Ok(())
}

fn ask_under(tally: &mut Tally, rng: &mut Rng, rules: Rules, bytes: &[u8]) -> Outcome {
    stream::ask(tally, rng, Case { rules, bytes })
}

/// All of them; a difference is shown with its line of the paper.
pub fn limits(tally: &mut Tally, rng: &mut Rng) -> Result<(), (Vec<u8>, Difference)> {
    let without_bytes = |difference| (vec![], difference);
    longest_text(tally).map_err(without_bytes)?;
    largest_image(tally, rng).map_err(without_bytes)?;
    attribute_lengths(tally).map_err(without_bytes)?;
    longest_attributes(tally).map_err(without_bytes)?;
    utf8_lines(tally).map_err(without_bytes)?;
    shortest_waveforms(tally).map_err(without_bytes)?;
    largest_waveforms(tally).map_err(without_bytes)?;
    most_channels(tally).map_err(without_bytes)?;
    most_messages(tally, rng).map_err(without_bytes)?;
    salvage_limits::limits(tally).map_err(without_bytes)?;
    for rules in Rules::ALL {
        for bytes in huge_images(rules, rng, 40_000) {
            let asked = ask_under(tally, rng, rules, &bytes);
            asked.map_err(|difference| (bytes, difference))?;
        }
    }
    Ok(())
}
