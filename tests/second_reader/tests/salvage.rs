//! What is saved of a torn recording (document 02, E2): both sides of each rule, under each layout and profile.

mod common;

use common::*;
use second_reader::*;

under_all_rules! {
    the_empty_stream_becomes_a_close
    a_close_alone_comes_back
    an_accepted_stream_comes_back_as_it_is
    a_stream_torn_at_each_byte
    bytes_after_a_close_are_left_out_and_nothing_is_added
    what_ends_in_the_bytes_of_a_close_is_none
    a_fault_of_each_number_is_left_out
    the_first_fault_decides
    a_broken_order_is_left_out
    what_a_normal_form_would_change_is_kept
    rooms_around_the_saved_stream
    the_rest_of_the_output_keeps_its_content
    what_is_saved_is_accepted_and_saved_again_as_it_is
    no_longer_run_could_have_been_kept
}

/// What must be saved: so many messages and bytes from the stream's front, and then a close or nothing.
struct Expected {
    messages: u64,
    bytes: usize,
    added: bool,
}

/// Holds both calls to what must be saved.
fn assert_saved(rules: Rules, stream: &[u8], expected: Expected) {
    let mut saved = stream[..expected.bytes].to_vec();
    if expected.added {
        saved.extend([4, 0]);
    }
    let report = Salvage {
        messages_kept: expected.messages,
        bytes_not_kept: (stream.len() - expected.bytes) as u64,
        close_added: expected.added,
        length: saved.len() as u64,
    };
    assert_eq!(salvage_report(rules, stream), report);
    let mut output = vec![0xEE; saved.len()];
    assert_eq!(salvage(rules, stream, &mut output), Ok(report));
    assert!(output == saved, "{rules:?}: {} bytes", stream.len());
}

/// The first messages, with a close added.
fn assert_closed(rules: Rules, stream: &[u8], messages: u64, bytes: usize) {
    let expected = Expected {
        messages,
        bytes,
        added: true,
    };
    assert_saved(rules, stream, expected);
}

/// The first messages, the last of which is a close.
fn assert_as_is(rules: Rules, stream: &[u8], messages: u64, bytes: usize) {
    let expected = Expected {
        messages,
        bytes,
        added: false,
    };
    assert_saved(rules, stream, expected);
}

fn refusal(rules: Rules, stream: &[u8]) -> u32 {
    check(rules, stream).map_or_else(|refusal| refusal.number, |_| 0)
}

/// A message of each kind that may stand in one stream, the close last. Filler is not zero, and an image header says 0
/// of its attributes.
fn mixed(rules: Rules) -> Vec<Vec<u8>> {
    vec![
        text_message(5, b"note"),
        name_message(b"radial", 0x7E),
        text_message(3, b"<header/>"),
        acquisition(&acquisition_header(2, 2, 1)),
        image(&image_header([1, 2, 1], 1, 1, 0), b"meta", &[9; 4]),
        waveform_message(&filled_header(rules, 2, 1), &[8; 8]),
        text_message(5, b""),
        acquisition(&acquisition_header(0, 3, 2)),
        close(),
    ]
}

/// The sizes of these messages, worked out by hand.
fn mixed_sizes(rules: Rules) -> [usize; 9] {
    let waveform = match rules.layout {
        Layout::Packed => 2 + 32 + 8,
        Layout::Aligned => 2 + 40 + 8,
    };
    [
        2 + 4 + 4,
        2 + 1_024,
        2 + 4 + 9,
        2 + 340 + 8 + 32,
        2 + 198 + 8 + 4 + 4,
        waveform,
        2 + 4,
        2 + 340,
        2,
    ]
}

/// A waveform header whose filler, if it has any, is not zero.
fn filled_header(rules: Rules, samples: u16, channels: u16) -> Vec<u8> {
    let mut header = waveform_header(rules, samples, channels);
    if rules.layout == Layout::Aligned {
        for at in [2, 3, 4, 5, 6, 7, 38, 39] {
            header[at] = 0xA5;
        }
    }
    header
}

fn the_empty_stream_becomes_a_close(rules: Rules) {
    assert_closed(rules, &[], 0, 0);
    let report = Salvage {
        messages_kept: 0,
        bytes_not_kept: 0,
        close_added: true,
        length: 2,
    };
    let mut output = [7; 3];
    assert_eq!(salvage(rules, &[], &mut output), Ok(report));
    assert_eq!(output, [4, 0, 7]);
}

fn a_close_alone_comes_back(rules: Rules) {
    assert_as_is(rules, &[4, 0], 1, 2);
    // Half of it is none.
    assert_closed(rules, &[4], 0, 0);
}

fn an_accepted_stream_comes_back_as_it_is(rules: Rules) {
    let stream = mixed(rules).concat();
    assert_eq!(check(rules, &stream), Ok(9));
    assert_as_is(rules, &stream, 9, stream.len());
    let texts = [text_message(5, b"a"), text_message(5, b"b"), close()].concat();
    assert_as_is(rules, &texts, 3, 16);
}

fn a_stream_torn_at_each_byte(rules: Rules) {
    let stream = mixed(rules).concat();
    let (mut messages, mut end) = (0, 0);
    for size in mixed_sizes(rules) {
        // All tears up to the message's last byte leave what stands before it.
        for tear in end..end + size {
            assert_closed(rules, &stream[..tear], messages, end);
        }
        messages += 1;
        end += size;
    }
    assert_eq!(end, stream.len());
    assert_as_is(rules, &stream, messages, end);
}

fn bytes_after_a_close_are_left_out_and_nothing_is_added(rules: Rules) {
    let after: [&[u8]; 12] = [
        &[0],
        &[4],
        &[4, 0],
        &[4, 0, 4, 0],
        &[5],
        &[5, 0],
        &[6, 0],
        &[5, 0, 0, 0, 0, 0],
        &[5, 0, 1, 0, 0, 0, 0xFF],
        &[5, 0, 9, 0, 0, 0],
        &[0xF0, 3],
        &[5, 0, 0, 0, 0, 0, 4, 0],
    ];
    let front = mixed(rules).concat();
    for bytes in after {
        assert_as_is(rules, &[&[4, 0], bytes].concat(), 1, 2);
        let stream = [&front[..], bytes].concat();
        assert_eq!(refusal(rules, &stream), 12);
        assert_as_is(rules, &stream, 9, front.len());
    }
    // Not even a whole stream.
    assert_as_is(rules, &[&front[..], &front].concat(), 9, front.len());
}

fn what_ends_in_the_bytes_of_a_close_is_none(rules: Rules) {
    let text = text_message(5, &[4, 0]);
    assert_closed(rules, &text, 1, 8);
    assert_closed(rules, &[&text[..], &[6, 0, 4, 0]].concat(), 1, 8);
    assert_as_is(rules, &[&text[..], &[4, 0]].concat(), 2, 10);
    let waveform = waveform_message(&waveform_header(rules, 1, 1), &[0, 0, 4, 0]);
    let stream = headed(&[&waveform]);
    assert_closed(rules, &stream, 2, stream.len());
}

/// A message that is refused with this number where a header text and a text stand before it.
fn faulty(rules: Rules, number: u32) -> Vec<u8> {
    let mut version_2 = waveform_header(rules, 0, 0);
    put16(&mut version_2, 0, 2);
    let mut channels = acquisition_header(1, 2, 0);
    put16(&mut channels, 36, 1);
    let mut discards = acquisition_header(1, 1, 0);
    put16(&mut discards, 168, 2);
    match number {
        1 => vec![5],
        2 => vec![6, 0],
        3 => vec![5, 0, 0, 0, 0],
        4 => waveform_message(&version_2, &[]),
        6 => acquisition(&channels),
        7 => acquisition(&discards),
        8 => image(&image_header([1; 3], 1, 9, 0), b"", &[0; 2]),
        9 => image(&image_header([1; 3], 1, 1, 2), b"abc", &[0; 2]),
        10 => image(&image_header([65_535; 3], 65_535, 8, 0), b"", &[]),
        11 => text_message(5, b"note")[..9].to_vec(),
        12 => text_message(3, b""),
        13 => vec![],
        21 => text_message(5, b"\xFF"),
        _ => panic!("no message here is refused with {number}"),
    }
}

fn a_fault_of_each_number_is_left_out(rules: Rules) {
    let front = headed(&[&text_message(5, b"kept")]);
    assert_eq!(front.len(), 16);
    for number in [1, 2, 3, 4, 6, 7, 8, 9, 10, 11, 12, 13] {
        let stream = [&front[..], &faulty(rules, number)].concat();
        assert_eq!(refusal(rules, &stream), number);
        assert_closed(rules, &stream, 2, 16);
    }
    // A name stands before the header.
    let nameless = [text_message(5, b"kept"), message(1, &[&[1; 1_024]])].concat();
    assert_eq!(refusal(rules, &nameless), 5);
    assert_closed(rules, &nameless, 1, 10);
    // As the first message of all, nothing is left.
    for number in [1, 2, 3, 11, 13] {
        let stream = faulty(rules, number);
        assert_eq!(refusal(rules, &stream), number);
        assert_closed(rules, &stream, 0, 0);
    }
}

fn the_first_fault_decides(rules: Rules) {
    // What follows a faulty message is lost, however sound it is: nothing tells where it begins.
    let behind = mixed(rules).concat();
    for number in [2, 4, 6, 7, 8, 9, 10, 12] {
        let front = headed(&[&faulty(rules, number)]);
        let stream = [&front[..], &behind].concat();
        assert_eq!(refusal(rules, &stream), number);
        assert_closed(rules, &stream, 1, 6);
    }
    // A close behind it does not spare the added one.
    assert_closed(
        rules,
        &[&[5, 0, 0, 0, 0, 0, 6, 0], &close()[..]].concat(),
        1,
        6,
    );
}

fn a_broken_order_is_left_out(rules: Rules) {
    let name = name_message(b"", 0);
    let (text, header) = (text_message(5, b""), text_message(3, b""));
    let configuration = text_message(2, b"");
    let data = [
        acquisition(&acquisition_header(0, 0, 0)),
        image(&image_header([0; 3], 0, 1, 0), b"", &[]),
        waveform_message(&waveform_header(rules, 0, 0), &[]),
    ];
    let broken = |front: &[&[u8]], last: &[u8]| {
        let front = front.concat();
        let stream = [&front[..], last, &close()].concat();
        assert_eq!(refusal(rules, &stream), 12);
        (stream, front.len())
    };
    for early in &data {
        let (stream, front) = broken(&[&text], early);
        assert_closed(rules, &stream, 1, front);
        // The id alone breaks the order.
        assert_closed(rules, &early[..2], 0, 0);
    }
    for late in [&name, &configuration, &header] {
        let (stream, front) = broken(&[&header, &text], late);
        assert_closed(rules, &stream, 2, front);
    }
    for second in [&name, &configuration] {
        let (stream, front) = broken(&[&configuration], second);
        assert_closed(rules, &stream, 1, front);
    }
}

fn what_a_normal_form_would_change_is_kept(rules: Rules) {
    let stream = mixed(rules).concat();
    let mut normal = vec![0; stream.len()];
    normal_form(rules, &stream, &mut normal).unwrap();
    // After the name's zero, in the image's header, and in an aligned waveform's.
    let changed = |range: std::ops::Range<usize>| stream[range.clone()] != normal[range];
    assert!(changed(10..1_036) && changed(1_433..1_631));
    assert_eq!(changed(1_651..1_691), rules.layout == Layout::Aligned);
    let torn = &stream[..stream.len() - 2];
    assert_closed(rules, torn, 8, torn.len());
    assert_as_is(rules, &stream, 9, stream.len());
}

const EMPTY_TEXT: [u8; 6] = [5, 0, 0, 0, 0, 0];

/// Empty texts are the same under all rules, so that these two are enough for a million of them.
const TWO_RULES: [Rules; 2] = [Rules::PACKED, Rules::ALIGNED.strict()];

#[test]
fn around_a_million_messages() {
    for rules in TWO_RULES {
        a_million_messages_without_a_close(rules);
        a_million_messages_with_a_close(rules);
    }
}

fn a_million_messages_without_a_close(rules: Rules) {
    let (most, kept) = (999_999, 5_999_994);
    // One fewer leaves room for another message beside the close.
    let mut stream = EMPTY_TEXT.repeat(999_998);
    assert_closed(rules, &stream, 999_998, 5_999_988);
    stream.extend(EMPTY_TEXT);
    assert_eq!(refusal(rules, &stream), 13);
    assert_closed(rules, &stream, most, kept);
    for (message, number) in [(&[5][..], 1), (&[0xF0, 3], 12)] {
        let faulty = [&stream[..], message].concat();
        assert_eq!(refusal(rules, &faulty), number);
        assert_closed(rules, &faulty, most, kept);
    }
    // The last of a million is well formed, and makes way for the close.
    stream.extend(EMPTY_TEXT);
    assert_eq!(refusal(rules, &stream), 13);
    assert_closed(rules, &stream, most, kept);
    // Whatever follows, a close too, is one too many.
    for more in [&[4][..], &[4, 0], &EMPTY_TEXT] {
        let longer = [&stream[..], more].concat();
        assert_eq!(refusal(rules, &longer), 19);
        assert_closed(rules, &longer, most, kept);
    }
}

fn a_million_messages_with_a_close(rules: Rules) {
    for texts in [999_998, 999_999] {
        let mut stream = EMPTY_TEXT.repeat(texts);
        stream.extend([4, 0]);
        let (count, length) = (texts as u64 + 1, stream.len());
        assert_eq!(check(rules, &stream), Ok(count));
        assert_as_is(rules, &stream, count, length);
        // With a million messages too, bytes after the close cost none of them.
        for after in [&[0][..], &[4, 0], &EMPTY_TEXT] {
            let longer = [&stream[..], after].concat();
            assert_eq!(refusal(rules, &longer), 12);
            assert_as_is(rules, &longer, count, length);
        }
    }
}

fn rooms_around_the_saved_stream(rules: Rules) {
    let torn = headed(&[&text_message(5, b"hi"), &[5, 0, 9]]);
    assert_eq!(torn.len(), 17);
    let closed = [&torn[..14], &[4, 0, 0, 0]].concat();
    for stream in [&torn, &closed] {
        let report = salvage_report(rules, stream);
        assert_eq!(report.length, 16);
        for room in 0..16 {
            let mut output = vec![0xEE; room];
            let refused = salvage(rules, stream, &mut output);
            assert_eq!(refused, Err(Refused::Other(14)), "{room} bytes of room");
            assert_eq!(output, vec![0xEE; room]);
        }
        for room in 16..20 {
            let mut output = vec![0xEE; room];
            assert_eq!(salvage(rules, stream, &mut output), Ok(report));
            assert_eq!(output[..14], torn[..14]);
            assert_eq!(output[14..16], [4, 0]);
        }
    }
    assert_eq!(salvage(rules, &[], &mut [9]), Err(Refused::Other(14)));
}

fn the_rest_of_the_output_keeps_its_content(rules: Rules) {
    let stream = mixed(rules).concat();
    for tear in [0, 5, 20, 1_500, stream.len()] {
        let length = salvage_report(rules, &stream[..tear]).length as usize;
        let mut output: Vec<u8> = (0..stream.len() + 9).map(|i| i as u8 | 0x80).collect();
        let before = output.clone();
        salvage(rules, &stream[..tear], &mut output).unwrap();
        assert_eq!(output[length..], before[length..]);
    }
}

/// Streams with a fault of some sort, and accepted ones.
fn some_streams(rules: Rules) -> Vec<Vec<u8>> {
    let whole = mixed(rules);
    let front = whole[..3].concat();
    let mut streams = vec![vec![], front.clone(), whole.concat()];
    for number in [1, 2, 3, 4, 6, 7, 8, 9, 10, 11, 12, 21] {
        let mut stream = [&front[..], &faulty(rules, number)].concat();
        streams.push(stream.clone());
        stream.extend([5, 0, 0, 0, 0, 0, 4, 0]);
        streams.push(stream);
    }
    streams.push([&front[..], &[4, 0, 4, 0, 5, 0]].concat());
    streams
}

fn what_is_saved_is_accepted_and_saved_again_as_it_is(rules: Rules) {
    for stream in some_streams(rules) {
        let Saved {
            stream: saved,
            report,
        } = Saved::of(rules, &stream);
        let count = report.messages_kept + u64::from(report.close_added);
        assert_eq!(check(rules, &saved), Ok(count));
        let (kept, _) = records_before_fault(rules, &stream);
        let records = records(rules, &saved).unwrap();
        assert_eq!(records[..kept.len()], kept);
        assert_as_is(rules, &saved, count, saved.len());
    }
}

/// Whether these bytes, alone or with a close behind them, are accepted.
fn could_be_kept(rules: Rules, front: &[u8]) -> bool {
    check(rules, front).is_ok() || check(rules, &[front, &[4, 0]].concat()).is_ok()
}

fn no_longer_run_could_have_been_kept(rules: Rules) {
    for stream in some_streams(rules) {
        let report = salvage_report(rules, &stream);
        let kept = stream.len() - report.bytes_not_kept as usize;
        assert!(could_be_kept(rules, &stream[..kept]));
        for longer in kept + 1..=stream.len() {
            assert!(!could_be_kept(rules, &stream[..longer]), "{longer} bytes");
        }
    }
}

/// The strict profile cuts where the plain one has a text like any other.
#[test]
fn text_that_is_not_utf8_is_left_out_as_strict_alone() {
    let front = headed(&[&text_message(5, "é".as_bytes())]);
    assert_eq!(front.len(), 14);
    let stream = [&front[..], &text_message(5, b"\xE9"), &close()].concat();
    let torn = &stream[..stream.len() - 1];
    for plain in Rules::PLAIN {
        assert_as_is(plain, &stream, 4, 23);
        assert_closed(plain, torn, 3, 21);
        let strict = plain.strict();
        assert_eq!(refusal(strict, &stream), 21);
        assert_closed(strict, &stream, 2, 14);
        assert_closed(strict, torn, 2, 14);
    }
    // What follows a name's zero is no text.
    let name = [name_message(b"n", 0xFF), close()].concat();
    for strict in Rules::STRICT {
        assert_as_is(strict, &name, 2, 1_028);
        assert_closed(strict, &name[..1_026], 1, 1_026);
    }
}

/// The layout decides how long a waveform is: the same bytes are more or fewer messages.
#[test]
fn the_layout_decides_what_is_kept() {
    // Aligned one sample of one channel, 46 bytes; packed three channels of one sample, as many.
    let mut header = waveform_header(Rules::ALIGNED, 1, 1);
    put16(&mut header, 22, 1);
    put16(&mut header, 24, 3);
    let waveform = waveform_message(&header, &[7; 4]);
    let both = whole(&[&waveform]);
    for rules in Rules::ALL {
        assert_as_is(rules, &both, 3, 54);
        assert_closed(rules, &both[..52], 2, 52);
    }
    // Packed it now claims a channel more than there is.
    let mut aligned_alone = both;
    put16(&mut aligned_alone, 6 + 2 + 24, 4);
    for rules in [Rules::ALIGNED, Rules::ALIGNED.strict()] {
        assert_as_is(rules, &aligned_alone, 3, 54);
    }
    for rules in [Rules::PACKED, Rules::PACKED.strict()] {
        assert_closed(rules, &aligned_alone, 1, 6);
    }
    // Four bytes more are those of that channel packed, and aligned an unknown id.
    let packed_alone = [&aligned_alone[..52], &[9; 4], &close()].concat();
    assert_as_is(Rules::PACKED, &packed_alone, 3, 58);
    assert_eq!(refusal(Rules::ALIGNED, &packed_alone), 2);
    assert_closed(Rules::ALIGNED, &packed_alone, 2, 52);
}

/// 21 at the last message that may begin, and 19 at the one after it, whatever it holds.
#[test]
fn a_bad_text_around_a_million_messages() {
    let bad = text_message(5, b"\xFF");
    let texts = EMPTY_TEXT.repeat(999_999);
    let last = [&texts[..], &bad].concat();
    for (rules, number) in [(Rules::PACKED, 13), (Rules::PACKED.strict(), 21)] {
        assert_eq!(refusal(rules, &last), number);
        assert_closed(rules, &last, 999_999, 5_999_994);
        let over = [&last[..], &bad].concat();
        assert_closed(rules, &over, 999_999, 5_999_994);
    }
}
