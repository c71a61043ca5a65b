//! The streams are what they are said to be, and the second reader keeps its own laws on them.

use second_reader::*;
use streams::*;

/// Each of these functions as a test under each layout and profile.
macro_rules! under_all_rules {
    ($($test:ident)*) => {
        mod packed {
            $(#[test] fn $test() { super::$test(second_reader::Rules::PACKED) })*
        }
        mod aligned {
            $(#[test] fn $test() { super::$test(second_reader::Rules::ALIGNED) })*
        }
        mod strict_packed {
            $(#[test] fn $test() { super::$test(second_reader::Rules::PACKED.strict()) })*
        }
        mod strict_aligned {
            $(#[test] fn $test() { super::$test(second_reader::Rules::ALIGNED.strict()) })*
        }
    };
}

under_all_rules! {
    well_formed_streams_are_accepted_with_the_records_they_were_made_of
    image_headers_say_their_attribute_length_or_every_third_0
    attributes_past_32_bits_are_10_with_0_in_the_header_and_9_with_their_low_word
    faulty_streams_get_the_number_they_are_made_for
    damage_meets_many_refusals
    images_past_64_bits_are_10
    one_message_too_many_is_19
    records_written_back_are_the_normal_form
    equal_records_and_equal_normal_forms_go_together
    equal_records_and_equal_normal_forms_whatever_image_headers_say_of_their_length
    accepted_writer_inputs_are_written_whatever_an_image_header_says_of_its_length
    refused_writer_inputs_get_the_number_they_are_made_for
    given_indexes_are_right_or_wrong_as_said
    questions_are_answered_and_refused
    a_seed_fixes_every_stream
}

fn refusal_of(rules: Rules, stream: &[u8]) -> u32 {
    check(rules, stream).map_or_else(|refusal| refusal.number, |_| 0)
}

/// The number of a damage in `DAMAGES`.
fn damage_named(name: &str) -> usize {
    let damage = DAMAGES.iter().position(|&damage| damage == name);
    damage.expect("a damage of that name")
}

/// The normal form of an accepted stream.
fn normal_of(rules: Rules, stream: &[u8]) -> Vec<u8> {
    let mut normal = vec![0xEE; stream.len()];
    let answer = normal_form(rules, stream, &mut normal);
    assert_eq!(answer, Ok(stream.len() as u64));
    normal
}

fn well_formed_streams_are_accepted_with_the_records_they_were_made_of(rules: Rules) {
    let mut rng = Rng::new(1);
    let mut kinds = std::collections::BTreeSet::new();
    for _ in 0..600 {
        let messages = well_formed(rules, &mut rng, 20_000);
        let stream = joined(&messages);
        assert!(stream.len() <= 20_000);
        let records = records(rules, &stream).unwrap();
        assert_eq!(records.len(), messages.len());
        for (record, message) in records.iter().zip(&messages) {
            assert_eq!(record.size, message.bytes().len() as u64);
            assert_eq!(Some(record.detail.kind()), message.kind());
            kinds.insert(record.detail.kind());
        }
    }
    assert_eq!(kinds.len(), 8);
}

fn image_headers_say_their_attribute_length_or_every_third_0(rules: Rules) {
    let mut rng = Rng::new(12);
    let (mut zero, mut length, mut none) = (0, 0, 0);
    for _ in 0..600 {
        let stream = joined(&well_formed(rules, &mut rng, 20_000));
        for (image, attributes) in stated::images(&records(rules, &stream).unwrap()) {
            match (stated::of(&stream, &image), attributes) {
                (0, 0) => none += 1,
                (0, _) => zero += 1,
                (stated, _) => {
                    assert_eq!(stated, attributes);
                    length += 1;
                }
            }
        }
    }
    assert!(none > 100 && zero > 100, "{zero} {length} {none}");
    assert!(length > zero && length < 3 * zero, "{zero} {length} {none}");
}

fn attributes_past_32_bits_are_10_with_0_in_the_header_and_9_with_their_low_word(rules: Rules) {
    let mut rng = Rng::new(13);
    let damage = damage_named("attribute lengths of an image");
    let mut met = [0; 4];
    for round in 0..3_000 {
        let stream = match round % 3 {
            0 => refused_with(rules, &mut rng, 9),
            1 => refused_with(rules, &mut rng, 10),
            _ => damaged(rules, &mut rng, damage, 3_000),
        };
        let Err(refusal) = check(rules, &stream) else {
            continue;
        };
        let faulty = &stream[refusal.byte as usize..];
        if !matches!(refusal.number, 9 | 10) || faulty[..2] != 1022_u16.to_le_bytes() {
            continue;
        }
        let (stated, length) = stated::both(faulty);
        let past = length > u64::from(u32::MAX);
        let low_word = stated == length & u64::from(u32::MAX);
        met[match (refusal.number, stated, past) {
            (10, 0, true) => usize::from(low_word),
            (9, _, true) if low_word => 2,
            _ => 3,
        }] += 1;
    }
    assert!(met.iter().all(|&times| times > 20), "{met:?}");
}

fn faulty_streams_get_the_number_they_are_made_for(rules: Rules) {
    let mut rng = Rng::new(2);
    for &number in short_refusals(rules) {
        for _ in 0..150 {
            let stream = refused_with(rules, &mut rng, number);
            assert_eq!(refusal_of(rules, &stream), number);
            assert!(stream.len() <= 65_536);
        }
    }
}

fn damage_meets_many_refusals(rules: Rules) {
    let mut rng = Rng::new(3);
    let mut met = [0; 22];
    for round in 0..8_000 {
        let stream = damaged(rules, &mut rng, round % DAMAGES.len(), 6_000);
        met[refusal_of(rules, &stream) as usize] += 1;
    }
    for &number in [0].iter().chain(short_refusals(rules)) {
        assert!(
            met[number as usize] > 0,
            "damage alone never gave {number}: {met:?}"
        );
    }
    assert_eq!(met[21] > 0, rules.profile == Profile::Strict);
}

fn images_past_64_bits_are_10(rules: Rules) {
    let mut rng = Rng::new(4);
    for stream in huge_images(rules, &mut rng, 30_000) {
        assert_eq!(refusal_of(rules, &stream), 10);
    }
}

fn one_message_too_many_is_19(rules: Rules) {
    for close in [false, true] {
        let refusal = check(rules, &too_many(close)).unwrap_err();
        assert_eq!(
            (refusal.number, refusal.record, refusal.byte),
            (19, 1_000_000, 6_000_000)
        );
    }
}

/// Writes the records of an accepted stream back, one after another, from their own contents.
fn written_back(rules: Rules, stream: &[u8]) -> Vec<u8> {
    let mut output = vec![0xCC; stream.len()];
    let mut position = 0;
    for record in records(rules, stream).unwrap() {
        let kind = record.detail.kind();
        let header = &stream[record.start as usize + 2..][..kind.header_size(rules)];
        let part = |name| match record.detail.part(rules, name) {
            Some((start, length)) => {
                &stream[record.start as usize + start as usize..][..length as usize]
            }
            None => &[],
        };
        let parts = Parts {
            name: part(PartName::Name),
            text: part(PartName::Text),
            trajectory: part(PartName::Trajectory),
            samples: part(PartName::Samples),
            attributes: part(PartName::Attributes),
            pixels: part(PartName::Pixels),
            waveform: part(PartName::Waveform),
        };
        position = write(rules, kind.id(), header, &parts, &mut output, position).unwrap();
    }
    assert_eq!(position, stream.len() as u64);
    output
}

fn records_written_back_are_the_normal_form(rules: Rules) {
    let mut rng = Rng::new(5);
    let mut cleaned = 0;
    for _ in 0..300 {
        let stream = joined(&well_formed(rules, &mut rng, 10_000));
        let normal = normal_of(rules, &stream);
        assert_eq!(written_back(rules, &stream), normal);
        assert_eq!(contents(rules, &stream), contents(rules, &normal));
        assert_eq!(normal_of(rules, &normal), normal);
        cleaned += usize::from(normal != stream);
    }
    assert!(cleaned > 0);
}

fn equal_records_and_equal_normal_forms_go_together(rules: Rules) {
    let mut rng = Rng::new(6);
    let (mut equal, mut different) = (0, 0);
    for _ in 0..1_500 {
        let stream = joined(&well_formed(rules, &mut rng, 3_000));
        let mut other = stream.clone();
        let at = rng.below(stream.len() as u64) as usize;
        other[at] ^= 1 << rng.below(8);
        if check(rules, &other).is_err() {
            continue;
        }
        let same = contents(rules, &stream) == contents(rules, &other);
        let one_form = normal_of(rules, &stream) == normal_of(rules, &other);
        assert_eq!(same, one_form);
        equal += usize::from(same);
        different += usize::from(!same);
    }
    assert!(
        equal > 0 && different > 0,
        "{equal} equal, {different} different"
    );
}

fn equal_records_and_equal_normal_forms_whatever_image_headers_say_of_their_length(rules: Rules) {
    let mut rng = Rng::new(14);
    let mut changed = 0;
    for _ in 0..300 {
        let stream = joined(&well_formed(rules, &mut rng, 3_000));
        let mut other = stream.clone();
        for (image, length) in stated::images(&records(rules, &stream).unwrap()) {
            let stated = rng.pick(&[0, length]);
            stated::set(&mut other, &image, stated);
        }
        assert_eq!(normal_of(rules, &stream), normal_of(rules, &other));
        assert_eq!(contents(rules, &stream), contents(rules, &other));
        changed += usize::from(stream != other);
    }
    assert!(changed > 50, "{changed}");
}

/// The bytes that the writer puts for a message: no filler but zeros, and the true attribute length.
fn as_written(message: &Message) -> Vec<u8> {
    let mut written = message.clone();
    written.header = message.header_written();
    written.filler.fill(0);
    written.bytes()
}

fn accepted_writer_inputs_are_written_whatever_an_image_header_says_of_its_length(rules: Rules) {
    let mut rng = Rng::new(7);
    let (mut right, mut another) = (0, 0);
    for _ in 0..600 {
        let input = writer_input(rules, &mut rng);
        let (given, position) = (&input.message, input.position as usize);
        let message = as_written(given);
        let end = position + message.len();
        let mut output = input.output.clone();
        let answer = write(
            rules,
            given.id,
            &given.header,
            &given.parts(),
            &mut output,
            input.position,
        );
        assert_eq!(answer, Ok(end as u64));
        assert_eq!(output[..position], input.output[..position]);
        assert_eq!(output[position..end], message);
        assert_eq!(output[end..], input.output[end..]);
        if given.kind() == Some(Kind::Image) {
            let same = given.header == given.header_written();
            right += usize::from(same);
            another += usize::from(!same);
        }
    }
    assert!(right > 10 && another > 10, "{right} {another}");
}

fn refused_writer_inputs_get_the_number_they_are_made_for(rules: Rules) {
    let mut rng = Rng::new(15);
    for &number in writer_refusals(rules) {
        for _ in 0..150 {
            let input = writer_input_refused(rules, &mut rng, number);
            let mut output = input.output.clone();
            let given = &input.message;
            let (parts, position) = (given.parts(), input.position);
            let answer = write(
                rules,
                given.id,
                &given.header,
                &parts,
                &mut output,
                position,
            );
            assert_eq!(answer, Err(number), "{given:?}");
            assert_eq!(output, input.output);
        }
    }
}

fn given_indexes_are_right_or_wrong_as_said(rules: Rules) {
    let mut rng = Rng::new(8);
    let mut met = std::collections::BTreeMap::new();
    for round in 0..400 {
        let stream = match round % 2 {
            0 => joined(&well_formed(rules, &mut rng, 3_000)),
            _ => accepted_by_both(rules.profile, &mut rng),
        };
        let answer = |given: GivenIndex| agrees(rules, &stream, given);
        for file in given_files(rules, &mut rng, &stream) {
            let given = GivenIndex::file(&file.bytes);
            assert_eq!(answer(given), Ok(file.right), "{}", file.what);
            *met.entry(("file", file.what)).or_insert(0) += 1;
        }
        for columns in given_columns(rules, &mut rng, &stream) {
            let given = GivenIndex::columns(&columns.starts, &columns.ids, &columns.counters);
            assert_eq!(answer(given), Ok(columns.right), "{}", columns.what);
            *met.entry(("columns", columns.what)).or_insert(0) += 1;
        }
    }
    for form in ["file", "columns"] {
        for what in OF_OTHER_LAYOUT {
            let times = met.get(&(form, what)).unwrap_or(&0);
            assert!(*times > 5, "{form}: {what} {times} times");
        }
    }
}

fn questions_are_answered_and_refused(rules: Rules) {
    let mut rng = Rng::new(9);
    let mut fields = [0; 4];
    let mut finds = [0; 2];
    for _ in 0..1_500 {
        let stream = joined(&well_formed(rules, &mut rng, 3_000));
        let count = check(rules, &stream).unwrap();
        let number = record_number(&mut rng, count);
        let offset = field_offset(rules, &mut rng);
        match field(rules, &stream, GivenIndex::NONE, number, offset) {
            Ok(Field::Whole(_)) => fields[0] += 1,
            Ok(Field::Signed(_)) => fields[1] += 1,
            Ok(Field::Float(_)) => fields[2] += 1,
            Err(refused) => {
                let expected = if number < count { 20 } else { 16 };
                assert_eq!(refused.number(), expected);
                fields[3] += 1;
            }
        }
        let asked = counters(rules, &mut rng, &stream);
        match find(rules, &stream, GivenIndex::NONE, number, &asked) {
            Ok(found) => {
                assert!(found >= number && found < count);
                finds[0] += 1;
            }
            Err(refused) => {
                assert_eq!(refused.number(), 16);
                finds[1] += 1;
            }
        }
    }
    assert!(
        fields.iter().chain(&finds).all(|&met| met > 0),
        "{fields:?} {finds:?}"
    );
}

#[test]
fn flags_and_steps_keep_their_laws() {
    let mut rng = Rng::new(16);
    for _ in 0..400 {
        let n = flag(&mut rng);
        let flags = rng.number();
        assert_eq!(flag_is_set(flag_set(flags, n), n), (1..=64).contains(&n));
        assert!(!flag_is_set(flag_cleared(flags, n), n));
        let (earlier, later) = counter_pair(&mut rng);
        let step = counter_step(earlier, later);
        assert_eq!(earlier.wrapping_add(step as u32), later);
    }
}

fn a_seed_fixes_every_stream(rules: Rules) {
    let of = |seed| joined(&well_formed(rules, &mut Rng::new(seed), 5_000));
    assert_eq!(of(10), of(10));
    assert_ne!(of(10), of(11));
}

#[test]
fn samples_in_the_repository_are_those_made_here() {
    let folder = concat!(env!("CARGO_MANIFEST_DIR"), "/../../samples/");
    let read = |name: &str| std::fs::read(format!("{folder}{name}")).unwrap();
    assert_eq!(read("all_kinds.mrd"), sample::all_kinds());
    assert_eq!(read("configuration_text.mrd"), sample::configuration_text());
    assert_eq!(read("aligned_waveforms.mrd"), sample::aligned_waveforms());
}

#[test]
fn samples_hold_all_eight_kinds_between_them() {
    let kinds = |stream: &[u8]| -> Vec<Kind> {
        records(Rules::PACKED, stream)
            .unwrap()
            .iter()
            .map(|record| record.detail.kind())
            .collect()
    };
    let all = sample::all_kinds();
    assert!(all.len() < 8_192);
    let mut met = [kinds(&all), kinds(&sample::configuration_text())].concat();
    met.sort();
    met.dedup();
    assert_eq!(met, Kind::ALL);
    assert_ne!(normal_of(Rules::PACKED, &all), all);
}
