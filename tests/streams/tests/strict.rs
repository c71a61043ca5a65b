//! What is drawn for a profile of texts (document 02, E9): UTF-8 and what is not, in each kind that has text, with and
//! without another fault of the same message, and before faults of later ones.

use second_reader::utf8::{first_fault, Fault};
use second_reader::*;
use std::collections::{BTreeMap, BTreeSet};
use streams::*;

fn number_under(rules: Rules, stream: &[u8]) -> u32 {
    check(rules, stream).map_or_else(|refusal| refusal.number, |_| 0)
}

fn is_utf8(text: &[u8]) -> bool {
    std::str::from_utf8(text).is_ok()
}

#[test]
fn good_texts_are_utf8_of_the_length_asked_for() {
    let mut rng = Rng::new(41);
    for round in 0..20_000 {
        let length = round % 200;
        let text = texts::good(&mut rng, length);
        assert_eq!(text.len(), length);
        assert!(is_utf8(&text), "{text:02X?}");
    }
}

/// Where characters of this many bytes begin, modulo 32, in texts of more than 64 bytes.
fn places_of(octets: usize, text: &str) -> Vec<usize> {
    let wide = |&(_, character): &(usize, char)| character.len_utf8() == octets;
    let places = text.char_indices().filter(wide);
    places.map(|(at, _)| at % 32).collect()
}

#[test]
fn good_texts_have_characters_of_each_width_at_each_place_of_32_bytes() {
    let mut rng = Rng::new(42);
    let (mut places, mut lengths, mut alone) = (BTreeSet::new(), BTreeSet::new(), BTreeSet::new());
    for _ in 0..20_000 {
        let length = texts::length(&mut rng, 1_000);
        let text = String::from_utf8(texts::good(&mut rng, length)).unwrap();
        if length > 64 {
            let wide = text.chars().filter(|character| !character.is_ascii());
            let one = wide.count() == 1;
            for octets in 2..=4 {
                let at = places_of(octets, &text);
                alone.extend(at.iter().filter(|_| one).map(|&at| (octets, at)));
                places.extend(at.into_iter().map(|at| (octets, at)));
            }
            lengths.insert(length % 32);
        }
    }
    assert_eq!(places.len(), 3 * 32);
    // Also as the only one that is not of one byte.
    assert_eq!(alone.len(), 3 * 32);
    assert_eq!(lengths.len(), 32);
}

#[test]
fn bad_texts_have_the_fault_that_they_are_made_for() {
    let mut rng = Rng::new(43);
    for fault in Fault::ALL {
        let mut places = BTreeSet::new();
        for round in 0..5_000 {
            let length = round % 120;
            let text = texts::bad(&mut rng, fault, length);
            assert!(!is_utf8(&text), "{text:02X?}");
            assert!(text.len() == length || text.len() < 8);
            let (at, found) = first_fault(&text).expect("a fault");
            assert_eq!(found, fault, "{text:02X?}");
            places.insert(at % 32);
            let name = texts::without_zeros(text);
            assert_eq!(first_fault(&name), Some((at, fault)), "{name:02X?}");
        }
        assert_eq!(places.len(), 32, "{fault:?}");
    }
}

#[test]
fn streams_of_the_strict_profile_are_accepted_in_the_plain_one_too() {
    let mut rng = Rng::new(44);
    for rules in Rules::STRICT {
        for _ in 0..300 {
            let stream = joined(&well_formed(rules, &mut rng, 5_000));
            assert!(check(rules, &stream).is_ok());
            assert_eq!(contents(rules, &stream), contents(rules.plain(), &stream));
        }
    }
}

#[test]
fn streams_of_the_plain_profile_are_refused_in_the_strict_one_by_21_or_not_at_all() {
    let mut rng = Rng::new(45);
    for rules in Rules::PLAIN {
        let mut met = BTreeMap::new();
        for _ in 0..1_000 {
            let stream = joined(&well_formed(rules, &mut rng, 3_000));
            *met.entry(number_under(rules.strict(), &stream))
                .or_insert(0) += 1;
        }
        let numbers: Vec<u32> = met.keys().copied().collect();
        assert_eq!(numbers, [0, 21]);
        assert!(met.values().all(|&times| times > 10), "{met:?}");
    }
}

#[test]
fn names_have_filler_that_is_not_utf8() {
    let mut rng = Rng::new(46);
    let mut met = [0; 2];
    for rules in Rules::STRICT {
        for _ in 0..300 {
            let name = messages::name(rules, &mut rng);
            assert_eq!(name.bytes().len(), 1_026);
            met[usize::from(is_utf8(&name.filler))] += 1;
            let stream = [name.bytes(), vec![4, 0]].concat();
            assert_eq!(check(rules, &stream), Ok(2));
        }
    }
    assert!(met.iter().all(|&times| times > 100), "{met:?}");
}

#[test]
fn each_kind_meets_each_fault() {
    let mut rng = Rng::new(47);
    for rules in Rules::STRICT {
        let mut met = BTreeMap::new();
        for _ in 0..6_000 {
            let stream = refused_with(rules, &mut rng, 21);
            let refusal = check(rules, &stream).unwrap_err();
            assert_eq!(refusal.number, 21);
            let at = text_at(&stream, refusal).expect("a text");
            let (_, fault) = first_fault(at.text).expect("not UTF-8");
            *met.entry((at.kind, fault)).or_insert(0) += 1;
        }
        assert_eq!(met.len(), TEXTED.len() * Fault::ALL.len(), "{met:?}");
    }
}

#[test]
fn an_earlier_21_hides_later_faults() {
    let mut rng = Rng::new(48);
    let mut later = BTreeSet::new();
    for _ in 0..3_000 {
        let stream = refused_with(Rules::STRICT[0], &mut rng, 21);
        later.insert(number_under(Rules::PACKED, &stream));
    }
    // 0 is a stream that the plain profile accepts.
    let expected = [0, 1, 2, 3, 4, 5, 6, 7, 8, 9, 10, 11, 12, 13];
    assert_eq!(later, BTreeSet::from(expected));
}

#[test]
fn other_faults_come_with_texts_that_are_not_utf8() {
    let mut rng = Rng::new(49);
    let rules = Rules::STRICT[0];
    for number in [3, 4, 5, 8, 9, 10, 11, 12] {
        let mut bad = 0;
        for _ in 0..1_000 {
            let stream = refused_with(rules, &mut rng, number);
            let refusal = check(rules, &stream).unwrap_err();
            assert_eq!(refusal.number, number);
            let at = text_at(&stream, refusal);
            bad += usize::from(at.is_some_and(|at| at.is_bad()));
        }
        assert!(bad > 20, "{number}: {bad}");
    }
}

#[test]
fn halves_of_characters_have_their_rest_elsewhere() {
    let mut rng = Rng::new(50);
    for kind in TEXTED {
        let mut met = [0; 2];
        for _ in 0..300 {
            let (message, next) = split::split(Rules::PACKED, &mut rng, kind);
            let text = message.own_text().unwrap();
            assert_eq!(first_fault(text).unwrap().1, Fault::CutByEnd);
            let after = match (&next, kind) {
                (Some(next), _) => &next.text,
                (None, Kind::Image) => &message.pixels,
                (None, _) => &message.filler,
            };
            assert!(split::completes(text, after), "{text:02X?} {after:02X?}");
            assert!(!split::completes(text, b"a"));
            met[usize::from(next.is_some())] += 1;
            let front = if kind.is_data() {
                vec![3, 0, 0, 0, 0, 0]
            } else {
                vec![]
            };
            let next = next.map_or(vec![], |next| next.bytes());
            let stream = [front, message.bytes(), next, vec![4, 0]].concat();
            assert_eq!(number_under(Rules::PACKED, &stream), 0);
            assert_eq!(number_under(Rules::STRICT[0], &stream), 21);
        }
        let within = matches!(kind, Kind::Image | Kind::ConfigurationName);
        assert!(met[1] > 50 && (met[0] > 50) == within, "{kind:?} {met:?}");
    }
}

#[test]
fn damage_to_texts_is_21_or_leaves_them_accepted() {
    let mut rng = Rng::new(51);
    let first = "text that is not UTF-8";
    let to_texts = DAMAGES
        .iter()
        .enumerate()
        .skip_while(|(_, &name)| name != first);
    for (damage, name) in to_texts {
        for rules in Rules::STRICT {
            let mut met = BTreeMap::new();
            for _ in 0..600 {
                let stream = damaged(rules, &mut rng, damage, 3_000);
                assert_eq!(number_under(rules.plain(), &stream), 0);
                *met.entry(number_under(rules, &stream)).or_insert(0) += 1;
            }
            assert!(met[&21] > 100, "{name} {met:?}");
            assert!(
                met.keys().all(|&number| matches!(number, 0 | 21)),
                "{met:?}"
            );
        }
    }
}

/// What is met of the texts that a writer is given which refuses with this number.
fn given_texts(rng: &mut Rng, rules: Rules, number: u32) -> BTreeMap<(Kind, Option<Fault>), u32> {
    let mut met = BTreeMap::new();
    for _ in 0..3_000 {
        let message = writer_input_refused(rules, rng, number).message;
        assert_eq!(message.rules, rules);
        if let (Some(kind), Some(text)) = (message.kind(), message.own_text()) {
            let fault = first_fault(text).map(|(_, fault)| fault);
            *met.entry((kind, fault)).or_default() += 1;
        }
    }
    met
}

#[test]
fn writers_are_given_each_fault_in_each_kind_also_with_a_wrong_part() {
    let mut rng = Rng::new(52);
    for rules in Rules::STRICT {
        for number in [18, 21] {
            let met = given_texts(&mut rng, rules, number);
            for (kind, fault) in TEXTED.into_iter().flat_map(|k| Fault::ALL.map(|f| (k, f))) {
                let times = met.get(&(kind, Some(fault))).unwrap_or(&0);
                assert!(*times > 0, "{number}: {kind:?} {fault:?} {met:?}");
            }
        }
        // 14 is the last, and comes with sound texts alone.
        let met = given_texts(&mut rng, rules, 14);
        assert!(met.keys().all(|(_, fault)| fault.is_none()), "{met:?}");
    }
}

#[test]
fn a_writer_that_gives_21_may_have_no_room_either() {
    let mut rng = Rng::new(53);
    let mut met = [0; 2];
    for _ in 0..500 {
        let input = writer_input_refused(Rules::STRICT[0], &mut rng, 21);
        let (message, mut output) = (&input.message, input.output.clone());
        let parts = message.parts();
        let mut answer = |rules| {
            let position = input.position;
            write(
                rules,
                message.id,
                &message.header,
                &parts,
                &mut output,
                position,
            )
        };
        assert_eq!(answer(Rules::STRICT[0]), Err(21));
        match answer(Rules::PACKED) {
            Ok(_) => met[0] += 1,
            Err(number) => {
                assert_eq!(number, 14);
                met[1] += 1;
            }
        }
    }
    assert!(met.iter().all(|&times| times > 50), "{met:?}");
}

#[test]
fn samples_are_utf8() {
    for stream in [sample::all_kinds(), sample::configuration_text()] {
        assert!(check(Rules::STRICT[0], &stream).is_ok());
    }
    assert!(check(Rules::STRICT[1], &sample::aligned_waveforms()).is_ok());
}
