//! What is drawn for a layout of waveform headers (document 02, E3): filler, headers that are cut, sizes at the
//! limit, and streams that are read under the other layout.

use second_reader::*;
use streams::*;

const ALIGNED: Rules = Rules::ALIGNED;
const PACKED: Rules = Rules::PACKED;

fn normal_of(rules: Rules, stream: &[u8]) -> Vec<u8> {
    let mut normal = vec![0xEE; stream.len()];
    let answer = normal_form(rules, stream, &mut normal);
    assert_eq!(answer, Ok(stream.len() as u64));
    normal
}

#[test]
fn aligned_waveforms_have_filler_of_zeros_of_one_byte_and_of_many() {
    let mut rng = Rng::new(31);
    let mut met = [0; 3];
    for _ in 0..300 {
        let stream = joined(&well_formed(ALIGNED, &mut rng, 5_000));
        for record in records(ALIGNED, &stream).unwrap() {
            let places = filler::places_of(ALIGNED, &record);
            let is_waveform = record.detail.kind() == Kind::Waveform;
            assert_eq!(places.len(), if is_waveform { 8 } else { 0 });
            if is_waveform {
                let set = places.iter().filter(|&&at| stream[at] != 0).count();
                met[set.min(2)] += 1;
            }
        }
    }
    assert!(met.iter().all(|&times| times > 50), "{met:?}");
}

#[test]
fn packed_streams_have_no_filler() {
    let mut rng = Rng::new(32);
    for _ in 0..50 {
        let stream = joined(&well_formed(PACKED, &mut rng, 5_000));
        let records = records(PACKED, &stream).unwrap();
        assert!(filler::places(PACKED, &records).is_empty());
    }
}

#[test]
fn equal_records_and_equal_normal_forms_whatever_filler_holds() {
    let mut rng = Rng::new(33);
    let mut changed = 0;
    for _ in 0..300 {
        let stream = joined(&well_formed(ALIGNED, &mut rng, 3_000));
        let mut other = stream.clone();
        for at in filler::places(ALIGNED, &records(ALIGNED, &stream).unwrap()) {
            other[at] = rng.number() as u8;
        }
        assert_eq!(records(ALIGNED, &stream), records(ALIGNED, &other));
        assert_eq!(contents(ALIGNED, &stream), contents(ALIGNED, &other));
        assert_eq!(normal_of(ALIGNED, &stream), normal_of(ALIGNED, &other));
        changed += usize::from(stream != other);
    }
    assert!(changed > 100, "{changed}");
}

#[test]
fn streams_for_both_layouts_are_accepted_by_both_with_different_records() {
    let mut rng = Rng::new(34);
    let (mut other_count, mut one_index) = (0, 0);
    for round in 0..1_000 {
        let layouts = [Rules::PLAIN, Rules::STRICT][round % 2];
        let stream = accepted_by_both(layouts[0].profile, &mut rng);
        assert!(stream.len() < 20_000);
        let [packed, aligned] = layouts.map(|rules| contents(rules, &stream).unwrap());
        assert_ne!(packed, aligned);
        other_count += usize::from(packed.len() != aligned.len());
        let [packed, aligned] = layouts.map(|rules| index_bytes(rules, &stream).unwrap());
        one_index += usize::from(packed == aligned);
    }
    assert!(other_count > 100, "{other_count}");
    assert!((20..900).contains(&one_index), "{one_index}");
}

#[test]
fn streams_of_one_layout_are_mostly_refused_under_the_other() {
    let mut rng = Rng::new(35);
    for rules in Rules::ALL {
        let mut met = [0; 22];
        for _ in 0..1_000 {
            let stream = joined(&well_formed(rules, &mut rng, 2_000));
            let with_waveform = records(rules, &stream).unwrap();
            let kinds = with_waveform.iter().map(|record| record.detail.kind());
            if kinds.into_iter().any(|kind| kind == Kind::Waveform) {
                let other = check(rules.with_other_layout(), &stream);
                met[other.map_or_else(|refusal| refusal.number as usize, |_| 0)] += 1;
            }
        }
        let [accepted, refused] = [met[0], met[1..].iter().sum::<u64>()];
        assert!(refused > 200 && accepted < refused / 10, "{met:?}");
    }
}

#[test]
fn a_waveform_of_the_other_layout_and_a_cut_header_are_found() {
    let mut rng = Rng::new(36);
    let number_of = |name| DAMAGES.iter().position(|&damage| damage == name).unwrap();
    let mixing = number_of("a waveform of the other layout");
    let cutting = number_of("cut within a waveform header");
    for rules in Rules::ALL {
        let (mut other, mut cut) = ([0; 22], [0; 22]);
        for _ in 0..1_000 {
            let number = |stream: &[u8]| match check(rules, stream) {
                Ok(_) => 0,
                Err(refusal) => refusal.number as usize,
            };
            other[number(&damaged(rules, &mut rng, mixing, 2_000))] += 1;
            cut[number(&damaged(rules, &mut rng, cutting, 2_000))] += 1;
        }
        assert!(other[1..].iter().sum::<u64>() > 100, "{other:?}");
        // Where there is no waveform nothing is cut.
        assert_eq!(cut[0] + cut[3], 1_000, "{cut:?}");
        assert!(cut[3] > 100, "{cut:?}");
    }
}

/// The number, and the length of what is left from the faulty waveform on, where a waveform is at fault.
fn faulty_waveform(rules: Rules, stream: &[u8]) -> Option<(u32, usize)> {
    let refusal = check(rules, stream).expect_err("made for a refusal");
    let left = &stream[refusal.byte as usize..];
    let id = Kind::Waveform.id().to_le_bytes();
    left.starts_with(&id)
        .then_some((refusal.number, left.len()))
}

#[test]
fn waveforms_meet_both_sides_of_their_checks() {
    let mut rng = Rng::new(37);
    for rules in Rules::ALL {
        let header = 2 + Kind::Waveform.header_size(rules);
        let mut met = std::collections::BTreeMap::new();
        for number in [3, 4, 10, 11] {
            for _ in 0..1_500 {
                let stream = refused_with(rules, &mut rng, number);
                if let Some((number, left)) = faulty_waveform(rules, &stream) {
                    *met.entry(number).or_insert(0) += 1;
                    *met.entry(1_000 + left as u32).or_insert(0) += u32::from(number == 3);
                    *met.entry(2_000).or_insert(0) += u32::from(number == 11 && left == header);
                }
            }
        }
        for number in [3, 4, 10, 11] {
            assert!(met[&number] > 50, "{number}: {met:?}");
        }
        // A header but for one byte, but for two, of the packed size, and a header without its data.
        for short in [1, 2, 8] {
            assert!(met[&(1_000 + (header - short) as u32)] > 5, "{met:?}");
        }
        assert!(met[&2_000] > 5, "{met:?}");
    }
}

#[test]
fn the_sizes_around_the_limit_are_on_their_sides_of_it() {
    for rules in Rules::ALL {
        let size = |(samples, channels): (u64, u64)| {
            let detail = Detail::Waveform {
                samples: samples as u16,
                channels: channels as u16,
            };
            detail.size(rules)
        };
        let AroundTheLimit { within, over } = around_the_limit(rules);
        let room = within.map(|sizes| LARGEST_MESSAGE - size(sizes));
        assert!(room.iter().all(|&bytes| bytes < 24), "{room:?}");
        let past = over.map(|sizes| size(sizes) - LARGEST_MESSAGE);
        assert!(
            past.iter().all(|&bytes| bytes > 0 && bytes < 24),
            "{past:?}"
        );
    }
    // What just fits packed is too large aligned.
    let (packed, aligned) = (around_the_limit(PACKED), around_the_limit(ALIGNED));
    assert_eq!(packed.within, aligned.over);
}

#[test]
fn given_headers_have_filler_that_is_not_written() {
    let mut rng = Rng::new(38);
    let (mut zero, mut set) = (0, 0);
    for _ in 0..2_000 {
        let given = writer_input(ALIGNED, &mut rng).message;
        if given.kind() == Some(Kind::Waveform) {
            let filler = [&given.header[2..8], &given.header[38..]].concat();
            let written = given.header_written();
            assert_eq!([&written[2..8], &written[38..]].concat(), [0; 8]);
            zero += usize::from(filler == [0; 8]);
            set += usize::from(filler != [0; 8]);
        }
    }
    assert!(zero > 20 && set > 50, "{zero} {set}");
}

#[test]
fn the_aligned_sample_is_one_with_filler() {
    let stream = sample::aligned_waveforms();
    assert!(stream.len() < 1_024);
    let records = records(ALIGNED, &stream).unwrap();
    let sizes: Vec<u64> = records.iter().map(|record| record.size).collect();
    assert_eq!(sizes, [356, 202, 202, 2]);
    let set = |record: &Record| {
        let places = filler::places_of(ALIGNED, record);
        places.iter().filter(|&&at| stream[at] != 0).count()
    };
    assert_eq!((set(&records[1]), set(&records[2])), (8, 0));
    assert_ne!(normal_of(ALIGNED, &stream), stream);
    assert_eq!(own_columns(ALIGNED, &stream).unwrap().2, [0, 1, 2, 0]);
    // The library's default would refuse it.
    let refusal = check(PACKED, &stream).unwrap_err();
    assert_eq!((refusal.number, refusal.record), (2, 2));
}
