//! Every command with `--json`, on kept, torn, damaged and drawn streams under all rules: each member of each object
//! is compared with the second reader's answer, and so is the exit status. `outputs.rs` looks at what is written.

mod common;

use common::asked::compare;
use common::expected::{Answer, Extracted, Shown, Told};
use common::members::kind_name;
use common::streams_kept::{Kept, ALL_KINDS, KEPT};
use common::{pages, Scratch};
use second_reader::{GivenIndex, Kind, Part, PartName, Record, Refused, Rules};
use streams::Rng;

fn ask_verdicts(told: &Told) {
    compare(told, &["check", told.file], &told.check());
    compare(told, &["info", told.file], &told.info());
    compare(told, &["gaps", told.file], &told.gaps());
    let all = told.list(Shown::ALL, &[]);
    compare(told, &["list", told.file], &all);
}

/// Options of `list` and `find`, and what they ask for.
fn draw_shown(rng: &mut Rng, records: u64) -> (Vec<String>, Shown) {
    let mut shown = Shown::ALL;
    let mut options = Vec::new();
    if !rng.one_in(3) {
        shown.from = rng.below(records + 2);
        options.extend(["--from".to_string(), shown.from.to_string()]);
    }
    if !rng.one_in(3) {
        shown.limit = 1 + rng.below(records + 1) as usize;
        options.extend(["--limit".to_string(), shown.limit.to_string()]);
    }
    (options, shown)
}

fn ask_list(told: &Told, rng: &mut Rng) {
    let (mut options, shown) = draw_shown(rng, told.records.len() as u64);
    let kinds: Vec<Kind> = (0..rng.below(4)).map(|_| rng.pick(&Kind::ALL)).collect();
    for &kind in &kinds {
        options.extend(["--kind".to_string(), kind_name(kind).to_string()]);
    }
    ask_with(
        told,
        &["list", told.file],
        &options,
        &told.list(shown, &kinds),
    );
}

fn ask_with(told: &Told, front: &[&str], options: &[String], wanted: &Answer) {
    let options = options.iter().map(String::as_str);
    let given: Vec<&str> = front.iter().copied().chain(options).collect();
    compare(told, &given, wanted);
}

fn ask_show(told: &Told, number: u64) {
    let wanted = told.show(number);
    compare(told, &["show", told.file, &number.to_string()], &wanted);
}

fn ask_at(told: &Told, byte: u64) {
    let wanted = told.at(byte);
    compare(told, &["at", told.file, &byte.to_string()], &wanted);
}

/// What a search asks of a readout.
#[derive(Default)]
struct Wanted {
    counters: Vec<(usize, u64)>,
    scan_counter: Option<u64>,
    flags: Vec<u64>,
}

impl Wanted {
    /// Some of what a readout of the stream has, now and then with one number changed.
    fn draw(told: &Told, rng: &mut Rng) -> Wanted {
        let readouts: Vec<&Record> = told.readouts().collect();
        let mut wanted = Wanted::default();
        let Some(&readout) = readouts.get(rng.below(readouts.len() as u64 + 1) as usize) else {
            wanted.flags.push(1 + rng.below(64));
            return wanted;
        };
        let asked = rng.below(4) as usize + 14 * rng.below(2) as usize;
        let counters = told.counters(readout);
        wanted.counters = counters
            .into_iter()
            .enumerate()
            .take(asked.min(17))
            .collect();
        if rng.one_in(3) {
            wanted.scan_counter = Some(told.whole(readout, "scan_counter", 0));
        }
        let set = pages::flags_set(told.whole(readout, "flags", 0));
        let count = rng.below(3) as usize;
        wanted.flags.extend(set.into_iter().take(count));
        match rng.below(8) {
            0 => wanted.flags.push(1 + rng.below(64)),
            1 => wanted.counters.push((rng.below(17) as usize, rng.below(2))),
            2 => wanted.scan_counter = Some(rng.below(5)),
            _ => {}
        }
        wanted.counters.sort();
        wanted.counters.dedup_by_key(|asked| asked.0);
        wanted
    }

    fn is_met(&self, told: &Told, record: &Record) -> bool {
        let counters = told.counters(record);
        let flags = told.whole(record, "flags", 0);
        let scan_counter = told.whole(record, "scan_counter", 0);
        self.counters.iter().all(|&(i, asked)| counters[i] == asked)
            && self
                .scan_counter
                .map_or(true, |asked| scan_counter == asked)
            && self
                .flags
                .iter()
                .all(|&n| second_reader::flag_is_set(flags, n))
    }

    fn options(&self, rng: &mut Rng) -> Vec<String> {
        let mut options = Vec::new();
        let mut ask = |name: String, value: String| options.extend([name, value]);
        for &(i, value) in &self.counters {
            ask(counter_option(i), value.to_string());
        }
        if let Some(counter) = self.scan_counter {
            ask("--scan-counter".to_string(), counter.to_string());
        }
        for &flag in &self.flags {
            ask("--flag".to_string(), flag_word(rng, flag));
        }
        options
    }
}

fn counter_option(i: usize) -> String {
    format!("--{}", pages::counter_names()[i].replace('_', "-"))
}

/// A flag as a person may write it: its number, or its name in one of its forms.
fn flag_word(rng: &mut Rng, flag: u64) -> String {
    let name = pages::named_flags()
        .into_iter()
        .find(|named| named.0 == flag);
    match (name, rng.below(5)) {
        (None, _) | (_, 0) => flag.to_string(),
        (Some((_, name)), 1) => name,
        (Some((_, name)), 2) => name.to_uppercase(),
        (Some((_, name)), 3) => format!("acq_{name}"),
        (Some((_, name)), _) => format!("ACQ_{}", name.to_uppercase()),
    }
}

fn ask_find(told: &Told, rng: &mut Rng) {
    let wanted = Wanted::draw(told, rng);
    let (mut options, shown) = draw_shown(rng, told.records.len() as u64);
    options.extend(wanted.options(rng));
    let answer = told.find(shown, |record| wanted.is_met(told, record));
    ask_with(told, &["find", told.file], &options, &answer);
}

/// `index`, `normal` and `salvage`, each to a new file.
fn ask_outputs(told: &Told, scratch: &Scratch) {
    let output = scratch.at("output");
    let index = second_reader::index_bytes(told.rules, told.stream).map_or(0, |own| own.len());
    for (command, bytes) in [("index", index), ("normal", told.stream.len())] {
        let wanted = told.written(command, &output, bytes);
        compare(told, &[command, told.file, "-o", &output], &wanted);
        assert_eq!(std::fs::remove_file(&output).is_ok(), told.accepted());
    }
    let wanted = told.salvage(&output);
    compare(told, &["salvage", told.file, "-o", &output], &wanted);
    std::fs::remove_file(&output).expect("a salvage always writes");
}

/// `verify` with the stream's own index, and with wrong ones.
fn ask_verify(told: &Told, rng: &mut Rng, scratch: &Scratch) {
    let files = match told.accepted() {
        true => streams::given_files(told.rules, rng, told.stream),
        false => vec![],
    };
    let mut given: Vec<Vec<u8>> = files.into_iter().map(|file| file.bytes).collect();
    given.push(b"no index at all".to_vec());
    for bytes in given {
        let index = scratch.put("index", &bytes);
        compare(
            told,
            &["verify", told.file, &index],
            &told.verify(&index, &bytes),
        );
    }
}

const PARTS: [(&str, PartName); 7] = [
    ("name", PartName::Name),
    ("text", PartName::Text),
    ("attributes", PartName::Attributes),
    ("trajectory", PartName::Trajectory),
    ("channel", PartName::Samples),
    ("pixels", PartName::Pixels),
    ("waveform", PartName::Waveform),
];

/// The place of a part of a record, or of one of its channels; 16, then 17.
fn place(told: &Told, number: u64, part: PartName, channel: Option<u64>) -> Result<Part, Refused> {
    let record = told.record(number)?;
    if let Some(channel) = channel {
        return second_reader::channel(told.rules, told.stream, GivenIndex::NONE, number, channel);
    }
    let place = record
        .detail
        .part(told.rules, part)
        .ok_or(Refused::Other(17))?;
    Ok(Part {
        start: record.start + place.0 as u64,
        length: place.1 as u64,
    })
}

fn ask_extract(told: &Told, rng: &mut Rng, scratch: &Scratch, number: u64) {
    let (part, name) = rng.pick(&PARTS);
    let channel = (part == "channel" && rng.one_in(2)).then(|| rng.below(4));
    let output = scratch.at("output");
    let place = place(told, number, name, channel);
    let asked = Extracted {
        record: number,
        part,
        channel,
        output: &output,
        output_bytes: place.map_or(0, |place| place.length as usize),
        format: "raw",
    };
    let wanted = told.extract(&asked, place);
    let mut options = vec![number.to_string(), "--part".to_string(), part.to_string()];
    options.extend(channel.map(|channel| format!("--channel={channel}")));
    options.extend(["-o".to_string(), output.clone()]);
    ask_with(told, &["extract", told.file], &options, &wanted);
    assert_eq!(std::fs::remove_file(&output).is_ok(), place.is_ok());
}

/// All questions, with the drawn ones some few times.
fn ask_all(told: &Told, rng: &mut Rng, scratch: &Scratch) {
    let length = told.stream.len() as u64;
    let count = told.records.len() as u64;
    ask_verdicts(told);
    ask_outputs(told, scratch);
    ask_verify(told, rng, scratch);
    for _ in 0..2 {
        ask_list(told, rng);
        ask_find(told, rng);
        ask_at(told, rng.below(length + 1));
        ask_show(told, streams::record_number(rng, count));
        let number = streams::record_number(rng, count);
        ask_extract(told, rng, scratch, number);
    }
}

fn ask_kept(kept: &Kept, rules: Rules) {
    let scratch = Scratch::new();
    let file = scratch.put(kept.name, kept.bytes);
    let told = Told::new(rules, &file, kept.bytes);
    let mut rng = Rng::new(kept.bytes.len() as u64);
    let length = kept.bytes.len() as u64;
    ask_all(&told, &mut rng, &scratch);
    for number in 0..told.records.len() as u64 + 1 {
        ask_show(&told, number);
        ask_extract(&told, &mut rng, &scratch, number);
    }
    for byte in [0, 1, 2, length - 1, length, length + 1, u64::MAX] {
        ask_at(&told, byte);
    }
    for _ in 0..12 {
        ask_find(&told, &mut rng);
        ask_list(&told, &mut rng);
    }
}

#[test]
fn kept_streams_under_their_layout() {
    for kept in &KEPT {
        assert!(second_reader::check(kept.rules, kept.bytes).is_ok());
        ask_kept(kept, kept.rules);
    }
}

#[test]
fn kept_streams_under_the_other_layout_and_in_the_strict_profile() {
    for kept in &KEPT[..4] {
        ask_kept(kept, kept.rules.with_other_layout());
    }
    ask_kept(&KEPT[0], KEPT[0].rules.strict());
    ask_kept(&KEPT[2], KEPT[2].rules.strict());
}

#[test]
fn kept_streams_through_a_pipe() {
    let scratch = Scratch::new();
    for kept in &KEPT {
        let told = Told::new(kept.rules, "-", kept.bytes);
        ask_all(&told, &mut Rng::new(3), &scratch);
    }
}

/// Every byte of the headers of a stream's records, filler too.
#[test]
fn every_header_element_by_its_byte() {
    for kept in [&KEPT[0], &KEPT[2]] {
        let scratch = Scratch::new();
        let file = scratch.put(kept.name, kept.bytes);
        let told = Told::new(kept.rules, &file, kept.bytes);
        let mut seen = Vec::new();
        for record in &told.records {
            let kind = record.detail.kind();
            let header = kind.header_size(kept.rules) as u64;
            if !seen.contains(&kind) {
                // Each element of two bytes or more has an even byte.
                let bytes = (0..header).filter(|byte| byte % 2 == 0);
                bytes.for_each(|byte| ask_at(&told, record.start + 2 + byte));
                seen.push(kind);
            }
        }
    }
}

/// Where a tear is of interest: around each message's begin and inside it, and anywhere.
fn tears(told: &Told, rng: &mut Rng) -> Vec<usize> {
    let mut tears = Vec::new();
    for record in &told.records {
        let start = record.start as usize;
        let inside = start + rng.below(record.size) as usize;
        tears.extend([start, start + 1, start + 3, inside]);
    }
    tears.retain(|&tear| tear < told.stream.len());
    tears
}

#[test]
fn torn_streams() {
    let mut rng = Rng::new(7);
    for kept in &KEPT[..3] {
        let scratch = Scratch::new();
        let whole = Told::new(kept.rules, "", kept.bytes);
        for tear in tears(&whole, &mut rng) {
            let torn = &kept.bytes[..tear];
            let file = scratch.put("torn.mrd", torn);
            let told = Told::new(kept.rules, &file, torn);
            ask_verdicts(&told);
            ask_outputs(&told, &scratch);
        }
    }
}

#[test]
fn damaged_bytes() {
    let mut rng = Rng::new(8);
    for _ in 0..50 {
        let scratch = Scratch::new();
        let mut stream = ALL_KINDS.to_vec();
        for _ in 0..1 + rng.below(3) {
            let at = rng.below(stream.len() as u64) as usize;
            stream[at] ^= 1 << rng.below(8);
        }
        let file = scratch.put("damaged.mrd", &stream);
        let told = Told::new(rng.pick(&Rules::ALL), &file, &stream);
        ask_verdicts(&told);
        ask_find(&told, &mut rng);
        ask_show(&told, 3);
    }
}

#[test]
fn the_empty_file() {
    let scratch = Scratch::new();
    let file = scratch.put("empty.mrd", &[]);
    for rules in Rules::ALL {
        let told = Told::new(rules, &file, &[]);
        ask_all(&told, &mut Rng::new(1), &scratch);
    }
}

/// As many messages as a stream may have, and one more (19).
#[test]
fn a_million_messages() {
    let scratch = Scratch::new();
    let too_many = streams::too_many(true);
    let most = &too_many[6..];
    for stream in [most, &too_many] {
        let file = scratch.put("many.mrd", stream);
        let told = Told::new(Rules::PACKED, &file, stream);
        compare(&told, &["check", &file], &told.check());
        compare(&told, &["info", &file], &told.info());
        let last = Shown {
            from: 999_998,
            limit: 5,
        };
        let wanted = told.list(last, &[]);
        compare(
            &told,
            &["list", &file, "--from", "999998", "--limit", "5"],
            &wanted,
        );
        ask_show(&told, 999_999);
        ask_at(&told, 5_999_995);
        ask_outputs(&told, &scratch);
    }
}

/// The drawn streams of these numbers: well formed, damaged, and refused with each number.
fn ask_drawn(numbers: std::ops::Range<u64>) {
    let scratch = Scratch::new();
    for number in numbers {
        let mut rng = Rng::new(number);
        let rules = Rules::ALL[number as usize % 4];
        let (_, stream) = streams::drawn(rules, &mut rng, number, 3_000);
        let file = scratch.put("drawn.mrd", &stream);
        let asked_under = match rng.one_in(5) {
            true => rules.with_other_layout(),
            false => rules,
        };
        let told = Told::new(asked_under, &file, &stream);
        ask_all(&told, &mut rng, &scratch);
    }
}

#[test]
fn drawn_streams() {
    ask_drawn(1..140);
}

#[test]
fn more_drawn_streams() {
    ask_drawn(140..280);
}
