//! The words that a person reads, without `--json`: what matters stands in them, and nothing of a text that would
//! change the terminal.

mod common;

use common::expected::Told;
use common::members::kind_name;
use common::streams_kept::ALL_KINDS;
use common::{json, pages, run, Scratch};
use second_reader::headers::{ACQUISITION, IMAGE, WAVEFORM};
use second_reader::{Kind, Rules};
use std::ffi::OsStr;
use std::os::unix::ffi::OsStrExt;
use std::path::PathBuf;

/// `scan.mrd` and, without its last 100 bytes, `torn.mrd`.
fn recordings() -> (Scratch, String, String) {
    let folder = Scratch::new();
    let scan = folder.put("scan.mrd", ALL_KINDS);
    let torn = folder.put("torn.mrd", &ALL_KINDS[..ALL_KINDS.len() - 100]);
    (folder, scan, torn)
}

/// The words of a call that ends with this status, in one line, numbers without their commas.
fn words(arguments: &[&str], status: i32) -> String {
    let ran = run(arguments);
    assert_eq!(ran.status, status, "{arguments:?}: {ran:?}");
    assert_eq!(ran.complaint(), "", "{arguments:?}");
    one_line(&ran.words())
}

fn one_line(text: &str) -> String {
    let words: Vec<&str> = text.split_whitespace().collect();
    let characters: Vec<char> = words.join(" ").chars().collect();
    let digit = |i: usize| characters.get(i).is_some_and(char::is_ascii_digit);
    let grouping = |i: usize| characters[i] == ',' && i > 0 && digit(i - 1) && digit(i + 1);
    let kept = (0..characters.len()).filter(|&i| !grouping(i));
    kept.map(|i| characters[i]).collect()
}

/// All of these stand in the words, none of them as a part of a longer word.
fn assert_says(words: &str, facts: &[&str]) {
    let inside = |c: char| c.is_alphanumeric() || c == '_';
    for fact in facts {
        let stands = words.match_indices(fact).any(|(at, _)| {
            let before = words[..at].chars().next_back();
            let after = words[at + fact.len()..].chars().next();
            !before.is_some_and(inside) && !after.is_some_and(inside)
        });
        assert!(stands, "no {fact:?} in: {words}");
    }
}

/// The refusal of `torn.mrd`: within its waveform.
fn assert_says_torn(words: &str) {
    assert_says(words, &["11", "7", "6113", &one_line(&pages::remedy(11))]);
}

#[test]
fn check() {
    let (_folder, scan, torn) = recordings();
    assert_says(&words(&["check", &scan], 0), &[&scan, "accepted", "9"]);
    let refused = words(&["check", &torn], 1);
    assert_says(&refused, &[&torn, "refused"]);
    assert_says_torn(&refused);
}

#[test]
fn check_and_info_name_the_other_layout() {
    let folder = Scratch::new();
    let aligned = include_bytes!("../../samples/aligned_waveforms.mrd");
    let file = folder.put("aligned.mrd", aligned);
    for command in ["check", "info"] {
        let said = words(&[command, &file], 1);
        assert_says(&said, &["2", "390", "aligned"]);
    }
    let (_folder, _, torn) = recordings();
    let said = words(&["check", &torn], 1);
    assert!(
        !said.contains("aligned"),
        "neither layout accepts it: {said}"
    );
}

#[test]
fn info() {
    let (_folder, scan, torn) = recordings();
    let said = words(&["info", &scan], 0);
    assert_says(
        &said,
        &[
            "accepted",
            "9",
            "281",
            "first_in_slice",
            "last_in_slice",
            "16",
        ],
    );
    assert_says(&said, &["23187639", "23187671", "kspace_encode_step_1"]);
    for kind in [
        Kind::Acquisition,
        Kind::Image,
        Kind::Waveform,
        Kind::HeaderText,
    ] {
        assert_says(&said, &[kind_name(kind)]);
    }
    assert!(said.contains("mask"), "no warning of the mask: {said}");
    let said = words(&["info", &torn], 1);
    assert_says_torn(&said);
    assert_says(&said, &["281", "acquisition"]);
}

#[test]
fn list() {
    let (_folder, scan, torn) = recordings();
    let told = Told::new(Rules::PACKED, &scan, ALL_KINDS);
    let ran = run(&["list", &scan]);
    let lines: Vec<String> = ran.words().lines().map(one_line).collect();
    for record in &told.records {
        let kind = kind_name(record.detail.kind());
        let facts = [record.number, record.start, record.size].map(|number| number.to_string());
        let named =
            |line: &&String| line.contains(kind) && line.split(' ').any(|word| word == facts[0]);
        let line = lines.iter().find(named).expect("a line for each record");
        assert_says(line, &[&facts[1], &facts[2]]);
    }
    let said = words(&["list", &torn], 1);
    assert_says(&said, &["4747", "1366"]);
    assert_says_torn(&said);
}

#[test]
fn show_every_header_element() {
    let (_folder, scan, _) = recordings();
    for (record, table) in [("3", &ACQUISITION), ("6", &IMAGE), ("7", &WAVEFORM)] {
        let said = words(&["show", &scan, record], 0);
        // Counters have names of their own.
        let named = table
            .entries
            .iter()
            .filter(|entry| entry.name != "counters");
        for entry in named {
            assert!(
                said.contains(entry.name),
                "record {record}: no {}",
                entry.name
            );
        }
    }
}

#[test]
fn show_a_readout() {
    let (_folder, scan, _) = recordings();
    let readout = words(&["show", &scan, "3"], 0);
    for counter in pages::counter_names() {
        assert_says(&readout, &[&counter]);
    }
    assert_says(
        &readout,
        &["acquisition", "1417", "1110", "first_in_slice", "23187639"],
    );
    assert_says(
        &readout,
        &["trajectory", "1759", "2015", "2271", "user_7", "-1"],
    );
}

#[test]
fn show_texts() {
    let (_folder, scan, torn) = recordings();
    assert_says(
        &words(&["show", &scan, "0"], 0),
        &["configuration-name", "default.xml"],
    );
    let header = "<encodedSpace><matrixSize><x>32</x><y>3</y><z>1</z></matrixSize></encodedSpace>";
    assert!(words(&["show", &scan, "1"], 0).contains(header));
    assert!(words(&["show", &scan, "6"], 0).contains("<value>Image</value>"));
    let no_record = words(&["show", &scan, "9"], 1);
    assert_says(&no_record, &["16", &one_line(&pages::remedy(16))]);
    assert_says_torn(&words(&["show", &torn, "3"], 1));
}

#[test]
fn find() {
    let (_folder, scan, torn) = recordings();
    let found = words(&["find", &scan, "--flag", "first_in_slice"], 0);
    assert_says(&found, &["3", "1417", "first_in_slice"]);
    let nothing = words(&["find", &scan, "--slice", "5"], 1);
    assert!(!nothing.contains("1417"), "{nothing}");
    assert_says_torn(&words(&["find", &torn, "--slice", "0"], 1));
}

/// The recording without its second readout.
fn with_a_gap() -> Vec<u8> {
    [&ALL_KINDS[..2_527], &ALL_KINDS[3_637..]].concat()
}

#[test]
fn gaps() {
    let (folder, scan, torn) = recordings();
    words(&["gaps", &scan], 0);
    let missing = folder.put("missing.mrd", &with_a_gap());
    assert_says(
        &words(&["gaps", &missing], 1),
        &["gap", "3", "4", "0", "2", "1"],
    );
    assert_says_torn(&words(&["gaps", &torn], 1));
}

#[test]
fn at() {
    let (_folder, scan, torn) = recordings();
    let scan_counter = words(&["at", &scan, "2543"], 0);
    assert_says(
        &scan_counter,
        &["4", "acquisition", "header", "scan_counter", "1"],
    );
    let sample = words(&["at", &scan, "3400"], 0);
    assert_says(&sample, &["4", "channel", "1", "3381"]);
    let past = words(&["at", &scan, "6309"], 1);
    assert_says(&past, &["16", &one_line(&pages::remedy(16))]);
    assert_says_torn(&words(&["at", &torn, "0"], 1));
}

#[test]
fn salvage() {
    let (folder, _, torn) = recordings();
    let said = words(&["salvage", &torn, "-o", &folder.at("saved.mrd")], 0);
    assert_says(&said, &["7", "96", "11", "6113"]);
    assert!(said.contains("close"), "nothing of the added close: {said}");
}

/// A stream whose name, texts and attributes hold what a terminal would obey, in bytes and in UTF-8.
fn hostile() -> Vec<u8> {
    let evil = b"\x1b[31mred\x07\x9b2J\xc2\x9b2J\0\x7f\r\x08\xff end";
    let name: Vec<u8> = evil.iter().copied().filter(|&byte| byte != 0).collect();
    let mut stream = vec![1, 0];
    stream.extend(&name);
    stream.resize(1_026, 0);
    for kind in [Kind::HeaderText, Kind::Text] {
        stream.extend(kind.id().to_le_bytes());
        stream.extend((evil.len() as u32).to_le_bytes());
        stream.extend(evil);
    }
    stream.extend(&ALL_KINDS[1_417..2_527]);
    let mut image = ALL_KINDS[4_747..6_113].to_vec();
    image[208..][..evil.len()].copy_from_slice(evil);
    stream.extend(image);
    stream.extend([4, 0]);
    stream
}

fn assert_harmless(words: &str, call: &[&str]) {
    let harmful = |c: char| c.is_control() && !matches!(c, '\n' | '\t');
    let met: Vec<char> = words.chars().filter(|&c| harmful(c)).collect();
    assert!(met.is_empty(), "{call:?} prints {met:?}");
}

#[test]
fn control_bytes_never_reach_the_terminal() {
    let folder = Scratch::new();
    let file = folder.put("hostile.mrd", &hostile());
    for record in ["0", "1", "2", "4"] {
        let ran = run(&["show", &file, record]);
        assert_eq!(ran.status, 0, "{ran:?}");
        assert!(
            ran.words().contains("red") && ran.words().contains("end"),
            "{}",
            ran.words()
        );
        assert_harmless(&ran.words(), &["show", record]);
    }
    for call in [
        ["list", &file],
        ["info", &file],
        ["find", &file],
        ["check", &file],
    ] {
        let ran = run(&call);
        assert_eq!(ran.status, 0, "{ran:?}");
        assert_harmless(&ran.words(), &call);
    }
}

/// A file of that name in a folder, with the recording of all kinds.
fn put_named(folder: &Scratch, name: &[u8]) -> PathBuf {
    let path = folder.path().join(OsStr::from_bytes(name));
    std::fs::write(&path, ALL_KINDS).expect("a file of that name");
    path
}

#[test]
fn odd_file_names() {
    let folder = Scratch::new();
    let names: [&[u8]; 5] = [
        b"a b'c\"d$e.mrd",
        b"--json",
        b"\xc3\xa9\n\t.mrd",
        b"n\xff\xfe.mrd",
        b"\x1b[31m.mrd",
    ];
    for name in names {
        let path = put_named(&folder, name);
        let ran = run(&[OsStr::new("check"), OsStr::new("--json"), path.as_os_str()]);
        assert_eq!(ran.status, 0, "{path:?}: {ran:?}");
        let told = &json::objects(&ran.out)[0];
        assert_eq!(told["file"], *path.to_string_lossy(), "{path:?}");
        let ran = run(&[OsStr::new("list"), path.as_os_str()]);
        assert_eq!(ran.status, 0, "{path:?}: {ran:?}");
    }
}

/// A name comes from whoever made the file, as a text does.
#[test]
fn control_bytes_of_a_file_name() {
    let folder = Scratch::new();
    let path = put_named(&folder, b"\x1b[31m\xc2\x9b2J.mrd");
    let missing = folder.path().join("\u{1b}[31m-missing.mrd");
    for command in ["check", "list", "info", "gaps"] {
        let ran = run(&[OsStr::new(command), path.as_os_str()]);
        assert_eq!(ran.status, 0, "{ran:?}");
        assert_harmless(&ran.words(), &[command]);
        let ran = run(&[OsStr::new(command), missing.as_os_str()]);
        ran.assert_only_error(command);
        assert_harmless(&ran.complaint(), &[command, "of a missing file"]);
    }
}
