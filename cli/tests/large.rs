//! A recording of more than 2^32 bytes, and the memory that the program takes: every run here may have 64 MB of data.
//! The recording is sparse, but what `normal` and `salvage` write is not, and takes some 5 GB of the folder for
//! temporary files at a time. Not run with the others:
//!
//!     cargo test --release --test large -- --ignored --test-threads 1

mod common;

use common::asked::{call, compare_ran};
use common::expected::{Answer, Extracted, Shown, Told};
use common::program::{finished, path};
use common::streams_kept::ALL_KINDS;
use common::{sparse, Ran, Scratch};
use memmap2::Mmap;
use second_reader::{Part, Record, Rules};
use std::fs::{self, File, OpenOptions};
use std::process::{Command, Stdio};

/// Where the image's statement of its attributes' length lies, which is 0 here: the normal form puts the length there.
const STATED_LENGTH: std::ops::Range<usize> = 4_943..4_947;

/// What follows the long texts: all but the name and the header text of the recording of all kinds.
fn after_the_texts() -> Vec<u8> {
    let mut stream = ALL_KINDS.to_vec();
    stream[STATED_LENGTH].fill(0);
    stream.split_off(1_382)
}

/// A sparse recording, and its bytes as if they were in memory.
struct Long {
    given: Scratch,
    file: String,
    bytes: Mmap,
}

impl Long {
    fn new(texts: u64) -> Long {
        let given = Scratch::new();
        let file = given.at("scan.mrd");
        sparse::write(&file, texts, sparse::LONGEST_TEXT, &after_the_texts());
        let bytes = map(&file);
        Long { given, file, bytes }
    }

    fn past_four_gigabytes() -> Long {
        let long = Long::new(17);
        assert!(long.bytes.len() > (1 << 32) + (1 << 28));
        long
    }

    fn told<'a>(&'a self, file: &'a str) -> Told<'a> {
        Told::new(Rules::PACKED, file, &self.bytes)
    }
}

/// The bytes of a file. The tests alone write to it, and not while it is mapped so.
fn map(file: &str) -> Mmap {
    let file = File::open(file).expect("the file");
    // SAFETY: nobody else changes files of a scratch folder.
    unsafe { Mmap::map(&file).expect("a mapping") }
}

/// The program with at most 64 MB of data.
fn in_little_memory(arguments: &[String]) -> Command {
    let mut shell = Command::new("sh");
    shell.args(["-c", "ulimit -d 65536 && exec \"$0\" \"$@\""]);
    shell.arg(path()).args(arguments);
    shell
}

fn run_in_little_memory(arguments: &[String]) -> Ran {
    finished(in_little_memory(arguments).stdin(Stdio::null()).output())
}

/// Asks about the file itself, or about what comes through a pipe where the file is `-`.
fn ask(long: &Long, told: &Told, given: &[&str], wanted: &Answer) {
    let call = call(told, given);
    let ran = match told.file {
        "-" => piped(&long.file, &call),
        _ => run_in_little_memory(&call),
    };
    compare_ran(&ran, &call, wanted);
}

/// The program at the end of a pipe that `cat` fills.
fn piped(file: &str, arguments: &[String]) -> Ran {
    let mut cat = Command::new("cat")
        .arg(file)
        .stdout(Stdio::piped())
        .spawn()
        .expect("cat");
    let pipe = cat.stdout.take().expect("a pipe");
    let ran = finished(in_little_memory(arguments).stdin(pipe).output());
    cat.wait().expect("an end");
    ran
}

/// The questions that are answered in words, about the records after the long texts.
fn ask_questions(long: &Long, file: &str) {
    let told = long.told(file);
    let ask = |given: &[&str], wanted: &Answer| ask(long, &told, given, wanted);
    ask(&["check", file], &told.check());
    ask(&["info", file], &told.info());
    ask(&["gaps", file], &told.gaps());
    ask(&["list", file], &told.list(Shown::ALL, &[]));
    let counter = |record: &Record| told.whole(record, "scan_counter", 0);
    let found = told.find(Shown::ALL, |record| counter(record) == 2);
    ask(&["find", file, "--scan-counter", "2"], &found);
    let past_texts = told
        .records
        .iter()
        .filter(|record| record.size < 1 << 20)
        .skip(1);
    for record in past_texts {
        let number = record.number;
        ask(&["show", file, &number.to_string()], &told.show(number));
        for byte in [
            record.start,
            record.start + 3,
            record.start + record.size - 1,
        ] {
            ask(&["at", file, &byte.to_string()], &told.at(byte));
        }
    }
    let end = told.stream.len() as u64;
    for byte in [(1 << 32) - 1, 1 << 32, end] {
        ask(&["at", file, &byte.to_string()], &told.at(byte));
    }
}

#[test]
#[ignore = "takes some time"]
fn questions_past_four_gigabytes() {
    let long = Long::past_four_gigabytes();
    ask_questions(&long, &long.file);
}

#[test]
#[ignore = "takes some time and 5 GB of disk"]
fn a_pipe_of_more_than_four_gigabytes() {
    let long = Long::past_four_gigabytes();
    let told = long.told("-");
    ask(&long, &told, &["list", "-"], &told.list(Shown::ALL, &[]));
}

#[test]
#[ignore = "takes some time"]
fn index_and_verify() {
    let long = Long::past_four_gigabytes();
    let (told, output) = (long.told(&long.file), long.given.at("index"));
    let own = second_reader::index_bytes(Rules::PACKED, &long.bytes).expect("accepted");
    let written = told.written("index", &output, own.len());
    ask(
        &long,
        &told,
        &["index", &long.file, "-o", &output],
        &written,
    );
    assert!(long.given.read("index") == own);
    ask(
        &long,
        &told,
        &["verify", &long.file, &output],
        &told.verify(&output, &own),
    );
    // The last record's start, beyond 2^32, with its highest byte but one changed.
    let mut wrong = own.clone();
    let at = own.len() - 7 - 17 + 3 + 4;
    wrong[at] ^= 1;
    let index = long.given.put("wrong", &wrong);
    ask(
        &long,
        &told,
        &["verify", &long.file, &index],
        &told.verify(&index, &wrong),
    );
}

/// The pixels of the image, and the whole of the last long text.
#[test]
#[ignore = "takes some time"]
fn extract() {
    let long = Long::past_four_gigabytes();
    let told = long.told(&long.file);
    let (image, text) = (told.records[22], told.records[17]);
    let pixels = Part {
        start: image.start + 342,
        length: 1_024,
    };
    let whole_text = Part {
        start: text.start + 6,
        length: sparse::LONGEST_TEXT,
    };
    for (record, part, place) in [(22, "pixels", pixels), (17, "text", whole_text)] {
        let output = long.given.at(part);
        let asked = Extracted {
            record,
            part,
            channel: None,
            output: &output,
            output_bytes: place.length as usize,
            format: "raw",
        };
        let given = [
            "extract",
            &long.file,
            &record.to_string(),
            "--part",
            part,
            "-o",
            &output,
        ];
        ask(&long, &told, &given, &told.extract(&asked, Ok(place)));
        let wanted = &long.bytes[place.start as usize..][..place.length as usize];
        assert!(map(&output)[..] == *wanted, "{part}");
    }
}

#[test]
#[ignore = "takes some time and 5 GB of disk"]
fn normal() {
    let long = Long::past_four_gigabytes();
    let (told, output) = (long.told(&long.file), long.given.at("normal.mrd"));
    let length = long.bytes.len();
    let written = told.written("normal", &output, length);
    ask(
        &long,
        &told,
        &["normal", &long.file, "-o", &output],
        &written,
    );
    let normal = map(&output);
    let stated = length - ALL_KINDS.len() + STATED_LENGTH.start
        ..length - ALL_KINDS.len() + STATED_LENGTH.end;
    assert!(normal[..stated.start] == long.bytes[..stated.start]);
    assert_eq!(normal[stated.clone()], 134_u32.to_le_bytes());
    assert!(normal[stated.end..] == long.bytes[stated.end..]);
}

/// The recording without its close, and with half a waveform before that.
#[test]
#[ignore = "takes some time and 5 GB of disk"]
fn salvage() {
    let given = Scratch::new();
    let (file, output) = (given.at("scan.mrd"), given.at("saved.mrd"));
    let (_, length) = sparse::write(&file, 17, sparse::LONGEST_TEXT, &after_the_texts());
    let torn = length - 100;
    let opened = OpenOptions::new()
        .write(true)
        .open(&file)
        .expect("the file");
    opened.set_len(torn).expect("a length");
    let call = ["salvage", &file, "-o", &output].map(str::to_string);
    let ran = run_in_little_memory(&call);
    assert_eq!(ran.status, 0, "{ran:?}");
    let (bytes, saved) = (map(&file), map(&output));
    // The waveform has 194 bytes, the close 2: of the first 96 are left.
    let kept = torn as usize - 96;
    assert_eq!(saved.len(), kept + 2);
    assert!(saved[..kept] == bytes[..kept]);
    assert_eq!(saved[kept..], sparse::CLOSE);
}

/// Each command on a gigabyte that comes through a pipe.
#[test]
#[ignore = "takes some time and a gigabyte of disk for each of some thirty runs"]
fn through_a_pipe() {
    let long = Long::new(4);
    let told = long.told("-");
    let own = second_reader::index_bytes(Rules::PACKED, &long.bytes).expect("accepted");
    let index = long.given.put("index", &own);
    ask_questions(&long, "-");
    ask(
        &long,
        &told,
        &["verify", "-", &index],
        &told.verify(&index, &own),
    );
    let output = long.given.at("X");
    let outputs = [
        ("index", told.written("index", &output, own.len())),
        ("normal", told.written("normal", &output, long.bytes.len())),
        ("salvage", told.salvage(&output)),
    ];
    for (command, wanted) in outputs {
        ask(&long, &told, &[command, "-", "-o", &output], &wanted);
        fs::remove_file(&output).expect("the output");
    }
}
