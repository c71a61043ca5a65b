//! What comes in between while the program works: its file changes, or it is ended. The first is said, with status 2;
//! after either the output is whole, or nothing is there.

mod common;

use common::program::{changed_after, command, finished, send};
use common::{json, pipes, run, sparse, started, Ran, Scratch};
use second_reader::Rules;
use std::fs::{self, File, OpenOptions};
use std::os::unix::fs::FileExt;
use std::time::{Duration, Instant};

const NOTHING: [&str; 0] = [];

/// Some 20,000 texts, more than a pipe holds the listing of, with a long text at the end.
fn long_recording() -> Vec<u8> {
    let mut stream = vec![3, 0, 0, 0, 0, 0];
    stream.extend([5, 0, 1, 0, 0, 0, b'x'].repeat(20_000));
    stream.extend([5, 0]);
    stream.extend(1_000_000_u32.to_le_bytes());
    stream.resize(stream.len() + 1_000_000, b'y');
    stream.extend(sparse::CLOSE);
    stream
}

/// Runs until it stands still at a full pipe, changes the file, and lets it go on.
fn changed_on_the_way(call: &[&str], change: impl Fn()) -> Ran {
    let mut child = started(&mut command(call));
    pipes::wait_until_blocked(&mut child);
    change();
    finished(child.wait_with_output())
}

/// A call on the long recording that prints more than a pipe holds, and its output where it writes one.
type LongCall<'a> = (Vec<&'a str>, Option<&'a [u8]>);

fn long_calls<'a>(file: &'a str, stream: &'a [u8]) -> Vec<LongCall<'a>> {
    let text = &stream[stream.len() - 1_000_002..][..1_000_000];
    vec![
        (vec!["list", file], None),
        (vec!["normal", file, "-o", "-"], Some(stream)),
        (vec!["salvage", file, "-o", "-"], Some(stream)),
        (vec!["extract", file, "20001", "--part", "text"], Some(text)),
        (vec!["list", file, "--json"], None),
    ]
}

/// The change was said. Only an output that was made before its first byte went out may be whole instead.
fn assert_changed(ran: &Ran, (call, output): &LongCall) {
    if ran.status == 0 && output.is_some() {
        assert!(Some(&ran.out[..]) == *output, "{call:?}: another output");
        return;
    }
    assert_eq!(ran.status, 2, "{call:?}: {}", ran.complaint());
    let said = ran.complaint();
    let words = ["changed", "shorter"];
    assert!(
        words.iter().any(|word| said.contains(word)),
        "{call:?}: {said}"
    );
    if call.contains(&"--json") {
        let objects = json::objects(&ran.out);
        let last = objects.last().expect("an object");
        assert!(
            last["error"].is_string(),
            "{call:?}: the last object is {last}"
        );
    }
}

/// Each long call on a file that changes so while it is read.
fn change_on_the_way(change: impl Fn(File)) {
    let given = Scratch::new();
    let (file, stream) = (given.at("scan.mrd"), long_recording());
    for call in long_calls(&file, &stream) {
        given.put("scan.mrd", &stream);
        let ran = changed_on_the_way(&call.0, || {
            let opened = OpenOptions::new().write(true).open(&file);
            change(opened.expect("the file"));
        });
        assert_changed(&ran, &call);
    }
}

#[test]
fn a_file_that_grows() {
    change_on_the_way(|file| append(&file));
}

fn append(file: &File) {
    let length = file.metadata().expect("a file").len();
    file.write_all_at(b"more", length).expect("a write");
}

/// The same bytes as before, but who can tell.
#[test]
fn a_file_that_is_written_to() {
    change_on_the_way(|file| file.write_all_at(b"x", 12).expect("a write"));
}

#[test]
fn a_file_that_gets_shorter() {
    change_on_the_way(|file| file.set_len(50_000).expect("a length"));
}

#[test]
fn a_file_that_is_emptied() {
    change_on_the_way(|file| file.set_len(0).expect("a length"));
}

/// A recording of some 50 MB that takes no room, and what the commands make of it.
struct Long {
    given: Scratch,
    file: String,
}

impl Long {
    fn new() -> Long {
        let given = Scratch::new();
        let file = given.at("scan.mrd");
        sparse::write(&file, 50, 1_000_000, &sparse::CLOSE);
        Long { given, file }
    }

    /// The whole output of a command: a stream in normal form is all its own.
    fn whole(&self, name: &str) -> Vec<u8> {
        let stream = self.given.read("scan.mrd");
        match name {
            "index" => second_reader::index_bytes(Rules::PACKED, &stream).expect("accepted"),
            _ => stream,
        }
    }
}

/// How long a whole run takes.
fn time_of(call: &[&str], output: &str) -> Duration {
    let begin = Instant::now();
    assert_eq!(run(call).status, 0, "{call:?}");
    fs::remove_file(output).expect("the output");
    begin.elapsed()
}

/// Sends a signal at many moments of a run: afterwards the output is whole, or nothing is there. Gives how often the
/// run was ended by it.
fn end_at_many_moments(long: &Long, name: &str, signal: i32) -> u32 {
    let outputs = Scratch::new();
    let output = outputs.at("X");
    let call = [name, &long.file, "-o", &output];
    let whole = long.whole(name);
    let time = time_of(&call, &output);
    let mut ended = 0;
    for moment in 0..12 {
        let child = started(&mut command(&call));
        std::thread::sleep(time * moment / 11);
        send(&child, signal);
        let ran = finished(child.wait_with_output());
        ended += u32::from(ran.status != 0);
        let names = outputs.names();
        if names != NOTHING {
            assert_eq!(names, ["X"], "{name}, moment {moment}");
            assert!(
                outputs.read("X") == whole,
                "{name}, moment {moment}: half an output"
            );
            fs::remove_file(&output).expect("the output");
        } else {
            assert_ne!(
                ran.status, 0,
                "{name}, moment {moment}: no output, and all is well"
            );
        }
    }
    ended
}

#[test]
fn killed_at_any_moment() {
    let long = Long::new();
    for name in ["normal", "salvage", "index"] {
        let ended = end_at_many_moments(&long, name, libc::SIGKILL);
        assert!(ended > 1, "{name} was never killed in time");
    }
}

#[test]
fn terminated_at_any_moment() {
    let long = Long::new();
    for name in ["normal", "salvage", "index"] {
        let ended = end_at_many_moments(&long, name, libc::SIGTERM);
        assert!(ended > 1, "{name} was never ended in time");
    }
}

/// A run that is ended leaves the old file as it was.
#[test]
fn killed_while_an_old_file_stands_there() {
    let long = Long::new();
    let outputs = Scratch::new();
    let output = outputs.at("X");
    let call = ["normal", &long.file, "-o", &output];
    let (whole, time) = (long.whole("normal"), time_of(&call, &output));
    let forced = [&call[..], &["--force"]].concat();
    for moment in 0..8 {
        outputs.put("X", b"old");
        let child = started(&mut command(&forced));
        std::thread::sleep(time * moment / 7);
        send(&child, libc::SIGKILL);
        finished(child.wait_with_output());
        assert_eq!(outputs.names(), ["X"]);
        let stands = outputs.read("X");
        assert!(
            stands == b"old" || stands == whole,
            "moment {moment}: half an output"
        );
    }
}

/// Changes the input of a run after a while. Gives how it ended, and its output.
fn change_at(long: &Long, pause: Duration, change: impl Fn(&File)) -> (Ran, Option<Vec<u8>>) {
    let outputs = Scratch::new();
    let child = started(&mut command(&[
        "normal",
        &long.file,
        "-o",
        &outputs.at("X"),
    ]));
    let ran = changed_after(child, pause, || {
        let opened = OpenOptions::new().write(true).open(&long.file);
        change(&opened.expect("the file"));
    });
    let names = outputs.names();
    assert!(names == NOTHING || names == ["X"], "{names:?}");
    (ran, fs::read(outputs.at("X")).ok())
}

/// No output is put in place of an input that changed, unless all of it was read before.
fn assert_nothing_of_a_changed_file(change: impl Fn(&File)) {
    let mut noticed = 0;
    for moment in 0..12 {
        let long = Long::new();
        let whole = long.whole("normal");
        let (ran, output) = change_at(&long, Duration::from_millis(3 * moment), &change);
        if ran.status == 0 {
            assert!(output == Some(whole), "moment {moment}: another output");
            continue;
        }
        assert!(output.is_none(), "moment {moment}: {ran:?}");
        // Where the change came before the file was opened, the changed stream is refused as any other.
        if ran.status != 1 {
            ran.assert_only_error("an input that changes");
            noticed += 1;
        }
    }
    assert!(noticed > 0, "no change came in time");
}

#[test]
fn an_input_that_grows_while_an_output_is_written() {
    assert_nothing_of_a_changed_file(append);
}

#[test]
fn an_input_that_gets_shorter_while_an_output_is_written() {
    assert_nothing_of_a_changed_file(|file| file.set_len(30_000_000).expect("a length"));
}
