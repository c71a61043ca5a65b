//! How an output gets its place: a run that is ended at each system call which has to do with it, and file systems
//! that can't keep files without a name.

mod common;

use common::program::{changed_after, command, finished, send};
use common::seccomp::{decide, killed_at, works, Call, NO_NAMELESS_FILES};
use common::streams_kept::ALL_KINDS;
use common::{sparse, started, Ran, Scratch};
use second_reader::{Rules, Saved};
use std::fs;
use std::io::Write;
use std::process::{Child, Stdio};
use std::time::{Duration, Instant};

const NOTHING: [&str; 0] = [];

/// The calls by which an output is made, filled, kept on the disk and named.
const CALLS: [libc::c_long; 12] = [
    libc::SYS_fallocate,
    libc::SYS_ftruncate,
    libc::SYS_copy_file_range,
    libc::SYS_msync,
    libc::SYS_fsync,
    libc::SYS_fdatasync,
    libc::SYS_linkat,
    libc::SYS_renameat,
    libc::SYS_renameat2,
    libc::SYS_unlinkat,
    #[cfg(target_arch = "x86_64")]
    libc::SYS_rename,
    #[cfg(target_arch = "x86_64")]
    libc::SYS_unlink,
];

/// A torn recording and what is saved of it, so that input and output differ.
struct Torn {
    _given: Scratch,
    outputs: Scratch,
    file: String,
    saved: Vec<u8>,
}

impl Torn {
    fn new() -> Torn {
        let given = Scratch::new();
        let torn = &ALL_KINDS[..6_000];
        Torn {
            file: given.put("torn.mrd", torn),
            saved: Saved::of(Rules::PACKED, torn).stream,
            outputs: Scratch::new(),
            _given: given,
        }
    }

    fn start(&self, more: &[&str], decided: &[Call]) -> Child {
        let output = self.outputs.at("X");
        let call = [&["salvage", &self.file, "-o", &output], more].concat();
        let mut command = command(&call);
        decide(&mut command, decided);
        started(&mut command)
    }

    /// Removes what a run left, and gives its names.
    fn left(&self) -> Vec<String> {
        let names = self.outputs.names();
        for name in &names {
            fs::remove_file(self.outputs.at(name)).expect("a file");
        }
        names
    }
}

fn end(child: Child) -> Ran {
    finished(child.wait_with_output())
}

#[test]
fn killed_at_each_call() {
    if !works() {
        return;
    }
    let torn = Torn::new();
    let mut killed = 0;
    for call in CALLS {
        let ran = end(torn.start(&[], &[killed_at(call)]));
        let stands = fs::read(torn.outputs.at("X")).ok();
        assert!(
            stands.is_none() || stands.as_ref() == Some(&torn.saved),
            "call {call}: half an output"
        );
        assert!(
            stands.is_some() || ran.status != 0,
            "call {call}: no output, and all is well"
        );
        killed += i32::from(ran.status < 0);
        let wanted = if stands.is_some() { &["X"][..] } else { &[] };
        assert_eq!(torn.left(), wanted, "call {call}");
    }
    assert!(killed > 1, "no call that was decided on was made");
}

/// No system call puts a file without a name in another's place, so that there is one moment at which the new file
/// has a name of its own beside the old one; both are whole then.
#[test]
fn killed_at_each_call_with_an_old_file() {
    if !works() {
        return;
    }
    let torn = Torn::new();
    let mut killed = 0;
    for call in CALLS {
        torn.outputs.put("X", b"old");
        let child = torn.start(&["--force"], &[killed_at(call)]);
        let partial = format!(".X.{}.partial", child.id());
        let ran = end(child);
        let stands = torn.outputs.read("X");
        assert!(
            stands == b"old" || stands == torn.saved,
            "call {call}: half an output"
        );
        assert!(ran.status != 0 || stands == torn.saved, "call {call}");
        killed += i32::from(ran.status < 0);
        let names = torn.outputs.names();
        if names != ["X"] {
            assert_eq!(names, [&partial[..], "X"], "call {call}");
            assert!(ran.status < 0, "call {call}: {partial} is left behind");
            assert!(torn.outputs.read(&partial) == torn.saved && stands == b"old");
        }
        torn.left();
    }
    assert!(killed > 1, "no call that was decided on was made");
}

#[test]
fn without_nameless_files() {
    if !works() {
        return;
    }
    let torn = Torn::new();
    let ran = end(torn.start(&[], &[NO_NAMELESS_FILES]));
    assert_eq!(ran.status, 0, "{ran:?}");
    assert!(torn.outputs.read("X") == torn.saved);
    assert_eq!(torn.left(), ["X"]);
    torn.outputs.put("X", b"old");
    end(torn.start(&[], &[NO_NAMELESS_FILES])).assert_only_error("an old file without --force");
    assert_eq!(torn.outputs.read("X"), b"old");
    let ran = end(torn.start(&["--force"], &[NO_NAMELESS_FILES]));
    assert_eq!(ran.status, 0, "{ran:?}");
    assert!(torn.outputs.read("X") == torn.saved);
    assert_eq!(torn.left(), ["X"]);
}

/// The file is called `.X.PID.partial`, as a kill shows, and is never half an output.
#[test]
fn killed_without_nameless_files() {
    if !works() {
        return;
    }
    let torn = Torn::new();
    let mut partial_seen = false;
    for call in CALLS {
        let child = torn.start(&[], &[NO_NAMELESS_FILES, killed_at(call)]);
        let partial = format!(".X.{}.partial", child.id());
        end(child);
        let names = torn.outputs.names();
        if names.contains(&"X".to_string()) {
            assert!(
                torn.outputs.read("X") == torn.saved,
                "call {call}: half an output"
            );
        }
        let known = |name: &String| *name == partial || name == "X";
        assert!(names.iter().all(known), "call {call}: {names:?}");
        partial_seen |= names.contains(&partial);
        torn.left();
    }
    assert!(partial_seen, "no run had a file of that name");
}

/// A call that fails, at each of the calls in turn: what was begun is removed.
#[test]
fn an_error_removes_what_was_begun() {
    if !works() {
        return;
    }
    let torn = Torn::new();
    for call in [libc::SYS_fsync, libc::SYS_linkat, libc::SYS_fallocate] {
        for nameless in [&[][..], &[NO_NAMELESS_FILES]] {
            let mut failing = killed_at(call);
            failing.instead = common::seccomp::Instead::Error(libc::ENOSPC);
            let ran = end(torn.start(&[], &[nameless, &[failing]].concat()));
            match ran.status {
                // It may have gone another way.
                0 => assert!(torn.outputs.read("X") == torn.saved, "call {call}"),
                _ => {
                    ran.assert_only_error(&format!("call {call}"));
                    assert_eq!(torn.outputs.names(), NOTHING, "call {call}");
                }
            }
            torn.left();
        }
    }
}

/// A recording of some 30 MB, to be written where there are only named files.
struct Long {
    _given: Scratch,
    outputs: Scratch,
    file: String,
    length: u64,
}

impl Long {
    fn new() -> Long {
        let given = Scratch::new();
        let file = given.at("scan.mrd");
        let (_, length) = sparse::write(&file, 30, 1_000_000, &sparse::CLOSE);
        Long {
            _given: given,
            outputs: Scratch::new(),
            file,
            length,
        }
    }

    fn start(&self) -> Child {
        let mut command = command(&["normal", &self.file, "-o", &self.outputs.at("X")]);
        decide(&mut command, &[NO_NAMELESS_FILES]);
        started(&mut command)
    }

    /// The output is whole, or nothing is there and that was said; no output stays for the next run.
    fn assert_whole_or_nothing(&self, ran: &Ran, when: &str) {
        let names = self.outputs.names();
        let output = self.outputs.at("X");
        let length = fs::metadata(&output).map(|file| file.len()).ok();
        let whole = names == ["X"] && length == Some(self.length);
        assert!(whole || names == NOTHING, "{when}: {names:?}");
        assert!(whole || ran.status != 0, "{when}: {ran:?}");
        let _ = fs::remove_file(output);
    }
}

/// A signal that asks for an end, at many moments of a run that has a named file.
#[test]
fn ended_without_nameless_files() {
    if !works() {
        return;
    }
    let long = Long::new();
    let begin = Instant::now();
    assert_eq!(end(long.start()).status, 0);
    let time = begin.elapsed();
    let _ = fs::remove_file(long.outputs.at("X"));
    for signal in [libc::SIGINT, libc::SIGTERM, libc::SIGHUP] {
        for moment in 0..8 {
            let child = long.start();
            std::thread::sleep(time * moment / 7);
            send(&child, signal);
            let when = format!("signal {signal}, moment {moment}");
            long.assert_whole_or_nothing(&end(child), &when);
        }
    }
}

/// An input that gets shorter ends the work as it is: the named file goes all the same.
#[test]
fn a_shorter_input_without_nameless_files() {
    if !works() {
        return;
    }
    let mut noticed = 0;
    for moment in 0..10 {
        let long = Long::new();
        let ran = changed_after(long.start(), Duration::from_millis(3 * moment), || {
            let opened = fs::OpenOptions::new().write(true).open(&long.file);
            opened
                .and_then(|file| file.set_len(1_000))
                .expect("a length");
        });
        noticed += i32::from(ran.status == 2);
        long.assert_whole_or_nothing(&ran, &format!("moment {moment}"));
    }
    assert!(noticed > 0, "no change came in time");
}

/// What comes through a pipe is kept there too, and nothing of it stays.
#[test]
fn a_pipe_without_nameless_files() {
    if !works() {
        return;
    }
    let temporary = Scratch::new();
    let mut check = command(&["check", "-"]);
    check.env("TMPDIR", temporary.path()).stdin(Stdio::piped());
    decide(&mut check, &[NO_NAMELESS_FILES]);
    let mut child = started(&mut check);
    let mut pipe = child.stdin.take().expect("a pipe");
    pipe.write_all(ALL_KINDS).expect("a pipe that is read");
    std::thread::sleep(Duration::from_millis(50));
    drop(pipe);
    let ran = end(child);
    assert_eq!(ran.status, 0, "{ran:?}");
    assert_eq!(temporary.names(), NOTHING);
}
