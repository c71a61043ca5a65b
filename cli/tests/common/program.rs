//! Starts the program. The one under test is that of this build, or the one that `COTTERLEAF_PROGRAM` names.

use second_reader::{Layout, Profile, Rules};
use std::ffi::OsStr;
use std::fs::File;
use std::io::Write;
use std::os::unix::process::ExitStatusExt;
use std::path::PathBuf;
use std::process::{Child, Command, Output, Stdio};
use std::time::Duration;

pub fn path() -> PathBuf {
    let named = std::env::var_os("COTTERLEAF_PROGRAM");
    named.map_or_else(|| env!("CARGO_BIN_EXE_cotterleaf").into(), PathBuf::from)
}

/// What a run of the program left.
#[derive(Debug)]
pub struct Ran {
    /// The exit status, or minus the signal that ended it.
    pub status: i32,
    pub out: Vec<u8>,
    pub err: Vec<u8>,
}

impl Ran {
    pub fn of(output: Output) -> Ran {
        let signal = output.status.signal().unwrap_or_default();
        Ran {
            status: output.status.code().unwrap_or(-signal),
            out: output.stdout,
            err: output.stderr,
        }
    }

    pub fn words(&self) -> String {
        String::from_utf8(self.out.clone()).expect("standard output in UTF-8")
    }

    pub fn complaint(&self) -> String {
        String::from_utf8_lossy(&self.err).into_owned()
    }

    /// Something went wrong and was said: status 2, and one sentence or more on standard error, which is no panic.
    pub fn assert_error(&self, what: &str) {
        let said = self.complaint();
        assert_eq!(self.status, 2, "{what}: {self:?}");
        assert!(!said.trim().is_empty(), "{what}: nothing is said");
        assert!(!said.contains("panicked"), "{what}: {said}");
    }

    /// The same, with nothing on standard output.
    pub fn assert_only_error(&self, what: &str) {
        self.assert_error(what);
        assert_eq!(self.words(), "", "{what}");
    }
}

/// What standard input is.
pub enum Input<'a> {
    Nothing,
    Pipe(&'a [u8]),
    File(File),
}

pub fn command<A: AsRef<OsStr>>(arguments: &[A]) -> Command {
    let mut command = Command::new(path());
    command.args(arguments).stdin(Stdio::null());
    command
}

pub fn run<A: AsRef<OsStr>>(arguments: &[A]) -> Ran {
    run_with(arguments, Input::Nothing)
}

pub fn run_with<A: AsRef<OsStr>>(arguments: &[A], input: Input) -> Ran {
    let mut command = command(arguments);
    match input {
        Input::Nothing => finished(command.output()),
        Input::File(file) => finished(command.stdin(file).output()),
        Input::Pipe(bytes) => piped(&mut command, bytes),
    }
}

pub fn finished(output: std::io::Result<Output>) -> Ran {
    Ran::of(output.expect("the program starts"))
}

/// Runs with these bytes through a pipe. The program may end without reading them all.
fn piped(command: &mut Command, bytes: &[u8]) -> Ran {
    let mut child = started(command.stdin(Stdio::piped()));
    let mut pipe = child.stdin.take().expect("a pipe");
    std::thread::scope(|scope| {
        scope.spawn(move || pipe.write_all(bytes));
        finished(child.wait_with_output())
    })
}

/// Starts with both outputs kept.
pub fn started(command: &mut Command) -> Child {
    command.stdout(Stdio::piped()).stderr(Stdio::piped());
    command.spawn().expect("the program starts")
}

/// The options that say these rules.
pub fn options(rules: Rules) -> Vec<&'static str> {
    let mut options = match rules.layout {
        Layout::Packed => vec![],
        Layout::Aligned => vec!["--layout", "aligned"],
    };
    if rules.profile == Profile::Strict {
        options.push("--strict");
    }
    options
}

/// The arguments of a call under these rules.
pub fn arguments(rules: Rules, given: &[&str]) -> Vec<String> {
    let all = given.iter().copied().chain(options(rules));
    all.map(str::to_string).collect()
}

/// A call of every command on a file. `output` is a path for those that write, `index` an index of the stream.
pub fn every_command<'a>(file: &'a str, output: &'a str, index: &'a str) -> Vec<Vec<&'a str>> {
    vec![
        vec!["info", file],
        vec!["check", file],
        vec!["list", file],
        vec!["show", file, "1"],
        vec!["find", file],
        vec!["gaps", file],
        vec!["extract", file, "1", "--part", "text", "-o", output],
        vec!["at", file, "1"],
        vec!["index", file, "-o", output],
        vec!["verify", file, index],
        vec!["normal", file, "-o", output],
        vec!["salvage", file, "-o", output],
    ]
}

pub fn is_root() -> bool {
    // SAFETY: the call has no conditions.
    unsafe { libc::geteuid() == 0 }
}

pub fn send(child: &Child, signal: i32) {
    // SAFETY: a child that nobody has waited for yet keeps its number.
    assert_eq!(unsafe { libc::kill(child.id() as i32, signal) }, 0);
}

/// Stops a run after a while, changes something, and lets it go on to its end.
pub fn changed_after(child: Child, pause: Duration, change: impl FnOnce()) -> Ran {
    std::thread::sleep(pause);
    send(&child, libc::SIGSTOP);
    change();
    send(&child, libc::SIGCONT);
    finished(child.wait_with_output())
}
