//! What goes wrong around the program: files that are missing or closed to it, full disks, closed pipes, and calls
//! that it does not know. Each is said in a sentence, with status 2, and nothing is left behind. Files that change and
//! runs that are ended are in `interrupted.rs`.
//! As root more can be tried (a full disk of its own, another user); what is left out is printed.

mod common;

use common::program::{command, every_command, finished, is_root, path};
use common::scratch::names_in;
use common::streams_kept::ALL_KINDS;
use common::{json, pages, pipes, run, run_with, sparse, started, Input, Ran, Scratch};
use second_reader::Rules;
use std::fs::{self, File, OpenOptions, Permissions};
use std::io::{Read, Write};
use std::os::unix::fs::PermissionsExt;
use std::os::unix::process::CommandExt;
use std::process::{Child, Command};
use std::time::{Duration, Instant};

const NOTHING: [&str; 0] = [];

/// A folder with a recording and its index.
struct Site {
    given: Scratch,
    outputs: Scratch,
    file: String,
    index: String,
    output: String,
}

impl Site {
    fn new() -> Site {
        let (given, outputs) = (Scratch::new(), Scratch::new());
        let index = second_reader::index_bytes(Rules::PACKED, ALL_KINDS).expect("accepted");
        Site {
            file: given.put("scan.mrd", ALL_KINDS),
            index: given.put("scan.index", &index),
            output: outputs.at("X"),
            given,
            outputs,
        }
    }

    fn calls<'a>(&'a self, file: &'a str) -> Vec<Vec<&'a str>> {
        every_command(file, &self.output, &self.index)
    }
}

/// The error as `--json` has it: a sentence, and of other members at most the command and the file.
fn assert_error_object(ran: &Ran, call: &[&str]) {
    let objects = json::objects(&ran.out);
    assert_eq!(objects.len(), 1, "{call:?}: {ran:?}");
    let members = objects[0].as_object().expect("an object");
    assert!(members["error"].is_string(), "{call:?}: {ran:?}");
    let known = |name: &String| matches!(name.as_str(), "command" | "file" | "error");
    assert!(members.keys().all(known), "{call:?}: {ran:?}");
}

/// Each command on a FILE that can't be read: the sentence names it, in words and in JSON.
fn assert_unreadable(site: &Site, file: &str) {
    for call in site.calls(file) {
        let ran = run(&call);
        ran.assert_only_error(&call.join(" "));
        assert!(
            ran.complaint().contains(file),
            "{call:?}: {}",
            ran.complaint()
        );
        let in_json = run(&[&call[..], &["--json"]].concat());
        in_json.assert_error(&call.join(" "));
        assert_error_object(&in_json, &call);
        let told = &json::objects(&in_json.out)[0];
        assert_eq!(
            (&told["command"], &told["file"]),
            (&call[0].into(), &file.into())
        );
        assert_eq!(site.outputs.names(), NOTHING, "{call:?}");
    }
}

#[test]
fn a_missing_file() {
    let site = Site::new();
    assert_unreadable(&site, &site.given.at("missing.mrd"));
}

#[test]
fn a_folder_in_place_of_a_file() {
    let site = Site::new();
    assert_unreadable(&site, site.given.path().to_str().expect("ASCII"));
    let call = [
        "verify",
        &site.file,
        site.given.path().to_str().expect("ASCII"),
    ];
    run(&call).assert_only_error("a folder as index");
    let missing = ["verify", &site.file, &site.given.at("missing.index")];
    run(&missing).assert_only_error("a missing index");
}

/// The commands that write, to this output.
fn writing<'a>(file: &'a str, output: &'a str) -> Vec<Vec<&'a str>> {
    let calls = every_command(file, output, "");
    calls
        .into_iter()
        .filter(|call| call.contains(&"-o"))
        .collect()
}

#[test]
fn an_output_that_cannot_stand_there() {
    let site = Site::new();
    let folder = site.outputs.path().to_str().expect("ASCII");
    let outputs = [
        folder.to_string(),
        site.outputs.at("missing/X"),
        format!("{}/X", site.file),
    ];
    for output in &outputs {
        for call in writing(&site.file, output) {
            for more in [&[][..], &["--force"]] {
                let ran = run(&[&call[..], more].concat());
                ran.assert_only_error(&call.join(" "));
                assert!(ran.complaint().contains(folder) || ran.complaint().contains(&site.file));
                assert_eq!(site.outputs.names(), NOTHING, "{call:?}");
            }
        }
    }
    assert!(site.given.read("scan.mrd") == ALL_KINDS);
}

/// The program as somebody who may read the scratch folders but not what is closed there.
fn as_another_user(folder: &Scratch, arguments: &[&str]) -> Ran {
    if !is_root() {
        return run(arguments);
    }
    // The built program may lie where nobody else may look.
    let copy = folder.path().join("program");
    if !copy.exists() {
        fs::copy(path(), &copy).expect("a copy of the program");
        fs::set_permissions(&copy, Permissions::from_mode(0o755)).expect("permissions");
    }
    finished(
        Command::new(copy)
            .args(arguments)
            .uid(65_534)
            .gid(65_534)
            .output(),
    )
}

fn set_mode(path: &std::path::Path, mode: u32) {
    fs::set_permissions(path, Permissions::from_mode(mode)).expect("permissions");
}

#[test]
fn no_permission() {
    let site = Site::new();
    set_mode(site.given.path(), 0o755);
    let accepted = as_another_user(&site.given, &["check", &site.file]);
    assert_eq!(accepted.status, 0, "{accepted:?}");
    // Neither root's umask nor who runs the test decides: nobody may write there.
    set_mode(site.outputs.path(), 0o555);
    for call in writing(&site.file, &site.output) {
        let ran = as_another_user(&site.given, &call);
        ran.assert_only_error(&call.join(" "));
        assert!(ran.complaint().contains(&site.output), "{ran:?}");
    }
    set_mode(site.outputs.path(), 0o755);
    assert_eq!(site.outputs.names(), NOTHING);
    set_mode(site.file.as_ref(), 0);
    for call in site.calls(&site.file) {
        let ran = as_another_user(&site.given, &call);
        ran.assert_only_error(&call.join(" "));
        assert!(ran.complaint().contains(&site.file), "{ran:?}");
    }
}

/// A disk of 1 MB in a scratch folder, if this user may mount one.
struct SmallDisk {
    folder: Scratch,
}

impl SmallDisk {
    fn mount() -> Option<SmallDisk> {
        let folder = Scratch::new();
        let mounted = Command::new("mount")
            .args(["-t", "tmpfs", "-o", "size=1m", "tmpfs"])
            .arg(folder.path())
            .output();
        let mounted = mounted.is_ok_and(|output| output.status.success());
        mounted.then_some(SmallDisk { folder })
    }
}

impl Drop for SmallDisk {
    fn drop(&mut self) {
        let unmounted = Command::new("umount").arg(self.folder.path()).status();
        // A test that failed says why; this must not end the program on top of it.
        if !unmounted.is_ok_and(|status| status.success()) {
            println!("{} is still mounted", self.folder.path().display());
        }
    }
}

#[test]
fn a_full_disk() {
    let Some(disk) = SmallDisk::mount() else {
        return println!("skipped: no disk can be mounted here");
    };
    let given = Scratch::new();
    let file = given.at("scan.mrd");
    let (_, length) = sparse::write(&file, 20, 100_000, &sparse::CLOSE);
    let output = disk.folder.at("X");
    let extract = ["extract", &file, "1", "--part", "text", "-o", &output];
    let calls = [
        ["normal", &file, "-o", &output],
        ["salvage", &file, "-o", &output],
    ];
    for call in calls {
        let ran = run(&call);
        ran.assert_only_error(&call.join(" "));
        assert!(ran.complaint().contains(&output), "{ran:?}");
        assert_eq!(disk.folder.names(), NOTHING, "{call:?}");
        disk.folder.put("X", b"old");
        run(&[&call[..], &["--force"]].concat()).assert_only_error(&call.join(" "));
        assert_eq!(disk.folder.read("X"), b"old", "{call:?}");
        fs::remove_file(&output).expect("the old file");
    }
    assert_eq!(run(&extract).status, 0, "a part has room");
    let stream = fs::read(&file).expect("the stream");
    assert_eq!(stream.len() as u64, length);
    let mut check = command(&["check", "-"]);
    check
        .env("TMPDIR", disk.folder.path())
        .stdin(std::process::Stdio::piped());
    let mut child = started(&mut check);
    // It may stop reading as soon as there is no more room.
    let _ = child.stdin.take().expect("a pipe").write_all(&stream);
    let ran = finished(child.wait_with_output());
    ran.assert_only_error("a pipe that the folder for temporary files has no room for");
    assert_eq!(disk.folder.names(), ["X"]);
}

/// The free bytes of the disk that a folder lies on.
fn free_bytes(folder: &Scratch) -> u64 {
    let path = std::ffi::CString::new(folder.at("")).expect("a path");
    // SAFETY: a struct of numbers, which the call fills.
    let stat = unsafe {
        let mut stat: libc::statvfs = std::mem::zeroed();
        assert_eq!(libc::statvfs(path.as_ptr(), &mut stat), 0);
        stat
    };
    stat.f_bfree * stat.f_frsize
}

/// An accepted stream that no free space holds: that is said before anything is written.
#[test]
fn more_than_the_disk_holds() {
    let (given, outputs) = (Scratch::new(), Scratch::new());
    let free = free_bytes(&outputs);
    let texts = free / sparse::LONGEST_TEXT + 40;
    let file = given.at("scan.mrd");
    if File::create(&file)
        .and_then(|file| file.set_len(texts * (sparse::LONGEST_TEXT + 6) + 8))
        .is_err()
    {
        return println!("skipped: no file of {texts} texts can be made here");
    }
    fs::remove_file(&file).expect("the file");
    sparse::write(&file, texts, sparse::LONGEST_TEXT, &sparse::CLOSE);
    assert_eq!(run(&["check", &file]).status, 0);
    for name in ["normal", "salvage"] {
        let begin = Instant::now();
        let output = outputs.at("X");
        let ran = run_beside_the_disk(&[name, &file, "-o", &output], &outputs, free);
        ran.assert_only_error(name);
        assert!(ran.complaint().contains(&output), "{ran:?}");
        assert_eq!(outputs.names(), NOTHING, "{name}");
        let time = begin.elapsed();
        assert!(time < Duration::from_secs(10), "{name} took {time:?}");
    }
}

/// Runs, and sees to it that half of the free bytes stay free: a run that takes more is ended.
fn run_beside_the_disk(call: &[&str], outputs: &Scratch, free: u64) -> Ran {
    let begin = Instant::now();
    let mut child = started(&mut command(call));
    let mut least = free;
    while child.try_wait().expect("a child").is_none() {
        least = least.min(free_bytes(outputs));
        if begin.elapsed() > Duration::from_secs(20) || least < free / 2 {
            child.kill().expect("a child");
        }
        std::thread::sleep(Duration::from_millis(1));
    }
    assert!(
        least > free / 2,
        "{call:?} filled the disk: {least} of {free} bytes were left"
    );
    finished(child.wait_with_output())
}

#[test]
fn a_standard_output_that_is_full() {
    let site = Site::new();
    let mut calls = site.calls(&site.file);
    let to_standard_output = ["extract", "index", "normal", "salvage"];
    for name in to_standard_output {
        calls.push(match name {
            "extract" => vec!["extract", &site.file, "1", "--part", "text"],
            _ => vec![name, &site.file, "-o", "-"],
        });
    }
    calls.extend([vec!["completions", "bash"], vec!["manual"]]);
    for call in calls {
        for more in [&[][..], &["--json"]] {
            assert_full(&[&call[..], more].concat());
            // An output may stand there by then; what could not be said is the answer.
            let _ = fs::remove_file(&site.output);
        }
    }
    assert_eq!(site.outputs.names(), NOTHING);
}

/// Runs with a standard output that takes nothing.
fn assert_full(call: &[&str]) {
    let full = OpenOptions::new().write(true).open("/dev/full");
    let child = started_to(&mut command(call), full.expect("/dev/full"));
    finished(child.wait_with_output()).assert_error(&call.join(" "));
}

#[test]
fn help_and_version_to_a_standard_output_that_is_full() {
    for call in [&["--help"][..], &["check", "--help"], &["--version"]] {
        assert_full(call);
    }
}

/// Starts with standard output going to a given file.
fn started_to(command: &mut Command, output: File) -> Child {
    command.stdout(output).stderr(std::process::Stdio::piped());
    command.spawn().expect("the program starts")
}

#[test]
fn a_pipe_without_a_reader() {
    let site = Site::new();
    let calls = [
        vec!["list", &site.file],
        vec!["list", &site.file, "--json"],
        vec!["show", &site.file, "3"],
        vec!["show", &site.file, "3", "--json"],
        vec!["extract", &site.file, "1", "--part", "text"],
        vec!["normal", &site.file, "-o", "-"],
        vec!["index", &site.file, "-o", "-"],
    ];
    for call in calls {
        let mut piped = command(&call);
        let child = started_to(&mut piped, pipes::without_reader());
        let ran = finished(child.wait_with_output());
        ran.assert_error(&call.join(" "));
    }
}

/// Calls that lack something, or have what the program does not know.
fn unknown_calls(file: &str) -> Vec<Vec<&str>> {
    vec![
        vec![],
        vec!["no-such-command", file],
        vec!["check"],
        vec!["check", file, "--no-such-option"],
        vec!["check", file, "--layout", "sideways"],
        vec!["show", file],
        vec!["at", file],
        vec!["list", file, "--kind", "no-such-kind"],
        vec!["list", file, "more"],
        vec!["find", file, "--flag", "no_such_flag"],
        vec!["extract", file, "1"],
        vec!["extract", file, "1", "--part", "header"],
        vec!["extract", file, "1", "--part", "text", "--channel", "0"],
        vec!["extract", file, "3", "--channel", "0"],
        vec!["index", file],
        vec!["normal", file],
        vec!["salvage", file],
        vec!["verify", file],
    ]
}

/// Calls with a number that is none, or too large or too small.
fn calls_with_bad_numbers(file: &str) -> Vec<Vec<&str>> {
    vec![
        vec!["show", file, "three"],
        vec!["show", file, "-1"],
        vec!["show", file, "18446744073709551616"],
        vec!["at", file, "0x10"],
        vec!["list", file, "--from", "many"],
        vec!["list", file, "--limit", "1.5"],
        vec!["find", file, "--slice", "65536"],
        vec!["find", file, "--slice", "-1"],
        vec!["find", file, "--scan-counter", "4294967296"],
        vec!["find", file, "--flag", "0"],
        vec!["find", file, "--flag", "65"],
        vec![
            "extract",
            file,
            "3",
            "--part",
            "channel",
            "--channel",
            "one",
        ],
    ]
}

#[test]
fn calls_that_are_not_known() {
    let site = Site::new();
    let calls = [
        unknown_calls(&site.file),
        calls_with_bad_numbers(&site.file),
    ];
    for call in calls.concat() {
        let ran = run(&call);
        ran.assert_only_error(&call.join(" "));
        let in_json = run(&[&call[..], &["--json"]].concat());
        in_json.assert_error(&call.join(" "));
        if !in_json.out.is_empty() {
            assert_error_object(&in_json, &call);
        }
    }
    assert_eq!(site.given.names(), ["scan.index", "scan.mrd"]);
}

#[test]
fn quiet_leaves_the_exit_status() {
    let site = Site::new();
    let torn = site.given.put("torn.mrd", &ALL_KINDS[..6_000]);
    let missing = site.given.at("missing.mrd");
    for file in [&site.file, &torn, &missing] {
        for call in site.calls(file) {
            let said = run(&call);
            let _ = fs::remove_file(&site.output);
            for quiet in ["-q", "--quiet"] {
                let ran = run(&[&call[..], &[quiet]].concat());
                let _ = fs::remove_file(&site.output);
                assert_eq!(ran.status, said.status, "{call:?}");
                assert_eq!(ran.words(), "", "{call:?}");
                assert_eq!(ran.err.is_empty(), ran.status < 2, "{call:?}: {ran:?}");
            }
        }
    }
    let nothing_found = run(&["find", &site.file, "--slice", "9", "--json", "-q"]);
    assert_eq!(
        (nothing_found.status, nothing_found.words()),
        (1, String::new())
    );
}

/// Every command takes a stream that ends before it begins.
#[test]
fn an_input_without_a_byte() {
    let site = Site::new();
    for call in site.calls("-") {
        let ran = run_with(&call, Input::Pipe(&[]));
        let wanted = i32::from(call[0] != "salvage");
        assert_eq!(ran.status, wanted, "{call:?}: {ran:?}");
        if wanted == 1 {
            assert!(
                ran.words().contains(&pages::remedy(13)),
                "{call:?}: {}",
                ran.words()
            );
        }
    }
    assert_eq!(site.outputs.read("X"), sparse::CLOSE);
}

/// What is kept of a pipe has no name in the folder for temporary files; one that is not there is said.
#[test]
fn no_folder_for_temporary_files() {
    let site = Site::new();
    let mut check = command(&["check", "-"]);
    check
        .env("TMPDIR", site.given.at("missing"))
        .stdin(std::process::Stdio::piped());
    let mut child = started(&mut check);
    let _ = child.stdin.take().expect("a pipe").write_all(ALL_KINDS);
    let mut said = String::new();
    child
        .stderr
        .take()
        .expect("a pipe")
        .read_to_string(&mut said)
        .expect("words");
    assert_eq!(child.wait().expect("an end").code(), Some(2), "{said}");
    assert!(said.contains("missing"), "{said}");
    assert_eq!(names_in(site.given.path()), ["scan.index", "scan.mrd"]);
}
