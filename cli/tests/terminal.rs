//! What is different where a person sits at a terminal: progress on standard error, for work of over a second alone, and
//! no samples on standard output.

mod common;

use common::program::{command, finished};
use common::Scratch;
use std::fs::File;
use std::io::{Read, Write};
use std::os::fd::{FromRawFd, OwnedFd};
use std::process::{Child, Stdio};
use std::thread::sleep;
use std::time::Duration;

/// A terminal: what is written to the second end can be read from the first.
fn terminal() -> (File, OwnedFd) {
    let (mut near, mut far) = (0, 0);
    let none = std::ptr::null_mut();
    // SAFETY: the two numbers are the call's to fill; the others may be left out.
    let opened = unsafe { libc::openpty(&mut near, &mut far, none, none.cast(), none.cast()) };
    assert_eq!(opened, 0, "a terminal");
    // SAFETY: both are open and nobody else's.
    unsafe { (File::from_raw_fd(near), OwnedFd::from_raw_fd(far)) }
}

/// Everything that a terminal was shown, once the program that held its far end has ended.
fn shown(mut near: File) -> String {
    let mut all = Vec::new();
    // A terminal whose far end is closed ends in an error.
    let _ = near.read_to_end(&mut all);
    String::from_utf8_lossy(&all).into_owned()
}

/// A header text, texts of a megabyte, and the close.
fn recording(megabytes: usize) -> Vec<u8> {
    let mut stream = vec![3, 0, 0, 0, 0, 0];
    for _ in 0..megabytes {
        stream.extend([5, 0]);
        stream.extend(1_000_000_u32.to_le_bytes());
        stream.resize(stream.len() + 1_000_000, b'y');
    }
    stream.extend([4, 0]);
    stream
}

/// Starts a check of what comes through a pipe, with standard error on a terminal.
fn started() -> (Child, File) {
    let (near, far) = terminal();
    let mut command = command(&["check", "-"]);
    command.stdin(Stdio::piped()).stdout(Stdio::piped());
    let child = command.stderr(far).spawn().expect("the program starts");
    (child, near)
}

#[test]
fn work_of_over_a_second_is_shown() {
    let stream = recording(8);
    let (mut child, near) = started();
    let mut pipe = child.stdin.take().expect("a pipe");
    pipe.write_all(&stream[..2_000_000]).expect("a write");
    sleep(Duration::from_millis(1_300));
    pipe.write_all(&stream[2_000_000..]).expect("a write");
    drop(pipe);
    let ran = finished(child.wait_with_output());
    assert_eq!(ran.status, 0, "{ran:?}");
    assert!(ran.words().contains("accepted"), "{ran:?}");
    let shown = shown(near);
    assert!(shown.contains("reading"), "{shown:?}");
}

#[test]
fn short_work_is_not_shown() {
    let (mut child, near) = started();
    let mut pipe = child.stdin.take().expect("a pipe");
    pipe.write_all(&recording(4)).expect("a write");
    drop(pipe);
    let ran = finished(child.wait_with_output());
    assert_eq!(ran.status, 0, "{ran:?}");
    assert_eq!(shown(near), "");
}

/// A terminal that the output goes to is spared bytes that are no text.
#[test]
fn samples_do_not_go_to_a_terminal_unasked() {
    let given = Scratch::new();
    let file = given.put("scan.mrd", common::streams_kept::ALL_KINDS);
    let call = ["extract", &file, "3", "--part", "channel"];
    for (more, status) in [(&[][..], 2), (&["-o", "-"][..], 0)] {
        let (near, far) = terminal();
        let mut command = command(&[&call[..], more].concat());
        let child = command.stdout(far).stderr(Stdio::piped()).spawn();
        drop(command);
        let ran = finished(child.expect("the program starts").wait_with_output());
        assert_eq!(ran.status, status, "{ran:?}");
        assert_eq!(shown(near).is_empty(), status == 2);
    }
}
