//! What ends a run with status 2: a sentence that says what could not be done, where, and what to do.

use crate::values::write_text;
use std::io::{stderr, Error, ErrorKind, Write};

/// Something could not be read or written, or was asked for in a way that has no meaning.
#[derive(Debug)]
pub struct Fault(pub String);

impl Fault {
    /// What the system said of a file that was to be read.
    pub fn reading(name: &str, error: &Error) -> Fault {
        Fault(match error.kind() {
            ErrorKind::NotFound => format!("{name}: there is no such file"),
            ErrorKind::PermissionDenied => format!("{name}: no permission to read it"),
            _ => format!("{name} could not be read: {error}"),
        })
    }

    /// What the system said of an output.
    pub fn writing(name: &str, error: &Error) -> Fault {
        Fault(match error.kind() {
            ErrorKind::NotFound => format!("{name}: there is no such folder to write it in"),
            ErrorKind::PermissionDenied => format!("{name}: no permission to write it"),
            ErrorKind::AlreadyExists => {
                format!("{name} exists already; --force lets it be replaced")
            }
            ErrorKind::BrokenPipe => format!("{name} was closed before everything was written"),
            _ if error.raw_os_error() == Some(libc::ENOSPC) => {
                format!("{name}: the disk is full, not everything was written")
            }
            _ => format!("{name} could not be written: {error}"),
        })
    }

    /// The line that says it, with nothing in it that a terminal would obey.
    pub fn line(&self) -> Vec<u8> {
        let mut line = Vec::new();
        let sentence = format!("cotterleaf: {}", self.0);
        write_text(&mut line, sentence.as_bytes()).expect("a line in memory");
        line.push(b'\n');
        line
    }

    /// Says it on standard error. Where that is closed too, only the status is left.
    pub fn say(&self) {
        let _ = stderr().write_all(&self.line());
    }

    /// A folder was named where a file is due.
    pub fn folder(name: &str) -> Fault {
        Fault(format!("{name} is a folder; name a file"))
    }
}
