//! What is read: a file, mapped, or standard input, which is kept in a file without a name first.

use crate::fault::Fault;
use crate::progress;
use crate::system;
use memmap2::Mmap;
use std::fs::{File, Metadata};
use std::io::{self, IsTerminal, Read, Seek, Write};
use std::os::fd::AsFd;
use std::path::Path;
use std::time::SystemTime;

/// The name by which standard input and output are asked for.
pub const STANDARD: &str = "-";

/// An input with its bytes.
pub struct Input {
    /// How it is called in answers: the path as given.
    pub name: String,
    file: File,
    map: Option<Mmap>,
    before: Stamp,
}

/// What tells that a file has changed.
#[derive(PartialEq, Eq)]
struct Stamp {
    length: u64,
    time: Option<SystemTime>,
}

impl Stamp {
    fn of(metadata: &Metadata) -> Stamp {
        Stamp {
            length: metadata.len(),
            time: metadata.modified().ok(),
        }
    }
}

impl Input {
    /// Opens a path, or standard input for `-`.
    pub fn open(path: &Path) -> Result<Input, Fault> {
        let name = path.to_string_lossy().into_owned();
        let file = match name.as_str() {
            STANDARD => standard_input(),
            _ => File::open(path),
        };
        let file = file.map_err(|error| Fault::reading(&name, &error))?;
        let metadata = file
            .metadata()
            .map_err(|error| Fault::reading(&name, &error))?;
        if metadata.is_dir() {
            return Err(Fault::folder(&name));
        }
        Input::of(name, file).map_err(|(name, error)| Fault::reading(&name, &error))
    }

    fn of(name: String, file: File) -> Result<Input, (String, io::Error)> {
        match kept(file).and_then(|file| Ok((mapped(&file)?, file))) {
            Ok(((map, before), file)) => Ok(Input {
                name,
                file,
                map,
                before,
            }),
            Err(error) => Err((name, error)),
        }
    }

    /// The bytes.
    pub fn bytes(&self) -> &[u8] {
        self.map.as_deref().unwrap_or_default()
    }

    /// That size and time are what they were before anything was read. What was answered of a file that changed
    /// meanwhile may be true of no state it ever had.
    pub fn unchanged(&self) -> Result<(), Fault> {
        let now = self.file.metadata();
        let now = now.map_err(|error| Fault::reading(&self.name, &error))?;
        if Stamp::of(&now) == self.before {
            return Ok(());
        }
        Err(Fault(format!(
            "{} changed while it was read: what was answered may be wrong; run again when nothing writes to it",
            self.name
        )))
    }
}

/// Standard input as a file of its own.
fn standard_input() -> io::Result<File> {
    let input = io::stdin();
    if input.is_terminal() {
        return Err(io::Error::other(
            "standard input is a terminal; name a file, or lead a stream to it",
        ));
    }
    Ok(File::from(input.as_fd().try_clone_to_owned()?))
}

/// A file that can be mapped from its first byte on: the given one, or one without a name that has what is still to be
/// read of it.
fn kept(mut file: File) -> io::Result<File> {
    let whole = file.metadata()?.is_file() && file.stream_position()? == 0;
    if whole {
        return Ok(file);
    }
    let folder = std::env::temp_dir();
    let keep = system::temporary_file(&folder);
    let mut keep = keep.map_err(|error| no_room(&folder, &error))?;
    let mut buffer = vec![0; 1 << 20];
    let mut shown = progress::Bytes::new("reading", None);
    loop {
        let count = match file.read(&mut buffer) {
            Ok(0) => return Ok(keep),
            Ok(count) => count,
            Err(error) if error.kind() == io::ErrorKind::Interrupted => continue,
            Err(error) => return Err(error),
        };
        let written = keep.write_all(&buffer[..count]);
        written.map_err(|error| no_room(&folder, &error))?;
        shown.more(count as u64);
    }
}

fn no_room(folder: &Path, error: &io::Error) -> io::Error {
    io::Error::other(format!(
        "what comes through a pipe is kept in {} first, and that failed: {error}; TMPDIR names another folder",
        folder.display()
    ))
}

fn mapped(file: &File) -> io::Result<(Option<Mmap>, Stamp)> {
    let before = Stamp::of(&file.metadata()?);
    if before.length == 0 {
        return Ok((None, before));
    }
    // SAFETY: the map is read only. That nothing else writes to the file meanwhile can't be seen to: the library
    // stands it (tests/c/changing.c), `unchanged` tells it, and a file that gets shorter ends the run by a signal that
    // is handled.
    let map = unsafe { Mmap::map(file)? };
    Ok((Some(map), before))
}
