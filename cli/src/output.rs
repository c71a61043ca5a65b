//! What is written: a file that gets its name only when it is whole, standard output, or a device.

use crate::fault::Fault;
use crate::input::STANDARD;
use crate::system;
use memmap2::MmapMut;
use std::fs::{self, File, OpenOptions};
use std::io::{self, ErrorKind, Seek, Write};
use std::os::fd::AsFd;
use std::os::unix::fs::{FileTypeExt, MetadataExt};
use std::path::{Path, PathBuf};

/// Where an output goes.
pub struct Place {
    /// How it is called in answers: as it was given.
    pub name: String,
    to: To,
}

enum To {
    /// Standard output.
    Standard,
    /// What stands there and is no file: a device or a pipe.
    Through(PathBuf),
    /// A file of this name, in the place of an old one only where that is said.
    File { path: PathBuf, force: bool },
}

impl Place {
    /// Standard output.
    pub fn standard() -> Place {
        Place {
            name: STANDARD.into(),
            to: To::Standard,
        }
    }

    /// Looks at a path before any work is done for it.
    pub fn of(path: &Path, force: bool) -> Result<Place, Fault> {
        if path.as_os_str() == STANDARD {
            return Ok(Place::standard());
        }
        let name = path.to_string_lossy().into_owned();
        let to = match fs::metadata(path) {
            Ok(there) if there.is_dir() => return Err(Fault::folder(&name)),
            Ok(there) if is_standard(&there) => Ok(To::Standard),
            Ok(there) if !there.is_file() => Ok(To::Through(path.into())),
            Ok(_) if !force => Err(ErrorKind::AlreadyExists.into()),
            // A symbolic link stays: the file that it leads to is replaced.
            Ok(_) => path.canonicalize().map(|path| To::File { path, force }),
            Err(error) if error.kind() == ErrorKind::NotFound => Ok(To::File {
                path: path.into(),
                force,
            }),
            Err(error) => Err(error),
        };
        match to {
            Ok(to) => Ok(Place { name, to }),
            Err(error) => Err(Fault::writing(&name, &error)),
        }
    }

    /// Whether answers must stay away from standard output.
    pub fn is_standard(&self) -> bool {
        matches!(self.to, To::Standard)
    }

    fn fault(&self, error: &io::Error) -> Fault {
        match self.to {
            To::Standard => Fault::writing("standard output", error),
            _ => Fault::writing(&self.name, error),
        }
    }

    /// Writes pieces, one after the other, as the whole output. Before a file gets its name, `still` says whether the
    /// pieces are still what they were.
    pub fn write(
        self,
        pieces: &[&[u8]],
        still: impl FnOnce() -> Result<(), Fault>,
    ) -> Result<(), Fault> {
        if let To::File { .. } = self.to {
            let length = pieces.iter().map(|piece| piece.len()).sum();
            let mut output = Output::new(self, length)?;
            let mut rest = output.bytes();
            for piece in pieces {
                let (front, behind) = rest.split_at_mut(piece.len());
                front.copy_from_slice(piece);
                rest = behind;
            }
            still()?;
            return output.put_in_place();
        }
        let sent = self.opened().and_then(|mut to| {
            pieces.iter().try_for_each(|piece| to.write_all(piece))?;
            to.flush()
        });
        sent.map_err(|error| self.fault(&error))?;
        still()
    }

    /// Standard output, or the device.
    fn opened(&self) -> io::Result<Box<dyn Write>> {
        Ok(match &self.to {
            To::Through(path) => Box::new(OpenOptions::new().write(true).open(path)?),
            _ => Box::new(io::stdout()),
        })
    }

    /// The folder that the bytes are kept in until they are whole: the file's own, so that it need not be copied to
    /// get its name.
    fn folder(&self) -> PathBuf {
        match &self.to {
            To::File { path, .. } => match path.parent() {
                Some(folder) if !folder.as_os_str().is_empty() => folder.into(),
                _ => ".".into(),
            },
            _ => std::env::temp_dir(),
        }
    }
}

/// Whether what a path leads to is standard output by another name, as `/dev/stdout`. A device may be both without
/// harm.
fn is_standard(there: &fs::Metadata) -> bool {
    let standard = io::stdout().as_fd().try_clone_to_owned();
    let standard = standard.and_then(|standard| File::from(standard).metadata());
    !there.file_type().is_char_device()
        && standard.is_ok_and(|it| (it.dev(), it.ino()) == (there.dev(), there.ino()))
}

/// An output of a known length, whose bytes are written through a map. Without
/// [`put_in_place`](Output::put_in_place) nothing of it is left.
pub struct Output {
    place: Place,
    file: File,
    passing: Option<Passing>,
    map: Option<MmapMut>,
}

impl Output {
    /// Sets the room aside.
    pub fn new(place: Place, length: usize) -> Result<Output, Fault> {
        let made = Output::made(&place, length);
        let (file, passing, map) = made.map_err(|error| place.fault(&error))?;
        Ok(Output {
            place,
            file,
            passing,
            map,
        })
    }

    fn made(place: &Place, length: usize) -> io::Result<(File, Option<Passing>, Option<MmapMut>)> {
        let (file, passing) = fresh_file(place)?;
        if system::free_bytes(&file).is_some_and(|free| free < length as u64) {
            return Err(io::Error::from_raw_os_error(libc::ENOSPC));
        }
        system::set_aside(&file, length as u64)?;
        // SAFETY: the file has no name, or one that only this process knows, so that nothing else changes it.
        let map = match length {
            0 => None,
            _ => Some(unsafe { MmapMut::map_mut(&file)? }),
        };
        Ok((file, passing, map))
    }

    /// The bytes, as many as were asked for.
    pub fn bytes(&mut self) -> &mut [u8] {
        self.map.as_deref_mut().unwrap_or_default()
    }

    /// The output is whole: it gets its name, or is sent on.
    pub fn put_in_place(mut self) -> Result<(), Fault> {
        self.map = None;
        let done = match &self.place.to {
            To::File { path, force } => self.named(path, *force),
            _ => self.sent(),
        };
        done.map_err(|error| self.place.fault(&error))
    }

    fn sent(&mut self) -> io::Result<()> {
        let mut to = self.place.opened()?;
        self.file.rewind()?;
        io::copy(&mut self.file, &mut to)?;
        to.flush()
    }

    /// Everything is on the disk before the name is, so that a power cut leaves the old state or the new one.
    fn named(&self, path: &Path, force: bool) -> io::Result<()> {
        self.file.sync_all()?;
        match (&self.passing, force) {
            (Some(passing), true) => passing.renamed(path)?,
            (Some(passing), false) => passing.linked(path)?,
            (None, _) => match system::name(&self.file, path) {
                Err(error) if error.kind() == ErrorKind::AlreadyExists && force => {
                    let passing = Passing::of(path);
                    system::name(&self.file, &passing.path)?;
                    passing.renamed(path)?;
                }
                done => done?,
            },
        }
        File::open(self.place.folder())?.sync_all()
    }
}

/// A file to be filled: without a name where that can be had, else with a passing one.
fn fresh_file(place: &Place) -> io::Result<(File, Option<Passing>)> {
    let To::File { path, .. } = &place.to else {
        return Ok((system::temporary_file(&place.folder())?, None));
    };
    match system::unnamed_file(&place.folder()) {
        Ok(file) if system::can_name() => Ok((file, None)),
        Err(error) if is_final(&error) => Err(error),
        _ => {
            let passing = Passing::of(path);
            Ok((passing.created()?, Some(passing)))
        }
    }
}

/// Whether a file with a name would fare no better.
fn is_final(error: &io::Error) -> bool {
    let raw = error.raw_os_error();
    matches!(
        error.kind(),
        ErrorKind::NotFound | ErrorKind::PermissionDenied
    ) || raw == Some(libc::ENOSPC)
        || raw == Some(libc::EROFS)
}

/// A name beside the output's own, for as long as it is not whole; removed when this is dropped.
struct Passing {
    path: PathBuf,
}

impl Passing {
    fn of(path: &Path) -> Passing {
        let name = path.file_name().unwrap_or_default().to_string_lossy();
        let name = format!(".{name}.{}.partial", std::process::id());
        Passing {
            path: path.with_file_name(name),
        }
    }

    fn created(&self) -> io::Result<File> {
        system::remove_on_end(&self.path)?;
        let mut options = OpenOptions::new();
        options.read(true).write(true).create_new(true);
        options.open(&self.path)
    }

    fn renamed(&self, path: &Path) -> io::Result<()> {
        fs::rename(&self.path, path)
    }

    /// A link, as a rename would replace what came there meanwhile; a file system without links has to rename.
    fn linked(&self, path: &Path) -> io::Result<()> {
        match fs::hard_link(&self.path, path) {
            Err(error) if error.kind() != ErrorKind::AlreadyExists && !path.exists() => {
                self.renamed(path)
            }
            done => done,
        }
    }
}

impl Drop for Passing {
    fn drop(&mut self) {
        // It is gone already where it was renamed.
        let _ = fs::remove_file(&self.path);
        system::passed();
    }
}

#[cfg(test)]
mod tests {
    use super::*;

    fn scratch(name: &str) -> PathBuf {
        let folder = std::env::temp_dir().join(format!("{name}.{}", std::process::id()));
        fs::create_dir(&folder).expect("a scratch folder");
        folder
    }

    fn names_in(folder: &Path) -> Vec<String> {
        let entries = fs::read_dir(folder).expect("a folder");
        let names = entries.map(|entry| entry.expect("an entry").file_name());
        names.map(|name| name.to_string_lossy().into()).collect()
    }

    /// A file system without unnamed files, as `fresh_file` goes on there.
    fn with_passing_name(path: &Path, force: bool) -> Output {
        let passing = Passing::of(path);
        let file = passing.created().expect("a file");
        system::set_aside(&file, 3).expect("room");
        // SAFETY: nothing else knows the file.
        let map = Some(unsafe { MmapMut::map_mut(&file).expect("a map") });
        let to = To::File {
            path: path.into(),
            force,
        };
        let name = path.to_string_lossy().into_owned();
        let place = Place { name, to };
        Output {
            place,
            file,
            passing: Some(passing),
            map,
        }
    }

    #[test]
    fn passing_name_is_replaced_by_the_own_one() {
        let folder = scratch("cotterleaf_passing");
        let path = folder.join("x");
        for force in [false, true] {
            let mut output = with_passing_name(&path, force);
            assert_eq!(names_in(&folder).len(), 1 + usize::from(force));
            output.bytes().copy_from_slice(b"abc");
            output.put_in_place().expect("an output in place");
            assert_eq!(names_in(&folder), ["x"]);
            assert_eq!(fs::read(&path).expect("the output"), b"abc");
        }
        fs::remove_dir_all(folder).expect("the scratch folder");
    }

    #[test]
    fn passing_name_goes_with_its_output() {
        let folder = scratch("cotterleaf_dropped");
        let path = folder.join("x");
        drop(with_passing_name(&path, false));
        assert!(names_in(&folder).is_empty());
        fs::write(&path, "old").expect("a file");
        let output = with_passing_name(&path, false);
        let fault = output.put_in_place().expect_err("a file in the way");
        assert!(fault.0.contains("--force"), "{fault:?}");
        assert_eq!(fs::read(&path).expect("the old file"), b"old");
        assert_eq!(names_in(&folder), ["x"]);
        fs::remove_dir_all(folder).expect("the scratch folder");
    }
}
