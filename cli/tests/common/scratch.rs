//! A folder of a test's own, removed afterwards.

use std::path::{Path, PathBuf};
use std::sync::atomic::{AtomicU32, Ordering};

pub struct Scratch {
    path: PathBuf,
}

static MADE: AtomicU32 = AtomicU32::new(0);

impl Scratch {
    pub fn new() -> Scratch {
        let number = MADE.fetch_add(1, Ordering::Relaxed);
        let name = format!("cotterleaf-{}-{number}", std::process::id());
        let path = std::env::temp_dir().join(name);
        std::fs::create_dir(&path).expect("a new scratch folder");
        Scratch { path }
    }

    pub fn path(&self) -> &Path {
        &self.path
    }

    /// The path of a file of that name in it, as an argument.
    pub fn at(&self, name: &str) -> String {
        let path = self.path.join(name);
        path.to_str().expect("a path of ASCII").to_string()
    }

    /// Puts a file there and gives its path.
    pub fn put(&self, name: &str, bytes: &[u8]) -> String {
        let path = self.at(name);
        std::fs::write(&path, bytes).expect("a file that can be written");
        path
    }

    pub fn read(&self, name: &str) -> Vec<u8> {
        std::fs::read(self.path.join(name)).expect("a file that is there")
    }

    /// The names of all that stands in it, in order.
    pub fn names(&self) -> Vec<String> {
        names_in(&self.path)
    }
}

/// The names of all that stands in a folder, in order.
pub fn names_in(folder: &Path) -> Vec<String> {
    let entries = std::fs::read_dir(folder).expect("a folder");
    let name = |entry: std::io::Result<std::fs::DirEntry>| entry.expect("an entry").file_name();
    let mut names: Vec<String> = entries
        .map(|entry| name(entry).to_string_lossy().into_owned())
        .collect();
    names.sort();
    names
}

impl Drop for Scratch {
    fn drop(&mut self) {
        // A test that failed half-way may have left the folder as it can't be removed: its failure is what counts.
        let _ = std::fs::remove_dir_all(&self.path);
    }
}
