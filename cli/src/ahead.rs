//! Fetches what a walk will need from the disk. A walk reads a header for each message; where messages are long and the
//! file is not in the page cache, the system's own reading ahead would bring in nearly all of the file for that. Nothing
//! is done for a file that is in the cache.

use crate::input::Input;
use crate::system;
use cotterleaf::Record;

/// From this mean size of messages on, headers are fetched one by one; below the second, the system reads ahead again.
const LONG: usize = 128 << 10;
const SHORT: usize = 32 << 10;

/// How many messages ahead of the walk a header is fetched.
const DISTANCE: usize = 32;

/// How many reads had to wait for the disk before it is taken that the file is not in the cache.
const WAITED: i64 = 4;

/// How many messages pass between two looks.
const BETWEEN_LOOKS: usize = 16;

/// The walk so far.
pub struct Ahead<'a> {
    input: &'a Input,
    waits_before: i64,
    is_cold: bool,
    by_header: bool,
    mean_size: usize,
    passed: usize,
}

impl Ahead<'_> {
    pub fn of(input: &Input) -> Ahead<'_> {
        Ahead {
            input,
            waits_before: system::waits_for_disk(),
            is_cold: false,
            by_header: false,
            mean_size: 0,
            passed: 0,
        }
    }

    /// The walk has met a record, and will go on behind it.
    pub fn pass(&mut self, record: &Record) {
        self.passed += 1;
        self.mean_size = (7 * self.mean_size + record.size) / 8;
        if self.mean_size < SHORT && !self.by_header {
            return;
        }
        if !self.is_cold {
            if self.passed % BETWEEN_LOOKS == 0 {
                self.is_cold = system::waits_for_disk() - self.waits_before >= WAITED;
            }
            return;
        }
        self.choose();
        if self.by_header {
            // Messages of a recording are mostly as long as those before them.
            let there = record.start.saturating_add(DISTANCE * record.size);
            system::fetch(self.input.bytes(), there);
        }
    }

    fn choose(&mut self) {
        let by_header = match self.by_header {
            true => self.mean_size >= SHORT,
            false => self.mean_size >= LONG,
        };
        if by_header != self.by_header {
            self.by_header = by_header;
            system::read_around(self.input.bytes(), !by_header);
        }
    }
}

impl Drop for Ahead<'_> {
    fn drop(&mut self) {
        if self.by_header {
            system::read_around(self.input.bytes(), true);
        }
    }
}
