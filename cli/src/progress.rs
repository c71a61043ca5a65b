//! Progress of work that takes over a second, on standard error where that is a terminal.

use crate::commands::Asked;
use indicatif::{ProgressBar, ProgressStyle};
use std::io::{stderr, IsTerminal};
use std::sync::mpsc::{channel, RecvTimeoutError};
use std::time::{Duration, Instant};

/// How long work may take unseen.
const PATIENCE: Duration = Duration::from_secs(1);

/// How many bytes pass between two looks at the clock.
const BETWEEN_LOOKS: u64 = 1 << 20;

fn bar(label: &'static str, total: Option<u64>) -> ProgressBar {
    let (bar, style) = match total {
        Some(total) => (
            ProgressBar::new(total),
            "{msg} {bar:30} {bytes} of {total_bytes}, {eta} left",
        ),
        None => (ProgressBar::new_spinner(), "{msg} {spinner} {bytes}"),
    };
    let style = ProgressStyle::with_template(style).expect("a template that is fixed");
    bar.with_style(style).with_message(label)
}

/// Work whose place in the bytes is known.
pub struct Bytes {
    label: &'static str,
    total: Option<u64>,
    began: Instant,
    done: u64,
    next_look: u64,
    bar: Option<ProgressBar>,
}

impl Bytes {
    /// Of so many bytes, if that is known.
    pub fn new(label: &'static str, total: Option<u64>) -> Bytes {
        let seen = stderr().is_terminal();
        Bytes {
            label,
            total,
            began: Instant::now(),
            done: 0,
            next_look: if seen { BETWEEN_LOOKS } else { u64::MAX },
            bar: None,
        }
    }

    /// A walk over a whole input.
    pub fn over(asked: &Asked) -> Bytes {
        Bytes::new(asked.command, Some(asked.input.bytes().len() as u64))
    }

    /// The same, unless lines that a person watches show it already.
    pub fn beside_lines(asked: &Asked) -> Bytes {
        let mut progress = Bytes::over(asked);
        if std::io::stdout().is_terminal() {
            progress.next_look = u64::MAX;
        }
        progress
    }

    /// So many more bytes are done.
    pub fn more(&mut self, count: u64) {
        self.done += count;
        if self.done >= self.next_look {
            self.look();
        }
    }

    fn look(&mut self) {
        self.next_look = self.done + BETWEEN_LOOKS;
        if self.began.elapsed() < PATIENCE {
            return;
        }
        let made = || bar(self.label, self.total);
        self.bar.get_or_insert_with(made).set_position(self.done);
    }
}

impl Drop for Bytes {
    fn drop(&mut self) {
        if let Some(bar) = &self.bar {
            bar.finish_and_clear();
        }
    }
}

/// Work that is one call of the library: only that it goes on can be shown.
pub fn during<T>(label: &'static str, work: impl FnOnce() -> T) -> T {
    if !stderr().is_terminal() {
        return work();
    }
    std::thread::scope(|scope| {
        let (done, waiting) = channel::<()>();
        scope.spawn(move || {
            if waiting.recv_timeout(PATIENCE) != Err(RecvTimeoutError::Timeout) {
                return;
            }
            let style = ProgressStyle::with_template("{msg} {spinner} {elapsed}");
            let spinner = ProgressBar::new_spinner();
            spinner.set_style(style.expect("a template that is fixed"));
            spinner.set_message(label);
            spinner.enable_steady_tick(Duration::from_millis(100));
            let _ = waiting.recv();
            spinner.finish_and_clear();
        });
        let answer = work();
        drop(done);
        answer
    })
}
