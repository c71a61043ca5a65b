//! Runs of the listing program.

use std::fs::File;
use std::io::{ErrorKind, Write};
use std::path::PathBuf;
use std::process::{Command, Output, Stdio};
use std::time::{Duration, Instant};

/// How long a program may take over an input that does not end.
const PATIENCE: Duration = Duration::from_secs(60);

/// How the program gets its standard input.
#[derive(Clone, Copy, Debug, PartialEq, Eq)]
pub enum Delivery {
    /// Through a pipe, in one write.
    Pipe,
    /// Through a pipe, this many bytes at a time with a short wait between, so that one read
    /// does not bring all of them.
    Pieces(usize),
    /// From a file.
    File,
}

pub struct Program {
    pub path: PathBuf,
}

impl Program {
    /// The program's standard output and end for this standard input.
    pub fn run(&self, input: &[u8], delivery: Delivery) -> std::io::Result<Output> {
        match delivery {
            Delivery::File => {
                let name = format!("mrd-listing-test-{}.mrd", std::process::id());
                let path = std::env::temp_dir().join(name);
                std::fs::write(&path, input)?;
                let output = Command::new(&self.path).stdin(File::open(&path)?).output();
                std::fs::remove_file(&path)?;
                output
            }
            Delivery::Pipe => self.run_piped(input, usize::MAX),
            Delivery::Pieces(length) => self.run_piped(input, length),
        }
    }

    /// The program's standard output for an input that begins so and does not end: the pipe stays open, and
    /// where `on` is set zeros follow for as long as they are taken. An error where the program does not end.
    pub fn run_endless(&self, beginning: &[u8], on: bool) -> std::io::Result<Vec<u8>> {
        let mut child = Command::new(&self.path)
            .stdin(Stdio::piped())
            .stdout(Stdio::piped())
            .spawn()?;
        let mut stdin = child.stdin.take().expect("a piped standard input");
        let deadline = Instant::now() + PATIENCE;
        std::thread::scope(|scope| {
            // Keeps the pipe open until the program has ended: written to or not.
            let (ended, end) = std::sync::mpsc::channel::<()>();
            scope.spawn(move || {
                let mut taken = stdin.write_all(beginning);
                while on && taken.is_ok() {
                    taken = stdin.write_all(&[0; 4096]);
                }
                let _ = end.recv();
            });
            while child.try_wait()?.is_none() && Instant::now() < deadline {
                std::thread::sleep(Duration::from_millis(2));
            }
            let in_time = child.try_wait()?.is_some();
            if !in_time {
                child.kill()?;
            }
            drop(ended);
            let output = child.wait_with_output()?;
            match in_time {
                true => Ok(output.stdout),
                false => Err(std::io::Error::new(
                    ErrorKind::TimedOut,
                    "the program reads on from an input that does not end",
                )),
            }
        })
    }

    fn run_piped(&self, input: &[u8], piece: usize) -> std::io::Result<Output> {
        let mut child = Command::new(&self.path)
            .stdin(Stdio::piped())
            .stdout(Stdio::piped())
            .stderr(Stdio::piped())
            .spawn()?;
        let mut stdin = child.stdin.take().expect("a piped standard input");
        // Written beside the reading of the output: either pipe may fill up.
        std::thread::scope(|scope| {
            let writer = scope.spawn(move || {
                for (i, bytes) in input.chunks(piece.min(input.len().max(1))).enumerate() {
                    if i > 0 {
                        std::thread::sleep(Duration::from_micros(300));
                    }
                    if let Err(error) = stdin.write_all(bytes) {
                        // The program may end before it has read an input over its limit.
                        return match error.kind() {
                            ErrorKind::BrokenPipe => Ok(()),
                            _ => Err(error),
                        };
                    }
                }
                Ok(())
            });
            let output = child.wait_with_output();
            writer.join().expect("the writing thread")?;
            output
        })
    }
}
