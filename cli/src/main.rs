//! `cotterleaf`: what a site does with MRD message streams every day. Opens files, asks the proved library, and prints
//! what it answers; docs/PROGRAM.md has the commands, the shape of `--json` and the exit statuses.

mod ahead;
mod answer;
mod args;
mod commands;
mod counters;
mod fault;
mod header;
mod input;
mod manual;
mod names;
mod npy;
mod output;
mod pieces;
mod progress;
mod records;
mod steps;
mod system;
mod values;

use answer::Status;
use args::CommandLine;
use clap::Parser;
use fault::Fault;
use std::io::{stdout, Write};
use std::panic::{catch_unwind, AssertUnwindSafe};
use std::process::ExitCode;

fn main() -> ExitCode {
    let given = match CommandLine::try_parse() {
        Ok(given) => given,
        Err(help_or_error) => return told(&help_or_error),
    };
    let run = catch_unwind(AssertUnwindSafe(|| commands::run(&given)));
    // Bytes that change between two questions can lead to a panic; nothing was put in place.
    let run = run.unwrap_or_else(|_| {
        Err(Fault(
            "the run ended early: the file may have changed while it was read; run again".into(),
        ))
    });
    ended(run)
}

/// Help and the version, which were asked for, or what is wrong with the call.
fn told(help_or_error: &clap::Error) -> ExitCode {
    let printed = help_or_error.print().and_then(|()| stdout().flush());
    ended(match (help_or_error.use_stderr(), printed) {
        (true, _) => Ok(Status::Failed),
        (false, Ok(())) => Ok(Status::Sound),
        (false, Err(error)) => Err(Fault::writing("standard output", &error)),
    })
}

fn ended(run: Result<Status, Fault>) -> ExitCode {
    let status = run.unwrap_or_else(|fault| {
        fault.say();
        Status::Failed
    });
    ExitCode::from(status as u8)
}
