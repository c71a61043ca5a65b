//! What the program says of itself: `--help` with examples that work as they stand, completions, the manual page and
//! the version.

mod common;

use common::program::{finished, path};
use common::streams_kept::ALL_KINDS;
use common::{pages, run, Scratch};
use std::os::unix::fs::symlink;
use std::process::{Command, Stdio};

const SHELLS: [&str; 5] = ["bash", "zsh", "fish", "elvish", "powershell"];

/// What a call of the program says, which must end well.
fn said(arguments: &[&str]) -> String {
    let ran = run(arguments);
    assert_eq!(ran.status, 0, "{arguments:?}: {ran:?}");
    assert_eq!(ran.complaint(), "", "{arguments:?}");
    ran.words()
}

/// The lines that show a call.
fn examples(help: &str) -> Vec<String> {
    let shown = help.lines().filter(|line| line.starts_with(' '));
    let calls = shown
        .map(str::trim)
        .filter(|line| line.starts_with("cotterleaf "));
    calls.map(str::to_string).collect()
}

/// A folder as the examples take for granted, with the program in `bin`.
fn folder_of_examples() -> Scratch {
    let folder = Scratch::new();
    folder.put("scan.mrd", ALL_KINDS);
    folder.put("torn.mrd", &ALL_KINDS[..ALL_KINDS.len() - 100]);
    std::fs::create_dir(folder.at("bin")).expect("a folder");
    let program = path().canonicalize().expect("the program");
    symlink(program, folder.at("bin/cotterleaf")).expect("a link");
    folder
}

fn run_example(folder: &Scratch, example: &str) {
    let path = std::env::var("PATH").unwrap_or_default();
    let mut shell = Command::new("sh");
    shell.args(["-c", example]).current_dir(folder.path());
    shell.env("PATH", format!("{}:{path}", folder.at("bin")));
    let ran = finished(shell.stdin(Stdio::null()).output());
    assert!(matches!(ran.status, 0 | 1), "{example}: {ran:?}");
}

#[test]
fn the_examples_of_each_command_work() {
    let folder = folder_of_examples();
    for command in pages::commands() {
        let help = said(&[command, "--help"]);
        let of_command = format!("cotterleaf {command} ");
        let examples = examples(&help);
        assert!(
            examples
                .iter()
                .any(|example| format!("{example} ").contains(&of_command)),
            "{command} --help has no example"
        );
        examples
            .iter()
            .for_each(|example| run_example(&folder, example));
    }
}

#[test]
fn the_examples_of_the_program_work() {
    let help = said(&["--help"]);
    let examples = examples(&help);
    assert!(!examples.is_empty(), "--help has no example");
    let folder = folder_of_examples();
    for command in pages::commands() {
        assert!(help.contains(command), "--help does not name {command}");
        let of_command = format!("cotterleaf {command}");
        let calls = examples
            .iter()
            .filter(|example| example.starts_with(&of_command));
        calls.for_each(|example| run_example(&folder, example));
    }
}

#[test]
fn help_in_short_and_by_a_command() {
    for command in pages::commands() {
        assert!(said(&[command, "-h"]).contains("--layout"), "{command}");
    }
    assert!(said(&["-h"]).contains("salvage"));
    for other in ["completions", "manual"] {
        said(&[other, "--help"]);
    }
}

#[test]
fn completions_name_every_command() {
    for shell in SHELLS {
        let script = said(&["completions", shell]);
        for command in pages::commands() {
            assert!(script.contains(command), "{shell} does not name {command}");
        }
        for option in ["layout", "strict", "json", "force", "kspace"] {
            assert!(script.contains(option), "{shell} does not name {option}");
        }
    }
    run(&["completions", "no-such-shell"]).assert_only_error("a shell that nobody knows");
}

#[test]
fn bash_takes_its_completions() {
    let folder = Scratch::new();
    let script = folder.put("cotterleaf.bash", said(&["completions", "bash"]).as_bytes());
    let ran = finished(Command::new("bash").args(["-n", &script]).output());
    assert_eq!((ran.status, ran.complaint()), (0, String::new()));
}

#[test]
fn the_manual_names_everything() {
    let manual = said(&["manual"]).replace("\\-", "-");
    assert!(manual.contains(".TH"), "no manual page: {manual}");
    for command in pages::commands() {
        assert!(manual.contains(command), "it does not name {command}");
    }
    let options = pages::long_options();
    assert!(options.len() > 12, "{options:?}");
    let counters = pages::counter_names().into_iter();
    let counters = counters.map(|name| format!("--{}", name.replace('_', "-")));
    for option in options.into_iter().map(str::to_string).chain(counters) {
        assert!(manual.contains(&option), "it does not name {option}");
    }
}

#[test]
fn groff_has_nothing_against_the_manual() {
    let folder = Scratch::new();
    let page = folder.put("cotterleaf.1", said(&["manual"]).as_bytes());
    let ran = match Command::new("groff")
        .args(["-man", "-ww", "-Tutf8", &page])
        .output()
    {
        Ok(output) => common::Ran::of(output),
        Err(_) => return println!("skipped: groff is not there"),
    };
    assert_eq!((ran.status, ran.complaint()), (0, String::new()));
    assert!(ran.words().contains("salvage"));
}

#[test]
fn the_version_is_the_repository_s() {
    let version = include_str!("../../VERSION").trim();
    assert_eq!(said(&["--version"]), format!("cotterleaf {version}\n"));
}
