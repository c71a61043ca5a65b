//! The manual page, from the same commands, options and sentences as the help.

use clap::{Arg, Command};
use std::fmt::Write;

/// Text as roff takes it: no line begins with a control character, and a hyphen is the one that is typed.
fn escaped(text: &str) -> String {
    let lines = text.lines().map(|line| {
        let line = line.replace('\\', "\\e").replace('-', "\\-");
        match line.starts_with(['.', '\'']) {
            true => format!("\\&{line}\n"),
            false => format!("{line}\n"),
        }
    });
    lines.collect()
}

/// `-o`, `--output X`, in bold but for the value.
fn synopsis(arg: &Arg) -> String {
    let short = arg.get_short().map(|short| format!("\\fB\\-{short}\\fR"));
    let long = arg.get_long().map(|long| {
        let long = long.replace('-', "\\-");
        format!("\\fB\\-\\-{long}\\fR")
    });
    let names: Vec<String> = short.into_iter().chain(long).collect();
    let value = match arg.get_action().takes_values() {
        true => value_name(arg),
        false => String::new(),
    };
    match names.is_empty() {
        true => value,
        false if value.is_empty() => names.join(", "),
        false => format!("{} {value}", names.join(", ")),
    }
}

fn value_name(arg: &Arg) -> String {
    let name = match arg.get_value_names() {
        Some([name, ..]) => name.to_string(),
        _ => arg.get_id().to_string(),
    };
    format!("\\fI{}\\fR", name.to_uppercase().replace('-', "\\-"))
}

fn write_argument(page: &mut String, arg: &Arg) {
    let _ = writeln!(page, ".TP\n{}", synopsis(arg));
    let help = arg.get_long_help().or(arg.get_help());
    let help = help.map(ToString::to_string).unwrap_or_default();
    page.push_str(&escaped(&help));
    let values = arg.get_possible_values();
    if arg.get_action().takes_values() && !values.is_empty() {
        let names: Vec<&str> = values.iter().map(|value| value.get_name()).collect();
        page.push_str(&escaped(&format!("[{}]", names.join(", "))));
    }
}

/// Arguments that a person gives: not those for help and version, and each of a command only once.
fn own_arguments(command: &Command) -> impl Iterator<Item = &Arg> {
    let arguments = command.get_arguments();
    arguments.filter(|arg| !["help", "version"].contains(&arg.get_id().as_str()))
}

fn write_command(page: &mut String, command: &Command) {
    let own = || own_arguments(command).filter(|arg| !arg.is_global_set());
    let positional = own().filter(|arg| arg.is_positional());
    let operands: String = positional
        .map(|arg| format!(" {}", value_name(arg)))
        .collect();
    let name = command.get_name();
    let _ = writeln!(page, ".SS \\fB{name}\\fR{operands}");
    let about = command.get_long_about().or(command.get_about());
    let about = about.map(ToString::to_string).unwrap_or_default();
    page.push_str(&paragraphs(&about));
    for arg in own() {
        write_argument(page, arg);
    }
    write_after(page, command);
}

/// Paragraphs that blank lines part.
fn paragraphs(text: &str) -> String {
    let parts = text.split("\n\n").map(escaped);
    parts.collect::<Vec<String>>().join(".PP\n")
}

/// Examples and tables, line for line.
fn write_after(page: &mut String, command: &Command) {
    if let Some(after) = command.get_after_help() {
        let _ = write!(page, ".PP\n.nf\n{}.fi\n", escaped(&after.to_string()));
    }
}

/// The page. The command must be built, so that it has what clap adds.
pub fn page(command: &Command) -> String {
    let name = command.get_name();
    let version = command.get_version().unwrap_or_default();
    let about = command.get_about().map(ToString::to_string);
    let about = about.unwrap_or_default();
    let long = command.get_long_about().map(ToString::to_string);
    let mut page = format!(
        ".TH {} 1 \"\" \"{name} {version}\" \"MRD message streams\"\n.SH NAME\n{name} \\- {}\
         .SH SYNOPSIS\n\\fB{name}\\fR [\\fIOPTIONS\\fR] \\fICOMMAND\\fR ...\n.SH DESCRIPTION\n{}.SH OPTIONS\n",
        name.to_uppercase(),
        escaped(first_clause(&about)),
        paragraphs(&long.unwrap_or(about.clone())),
    );
    for arg in own_arguments(command) {
        write_argument(&mut page, arg);
    }
    page.push_str(".SH COMMANDS\n");
    for command in command.get_subcommands() {
        if command.get_name() != "help" {
            write_command(&mut page, command);
        }
    }
    page.push_str(".SH EXIT STATUS AND EXAMPLES\n");
    write_after(&mut page, command);
    page
}

/// What stands before the first colon: a manual page's name line is short.
fn first_clause(about: &str) -> &str {
    about.split(':').next().unwrap_or(about)
}
