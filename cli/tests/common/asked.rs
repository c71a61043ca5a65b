//! Asks the program with `--json`, and compares all that it says with the wanted answer.

use super::expected::{Answer, Told};
use super::json;
use super::program::{arguments, run_with, Input, Ran};

/// The arguments of a call with `--json`, under the rules of the stream.
pub fn call(told: &Told, given: &[&str]) -> Vec<String> {
    let mut call = arguments(told.rules, given);
    call.push("--json".to_string());
    call
}

/// Asks about a stream; one whose file is `-` goes through a pipe.
pub fn compare(told: &Told, given: &[&str], wanted: &Answer) {
    let call = call(told, given);
    let input = match told.file {
        "-" => Input::Pipe(told.stream),
        _ => Input::Nothing,
    };
    compare_ran(&run_with(&call, input), &call, wanted);
}

/// Every member of every object, the exit status, and nothing on standard error.
pub fn compare_ran(ran: &Ran, call: &[String], wanted: &Answer) {
    let call = call.join(" ");
    assert_eq!(ran.complaint(), "", "{call}");
    let got = json::objects(&ran.out);
    if let Some(difference) = json::difference(&wanted.objects, &got) {
        panic!("{call}: {difference}");
    }
    assert_eq!(ran.status, wanted.status, "{call}");
}
