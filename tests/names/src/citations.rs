//! What the pages cite from `crates/`: each name is declared where the page says, also on the map of the crates; what
//! the README promises is in docs/DEMANDS.md too, and the functions that it names for Rattle are public and ask
//! nothing of their caller.

use crate::definitions::Sources;
use crate::read;
use std::collections::BTreeSet;

/// A page with every citation, such as `` `index` in `mrd_stream/specs/Index.antt` ``, as the sources have it: the
/// name must be declared in that file. One that moved to another file alone is followed there.
pub fn followed(page: &str, sources: &Sources) -> String {
    let mut out = String::new();
    let mut rest = page;
    while let Some((before, after)) = rest.split_once("` in `") {
        let name = &before[before.rfind('`').map_or(0, |at| at + 1)..];
        let (path, after) = after.split_once('`').expect("the end of a citation");
        out += &format!("{before}` in `{}`", home(name, path, sources));
        rest = after;
    }
    out + rest
}

fn home<'a>(name: &str, path: &'a str, sources: &'a Sources) -> &'a str {
    let found = sources.declaring(name);
    let of_sources = path.ends_with(".antt") || path.ends_with(".rt");
    if found.contains(&path) || !of_sources {
        return path;
    }
    match found[..] {
        [only] => only,
        _ => panic!("`{name}` is not declared in {path}, but in {found:?}"),
    }
}

/// What the pages cite and is not so, a sentence for each.
pub fn faults(sources: &Sources) -> Vec<String> {
    let readme = read(sources.root(), "README.md");
    let demands = read(sources.root(), "docs/DEMANDS.md");
    let crates = read(sources.root(), "docs/CRATES.md");
    let promises = section(&readme, "## What is promised");
    let mut faults = strays("README.md", promises, sources);
    faults.extend(strays("docs/DEMANDS.md", &demands, sources));
    let inside = crates.split("## Beside the crates").next();
    faults.extend(strays("docs/CRATES.md", inside.unwrap_or(""), sources));
    faults.extend(not_demanded(promises, &demands));
    faults.extend(not_callable(section(&readme, "### From Rattle"), sources));
    faults
}

/// The part of a page from a heading to the next.
fn section<'a>(page: &'a str, heading: &str) -> &'a str {
    let from = page.find(heading).expect("the heading") + heading.len();
    let rest = &page[from..];
    &rest[..rest.find("\n#").unwrap_or(rest.len())]
}

/// The names in backticks of a page, of a definition, law, function or crate: neither paths nor anything longer. A
/// name may have its type before it, as `Cursor::next`, and its arguments after it.
fn names(page: &str) -> BTreeSet<&str> {
    let pieces = page.split('`').skip(1).step_by(2);
    pieces.filter_map(name).collect()
}

fn name(piece: &str) -> Option<&str> {
    let last = piece.rsplit("::").next().unwrap_or(piece);
    let name = last.split('(').next().unwrap_or(last);
    let of_a_name = |c: char| c.is_alphanumeric() || "-_".contains(c);
    (!name.is_empty() && name.chars().all(of_a_name)).then_some(name)
}

/// The paths in backticks of a page, and names of files without their path. `crates/NAME/src/` and `src/` stand for
/// every crate's, `..Laws.antt` for every file of that end.
fn paths(page: &str) -> BTreeSet<&str> {
    let pieces = page.split('`').skip(1).step_by(2);
    let of_every_crate = |piece: &str| {
        let inside = ["specs/", "src/", "proofs/"];
        piece.ends_with('/') && inside.iter().any(|folder| piece.starts_with(folder))
    };
    let is_path = |piece: &&str| {
        (piece.contains('/') || piece.ends_with(".antt") || piece.ends_with(".rt"))
            && !piece.contains(' ')
            && !piece.contains("/NAME/")
            && !piece.starts_with("..")
            && !of_every_crate(piece)
    };
    pieces.filter(is_path).collect()
}

/// Words that are neither declared in the sources nor wrong: the language's own, and a struct member.
const PLAIN_WORDS: [&str; 2] = ["requires", "refusal"];

/// The names and paths of a page that the sources do not have.
fn strays(page: &str, text: &str, sources: &Sources) -> Vec<String> {
    let known = |name: &&str| {
        PLAIN_WORDS.contains(name) || sources.has_crate(name) || !sources.declaring(name).is_empty()
    };
    let names = names(text).into_iter().filter(|name| !known(name));
    let paths = paths(text);
    let paths = paths.into_iter().filter(|path| !sources.has_path(path));
    let fault = |cited| format!("{page} cites `{cited}`, which nothing in crates/ declares");
    names.chain(paths).map(fault).collect()
}

/// The names of the README's promises that docs/DEMANDS.md does not cite: each promise is part of a demand.
fn not_demanded(promises: &str, demands: &str) -> Vec<String> {
    let missing = &names(promises) - &names(demands);
    let fault =
        |name| format!("README.md promises by `{name}`, which docs/DEMANDS.md does not cite");
    missing.into_iter().map(fault).collect()
}

/// The functions of the README's table of crates that are not public functions of their crate, or have a `requires`.
fn not_callable(section: &str, sources: &Sources) -> Vec<String> {
    let rows = section.lines().filter_map(|line| line.strip_prefix("| `"));
    let functions: Vec<(&str, &str)> = rows.flat_map(functions).collect();
    assert!(
        functions.len() > 20,
        "the table of functions: {functions:?}"
    );
    let fault = |(of, name): &(&str, &str)| {
        let why = match contract(of, name, sources) {
            None => "is no public function of that crate",
            Some(contract) if contract.contains("requires {") => "has a `requires`",
            Some(_) => return None,
        };
        Some(format!("README.md names `{name}` for `{of}`: it {why}"))
    };
    functions.iter().filter_map(fault).collect()
}

/// The crate of a row and each function that the row names: all names but those of arguments.
fn functions(row: &str) -> Vec<(&str, &str)> {
    let (of, row) = row.split_once('`').expect("the end of the crate's name");
    let calls = row.split('`').skip(1).step_by(2);
    let arguments: Vec<&str> = calls
        .filter_map(|call| call.split_once('(')?.1.strip_suffix(')'))
        .flat_map(|arguments| arguments.split(", "))
        .collect();
    let names = names(row).into_iter();
    names
        .filter(|name| !arguments.contains(name))
        .map(|name| (of, name))
        .collect()
}

/// The head of a crate's public function, from its name to its body.
fn contract<'a>(of: &str, name: &str, sources: &'a Sources) -> Option<&'a str> {
    let (folder, head) = (format!("{of}/src/"), format!("\npub fn {name}("));
    let mut programs = sources.programs();
    let text = programs.find_map(|(path, text)| {
        let from = text.find(&head).filter(|_| path.starts_with(&folder))?;
        Some(&text[from..])
    })?;
    Some(&text[..text.find("\n{").unwrap_or(text.len())])
}
