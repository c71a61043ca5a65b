//! Names, numbers and sentences for C, for Rust and for the pages, from the definitions in crates/.
//!
//!     names            says which generated file is not what the definitions give, and ends non-zero on one
//!     names --write    writes them
//!
//! Read are the header tables, kinds and limits of the definitions, the names of refusals and flags, the functions
//! that cross to C, the sentences of refusals.txt and the file VERSION. Nothing is generated that is not here:
//! whoever changes a definition runs it once and sees in the difference what changes for users.

mod c;
mod citations;
mod definitions;
mod elements;
mod field;
mod interface;
mod rust;
mod tables;

use definitions::{Header, Kind, Named, Order, Sources};
use field::Counter;
use std::path::Path;
use std::process::ExitCode;

/// Image data types 1 to 8: their names in MRD, and what one pixel is.
pub const DATA_TYPES: [(&str, &str); 8] = [
    ("USHORT", "uint16_t"),
    ("SHORT", "int16_t"),
    ("UINT", "uint32_t"),
    ("INT", "int32_t"),
    ("FLOAT", "float"),
    ("DOUBLE", "double"),
    ("CXFLOAT", "a pair of floats"),
    ("CXDOUBLE", "a pair of doubles"),
];

/// Image types 1 to 6: their names in MRD.
pub const IMAGE_TYPES: [&str; 6] = ["MAGNITUDE", "PHASE", "REAL", "IMAG", "COMPLEX", "RGB"];

/// Everything that is read.
pub struct Format {
    pub version: String,
    pub headers: Vec<Header>,
    pub kinds: Vec<Kind>,
    pub order: Order,
    pub refusals: Vec<Named>,
    pub sentences: Vec<(String, String)>,
    pub flags: Vec<Named>,
    pub counters: Vec<Counter>,
    pub element_sizes: Vec<usize>,
    pub message_size: usize,
    pub messages: usize,
    pub listing: usize,
}

impl Format {
    fn of(sources: &Sources) -> Format {
        let description = read(sources.root(), "field_data/phantom.txt");
        let headers = definitions::headers(sources);
        let strays: Vec<String> = headers
            .iter()
            .flat_map(|header| field::differences(&description, header))
            .collect();
        assert!(strays.is_empty(), "other names than ISMRMRD's: {strays:?}");
        let refusals = definitions::refusals(sources);
        let sentences = read(sources.root(), "tests/names/refusals.txt");
        Format {
            version: read(sources.root(), "VERSION").trim().to_string(),
            headers,
            kinds: definitions::kinds(sources),
            order: definitions::order(sources),
            sentences: definitions::sentences(&sentences, &refusals),
            refusals,
            flags: definitions::flags(sources),
            counters: field::counters(&description),
            element_sizes: definitions::element_sizes(sources),
            message_size: definitions::number(sources, "limit"),
            messages: definitions::number(sources, "max_messages"),
            listing: definitions::constant(sources, "mrd_list/src/main.rt", "LIMIT"),
        }
    }

    /// The id of a kind.
    pub fn id(&self, kind: &str) -> usize {
        let found = self.kinds.iter().find(|row| row.name == kind);
        found.expect("a kind").id
    }
}

pub fn read(root: &Path, path: &str) -> String {
    std::fs::read_to_string(root.join(path)).unwrap_or_else(|error| panic!("{path}: {error}"))
}

/// A manifest with the one version number.
fn versioned(manifest: &str, version: &str) -> String {
    let lines = manifest
        .lines()
        .map(|line| match line.starts_with("version = ") {
            true => format!("version = \"{version}\"\n"),
            false => format!("{line}\n"),
        });
    lines.collect()
}

/// Each generated file with its text.
fn generated(sources: &Sources) -> Vec<(&'static str, String)> {
    let format = Format::of(sources);
    let interface = interface::Interface::of(sources);
    let missing = interface.missing(&read(sources.root(), "include/cotterleaf.h"));
    assert!(
        missing.is_empty(),
        "include/cotterleaf.h does not declare {missing:?}"
    );
    let mut files = vec![
        ("include/cotterleaf_names.h", c::header_file(&format)),
        ("rust/src/names.rs", rust::names_file(&format)),
        ("rust/src/headers.rs", rust::headers_file(&format)),
        ("tests/c/interface.c", interface.c_file()),
        ("rust/src/raw/interface.rs", interface.rust_file()),
    ];
    for manifest in ["rust/Cargo.toml", "cli/Cargo.toml"] {
        let text = versioned(&read(sources.root(), manifest), &format.version);
        files.push((manifest, text));
    }
    for page in ["README.md", "docs/FORMAT.md"] {
        let text = tables::filled(&read(sources.root(), page), &format, sources);
        files.push((page, citations::followed(&text, sources)));
    }
    files
}

/// The first line in which two texts differ, for whoever has to look.
fn first_difference(kept: &str, due: &str) -> String {
    let lines = kept.lines().chain(std::iter::repeat("(no such line)"));
    let pairs = due.lines().zip(lines).enumerate();
    let mut differing = pairs.filter(|(_, (due, kept))| due != kept);
    match differing.next() {
        Some((i, (due, kept))) => format!("line {}:\n  kept: {kept}\n  due:  {due}", i + 1),
        None => "it is longer than it should be".to_string(),
    }
}

fn main() -> ExitCode {
    let write = std::env::args().nth(1).as_deref() == Some("--write");
    let root = Path::new(concat!(env!("CARGO_MANIFEST_DIR"), "/../.."));
    let sources = Sources::of(root);
    let files = generated(&sources);
    let mut differing = 0;
    for (path, due) in &files {
        let kept = std::fs::read_to_string(root.join(path)).unwrap_or_default();
        if kept == *due {
            continue;
        }
        differing += 1;
        println!("{path} differs, {}", first_difference(&kept, due));
        if write {
            std::fs::create_dir_all(root.join(path).parent().expect("a folder")).expect("a folder");
            std::fs::write(root.join(path), due).expect("a file that can be written");
        }
    }
    let faults = citations::faults(&sources);
    if !faults.is_empty() {
        println!("{}", faults.join("\n"));
        println!("names: FAILED, the pages cite what is not so");
        return ExitCode::FAILURE;
    }
    match (differing, write) {
        (0, _) => println!(
            "names: ok, {} files are what the definitions give",
            files.len()
        ),
        (_, true) => println!("names: {differing} files written"),
        (_, false) => {
            println!("names: FAILED, {differing} files differ; tests/target/release/names --write writes them");
            return ExitCode::FAILURE;
        }
    }
    ExitCode::SUCCESS
}
