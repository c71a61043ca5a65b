//! Reads names and numbers out of the definitions in crates/: header tables, kinds, refusals, flags, limits.

use std::collections::BTreeMap;
use std::path::{Path, PathBuf};

/// A type of header element, by its name in the definitions.
#[derive(Clone, Copy, Debug, PartialEq, Eq)]
pub enum Element {
    U16,
    U32,
    U64,
    I32,
    F32,
}

impl Element {
    fn named(name: &str) -> Element {
        match name {
            "u16" => Element::U16,
            "u32" => Element::U32,
            "u64" => Element::U64,
            "i32" => Element::I32,
            "f32" => Element::F32,
            other => panic!("a header element of type {other}"),
        }
    }

    pub fn size(self) -> usize {
        match self {
            Element::U16 => 2,
            Element::U32 | Element::I32 | Element::F32 => 4,
            Element::U64 => 8,
        }
    }

    pub fn in_rust(self) -> &'static str {
        match self {
            Element::U16 => "u16",
            Element::U32 => "u32",
            Element::U64 => "u64",
            Element::I32 => "i32",
            Element::F32 => "f32",
        }
    }

    pub fn in_c(self) -> &'static str {
        match self {
            Element::U16 => "uint16_t",
            Element::U32 => "uint32_t",
            Element::U64 => "uint64_t",
            Element::I32 => "int32_t",
            Element::F32 => "float",
        }
    }
}

/// A field of a header: `count` elements of one type from `offset` on.
#[derive(Debug)]
pub struct Field {
    /// In ISMRMRD's spelling, with underscores.
    pub name: String,
    pub offset: usize,
    pub count: usize,
    pub element: Element,
}

/// The header of a kind, in one layout of it.
#[derive(Debug)]
pub struct Header {
    /// The kind, as the definitions name it.
    pub kind: String,
    /// The kind with its layout before it, but for the packed one, which is the kind's own.
    pub name: String,
    pub fields: Vec<Field>,
    pub size: usize,
}

impl Header {
    /// The bytes that no field has: the first of them and how many there are.
    pub fn filler(&self) -> Vec<(usize, usize)> {
        let end = |field: &Field| field.offset + field.count * field.element.size();
        let ends = std::iter::once(0).chain(self.fields.iter().map(end));
        let starts = self.fields.iter().map(|field| field.offset);
        let gaps = ends.zip(starts.chain([self.size]));
        gaps.filter(|(end, start)| end < start)
            .map(|(end, start)| (end, start - end))
            .collect()
    }
}

/// A kind of message: its name, id and the size of its fixed part in each of its layouts.
#[derive(Debug)]
pub struct Kind {
    pub name: String,
    pub id: usize,
    pub fixed: Vec<usize>,
}

/// A named number with what is said of it.
#[derive(Debug)]
pub struct Named {
    pub name: String,
    pub number: usize,
    pub comment: String,
}

/// What may come next in each phase of a stream.
#[derive(Debug)]
pub struct Order {
    pub phases: Vec<String>,
    /// For each kind, in which phases it may come, and the phase after it, if it is another.
    pub kinds: Vec<(String, Vec<bool>, Option<String>)>,
}

/// The files of the repository that definitions are read from.
pub struct Sources {
    root: PathBuf,
    /// Every file of crates/NAME/specs and crates/NAME/src, and every file of laws right in crates/NAME/proofs, by its
    /// path from `crates/` on.
    files: BTreeMap<String, String>,
}

impl Sources {
    pub fn of(root: &Path) -> Sources {
        let mut files = BTreeMap::new();
        for name in folder(&root.join("crates")) {
            for part in ["specs", "src", "proofs"] {
                for file in folder(&root.join("crates").join(&name).join(part)) {
                    let path = format!("{name}/{part}/{file}");
                    let of_a_function = part == "proofs" && !file.ends_with(".antt");
                    if of_a_function {
                        continue;
                    }
                    let text = std::fs::read_to_string(root.join("crates").join(&path));
                    files.insert(path, text.expect("a text file"));
                }
            }
        }
        let root = root.to_path_buf();
        Sources { root, files }
    }

    pub fn root(&self) -> &Path {
        &self.root
    }

    /// The text of a file, by its path from `crates/` on.
    pub fn text(&self, path: &str) -> &str {
        let text = self.files.get(path);
        text.unwrap_or_else(|| panic!("crates/{path} is not there"))
    }

    /// All program texts with their paths.
    pub fn programs(&self) -> impl Iterator<Item = (&str, &str)> {
        let files = self.files.iter();
        files
            .filter(|(path, _)| path.ends_with(".rt"))
            .map(|(path, text)| (path.as_str(), text.as_str()))
    }

    /// The files that declare a definition, function or type of this name.
    pub fn declaring(&self, name: &str) -> Vec<&str> {
        let declares = |line: &str| declared(line) == Some(name);
        let found = self.files.iter();
        found
            .filter(|(_, text)| text.lines().any(declares))
            .map(|(path, _)| path.as_str())
            .collect()
    }

    pub fn has_crate(&self, name: &str) -> bool {
        self.root.join("crates").join(name).is_dir()
    }

    /// Whether a file or folder is there, named from the repository's top, from `crates/` on, or by the file's name
    /// alone.
    pub fn has_path(&self, path: &str) -> bool {
        let named = |known: &String| known.ends_with(&format!("/{path}"));
        self.root.join(path).exists()
            || self.root.join("crates").join(path).exists()
            || self.files.keys().any(named)
    }

    /// The one file of definitions that declares this name.
    pub fn home(&self, name: &str) -> &str {
        let mut found = self.declaring(name);
        found.retain(|path| path.contains("/specs/"));
        match found[..] {
            [path] => path,
            _ => panic!("`{name}` is declared in {found:?}, not in one file"),
        }
    }
}

/// The names in a folder, sorted; none where there is no folder.
fn folder(path: &Path) -> Vec<String> {
    let Ok(entries) = std::fs::read_dir(path) else {
        return Vec::new();
    };
    let name =
        |entry: std::io::Result<std::fs::DirEntry>| entry.ok()?.file_name().into_string().ok();
    let mut names: Vec<String> = entries.filter_map(name).collect();
    names.sort();
    names
}

/// The name that a line declares, if it declares one: of a definition, a type, a function or a constant.
fn declared(line: &str) -> Option<&str> {
    let words = line.split_whitespace();
    let mut public = false;
    for word in words {
        match word {
            "pub" | "const" => public = true,
            "abbrev" | "unfoldable" | "record" | "data" | "struct" | "enum" | "trait" | "fn"
            | "extern" | "\"C\"" => {}
            _ if !public => return None,
            name => {
                let end = name.find(['(', ':', '<']).unwrap_or(name.len());
                return Some(&name[..end]);
            }
        }
    }
    None
}

/// The right side of `NAME = ..`, for a definition that has one line.
fn value_of<'a>(text: &'a str, left: &str) -> &'a str {
    let found = text
        .lines()
        .find_map(|line| line.strip_prefix(left)?.strip_prefix(" = "));
    found.unwrap_or_else(|| panic!("no line `{left} = ..`"))
}

/// The numbers in a text, in order.
fn numbers(text: &str) -> Vec<usize> {
    let digits = text.split(|c: char| !c.is_ascii_digit());
    digits.filter_map(|word| word.parse().ok()).collect()
}

/// The bytes that a form's `fixed_segments` take: each segment's first number is its size.
fn fixed_size(text: &str, form: &str) -> usize {
    let from = text.find(&format!("\n{form} =")).expect("the form");
    let line = text[from..]
        .lines()
        .find(|line| line.contains("fixed_segments ="));
    numbers(line.expect("its fixed segments")).iter().sum()
}

/// A field of a header with one layout.
fn field(line: &str) -> Option<Field> {
    let (name, run) = line.strip_prefix("layout ")?.split_once(" = ")?;
    let words: Vec<&str> = run.split_whitespace().collect();
    let number = |word: &str| word.parse().expect("a number in a layout");
    let (offset, count, element) = match words[..] {
        ["one", offset, element] => (number(offset), 1, element),
        ["many", offset, count, element] => (number(offset), number(count), element),
        _ => panic!("a layout of another form: {line}"),
    };
    Some(Field {
        name: name.replace('-', "_"),
        offset,
        count,
        element: Element::named(element),
    })
}

/// The path of a header's definitions.
pub fn header_file(kind: &str) -> String {
    format!("mrd_format/specs/{kind}.antt")
}

/// The header of a kind that has one layout.
fn header(sources: &Sources, kind: &str) -> Header {
    let text = sources.text(&header_file(kind));
    let from = text
        .find("fixed_segments = fixed ")
        .expect("a fixed header");
    Header {
        kind: kind.to_string(),
        name: kind.to_string(),
        fields: text.lines().filter_map(field).collect(),
        size: numbers(&text[from..])[0],
    }
}

/// The layouts of a kind that has several, with the bytes that the header has in each.
fn layouts(text: &str) -> Vec<(&str, usize)> {
    let lines = lines_of(text, "header_bytes");
    lines
        .map(|(layout, size)| (layout, size.parse().expect("a size")))
        .collect()
}

/// The headers of a kind that has several layouts: its fields have one type each, and an offset for each layout.
fn headers_by_layout(sources: &Sources, kind: &str) -> Vec<Header> {
    let text = sources.text(&header_file(kind));
    let field = |layout: &str, name: &str, element: &str| Field {
        name: name.replace('-', "_"),
        offset: value_of(text, &format!("offset {layout} {name}"))
            .parse()
            .expect("an offset"),
        count: 1,
        element: Element::named(element),
    };
    let header = |(layout, size): (&str, usize)| Header {
        kind: kind.to_string(),
        name: match layout {
            "Packed" => kind.to_string(),
            _ => format!("{layout}{kind}"),
        },
        fields: lines_of(text, "type_of")
            .map(|(name, element)| field(layout, name, element))
            .collect(),
        size,
    };
    layouts(text).into_iter().map(header).collect()
}

/// The headers, each kind's packed layout first. Fields are in order and inside their header; only an aligned
/// header has filler, and it has each field at a multiple of its size.
pub fn headers(sources: &Sources) -> Vec<Header> {
    let mut headers = vec![header(sources, "Acquisition"), header(sources, "Image")];
    headers.extend(headers_by_layout(sources, "Waveform"));
    for header in &headers {
        let sizes = header.fields.iter().map(|f| f.count * f.element.size());
        let filler = header.filler().iter().map(|(_, size)| size).sum::<usize>();
        assert_eq!(
            sizes.sum::<usize>() + filler,
            header.size,
            "{}: fields and filler fill the header",
            header.name
        );
        let aligned = |f: &Field| f.offset.next_multiple_of(f.element.size()) == f.offset;
        match header.name == header.kind {
            true => assert_eq!(filler, 0, "{}: fields adjoin", header.name),
            false => assert!(
                header.fields.iter().all(aligned),
                "{}: aligned",
                header.name
            ),
        }
    }
    headers
}

/// The name of a kind in a definition by cases, where one that has layouts stands with a letter for them:
/// `(Waveform l)`.
fn kind_name(case: &str) -> &str {
    let inside = case.strip_prefix('(').and_then(|case| case.split_once(' '));
    inside.map_or(case, |(name, _)| name)
}

/// The kinds, in the order of their table.
pub fn kinds(sources: &Sources) -> Vec<Kind> {
    let text = sources.text("mrd_format/specs/Kinds.antt");
    let kind = |(case, id): (&str, &str)| {
        let name = kind_name(case);
        let fixed = match value_of(text, &format!("form_of {case}")) {
            form if form.ends_with(".form l") => {
                let sizes = layouts(sources.text(&header_file(name)));
                sizes.into_iter().map(|(_, size)| size).collect()
            }
            form if form.ends_with(".form") => {
                vec![fixed_size(sources.text(&header_file(name)), "form")]
            }
            form => vec![fixed_size(
                sources.text("mrd_format/specs/Texts.antt"),
                form,
            )],
        };
        Kind {
            name: name.to_string(),
            id: id.parse().expect("an id"),
            fixed,
        }
    };
    lines_of(text, "id_of").map(kind).collect()
}

pub fn refusals(sources: &Sources) -> Vec<Named> {
    let found = variants(sources.text("mrd_format/src/refusal.rt"));
    for (i, refusal) in found.iter().enumerate() {
        assert_eq!(refusal.number, i + 1, "the refusals are numbered from 1 on");
        assert!(
            !refusal.comment.is_empty(),
            "{} has no comment",
            refusal.name
        );
    }
    found
}

/// The variants of a program text's enum and their numbers, each named as a constant, `FIRST_IN_SLICE` for
/// `FirstInSlice`, with the comments right above them.
fn variants(text: &str) -> Vec<Named> {
    let mut found = Vec::new();
    let mut comment = String::new();
    for line in text.lines().map(str::trim) {
        if let Some(words) = line.strip_prefix("// ") {
            let between = if comment.is_empty() { "" } else { " " };
            comment = format!("{comment}{between}{words}");
            continue;
        }
        let row = line.strip_suffix(',').and_then(|row| row.split_once(" = "));
        if let Some((name, Ok(number))) = row.map(|(name, number)| (name, number.parse())) {
            found.push(Named {
                name: crate::c::upper(name),
                number,
                comment: comment.clone(),
            });
        }
        comment.clear();
    }
    found
}

pub fn flags(sources: &Sources) -> Vec<Named> {
    variants(sources.text("mrd_flags/src/acquisition_flag.rt"))
}

/// The element sizes of image data types 1 to 8.
pub fn element_sizes(sources: &Sources) -> Vec<usize> {
    let right = value_of(
        sources.text("mrd_format/specs/Image.antt"),
        "element_size t",
    );
    let (list, _) = right.split_once(')').expect("a list");
    let sizes = numbers(list);
    assert_eq!(
        (sizes.len(), sizes[0]),
        (9, 0),
        "eight data types from 1 on"
    );
    sizes[1..].to_vec()
}

/// A number that is defined by itself, such as a limit.
pub fn number(sources: &Sources, name: &str) -> usize {
    let right = value_of(sources.text(sources.home(name)), name);
    right.parse().expect("a number")
}

/// The order of messages, as the definitions `allowed` and `next_phase` give it.
pub fn order(sources: &Sources) -> Order {
    let text = sources.text(sources.home("allowed"));
    let phases: Vec<String> = lines_of(text, "is_open")
        .map(|(phase, _)| phase.to_string())
        .collect();
    let kinds = lines_of(text, "allowed").map(|(kind, test)| {
        let kind = kind.trim_end_matches(" p");
        let test = test.trim_end_matches(" p");
        let may = |phase: &String| value_of(text, &format!("{test} {phase}")) == "true";
        let next = value_of(text, &format!("next_phase {kind} p"));
        let next = (next != "p").then(|| next.to_string());
        (
            kind_name(kind).to_string(),
            phases.iter().map(may).collect(),
            next,
        )
    });
    let kinds = kinds.collect();
    Order { phases, kinds }
}

/// The lines `NAME left = right` of a definition by cases.
fn lines_of<'a>(text: &'a str, name: &'a str) -> impl Iterator<Item = (&'a str, &'a str)> {
    text.lines()
        .filter_map(move |line| line.strip_prefix(name)?.strip_prefix(' '))
        .filter_map(|line| line.split_once(" = "))
}

/// The numbers of the checks in a definition or a form's `checks`, in order: each stands before a `when`.
fn checks_in(text: &str, start: &str, end: &str) -> Vec<usize> {
    let from = text.find(start).unwrap_or_else(|| panic!("no {start}"));
    let rest = &text[from..];
    let until = rest.find(end).unwrap_or(rest.len());
    let parts: Vec<&str> = rest[..until].split(" when ").collect();
    let before = parts[..parts.len() - 1].iter();
    let number = |part: &&str| *numbers(part).last().expect("a check's number");
    before.map(number).collect()
}

/// The stages of judging a message, in order.
pub fn stages(sources: &Sources) -> Vec<String> {
    let list = value_of(sources.text(sources.home("stages")), "stages");
    let names = list.split(" ∷ ").filter(|name| *name != "[]");
    names.map(str::to_string).collect()
}

/// The checks of a stage, by its definition's name: it stands beside the list of all stages.
pub fn stage_checks(sources: &Sources, name: &str) -> Vec<usize> {
    let text = sources.text(sources.home("stages"));
    checks_in(text, &format!("\n{name} "), "\n\n")
}

/// The checks of a kind's own fixed part.
pub fn own_checks(sources: &Sources, kind: &str) -> Vec<usize> {
    let forms = sources.text("mrd_format/specs/Kinds.antt");
    let form = lines_of(forms, "form_of").find(|(case, _)| kind_name(case) == kind);
    let (_, form) = form.expect("the kind's form");
    match form.contains(".form") {
        true => header_checks(sources.text(&header_file(kind))),
        false => checks_in(
            sources.text("mrd_format/specs/Texts.antt"),
            &format!("\n{form} ="),
            "\n\n",
        ),
    }
}

/// The checks of a header's file: those that its `checks` names, after those of the header alone where it has them.
fn header_checks(text: &str) -> Vec<usize> {
    let by_layout = text.contains("\nchecks l h =");
    let start = if by_layout {
        "\nchecks l h ="
    } else {
        "\nchecks h ="
    };
    let own = checks_in(text, start, "\n\n");
    match text.contains("\nchecks h = header_checks h ++") {
        true => [checks_in(text, "\nheader_checks h =", "\n\n"), own].concat(),
        false => own,
    }
}

/// What is wrong and what to do, for each refusal, from refusals.txt.
pub fn sentences(text: &str, refusals: &[Named]) -> Vec<(String, String)> {
    let lines: Vec<&str> = text
        .lines()
        .filter(|line| !line.is_empty() && !line.starts_with('#'))
        .collect();
    assert_eq!(
        lines.len(),
        3 * refusals.len(),
        "three lines for each refusal"
    );
    let said = |line: &str, of: &str| {
        let words = line
            .strip_prefix(of)
            .unwrap_or_else(|| panic!("`{of}`, not `{line}`"));
        words.to_string()
    };
    let pairs = lines.chunks(3).zip(refusals).map(|(lines, refusal)| {
        assert_eq!(lines[0], refusal.name, "the refusals in their order");
        (said(lines[1], "wrong: "), said(lines[2], "do: "))
    });
    pairs.collect()
}

/// A constant of a program text.
pub fn constant(sources: &Sources, path: &str, name: &str) -> usize {
    let start = format!("const {name}: ");
    let line = sources
        .text(path)
        .lines()
        .find_map(|line| line.strip_prefix(&start));
    let (_, value) = line
        .and_then(|line| line.split_once(" = "))
        .expect("a constant");
    value.trim_end_matches(';').parse().expect("a number")
}
