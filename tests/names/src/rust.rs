//! rust/src/names.rs and rust/src/headers.rs: the same names for Rust, and an accessor for each header field.

use crate::c::{quoted, upper};
use crate::definitions::{Element, Field, Header};
use crate::elements;
use crate::{Format, DATA_TYPES, IMAGE_TYPES};

const FROM: &str =
    "//! Written by tests/names from the definitions in crates/: change those, not this file.\n\n";

/// A constant with its comment.
fn constant(indent: &str, comment: &str, name: &str, of: &str, number: usize) -> String {
    let comment = if comment.is_empty() {
        String::new()
    } else {
        format!("{indent}/// {comment}\n")
    };
    format!("{comment}{indent}pub const {name}: {of} = {number};\n")
}

fn module(comment: &str, name: &str, lines: &str) -> String {
    format!("/// {comment}\npub mod {name} {{\n{lines}}}\n\n")
}

fn type_of(element: Element, count: usize) -> String {
    match count {
        1 => element.in_rust().to_string(),
        _ => format!("[{}; {count}]", element.in_rust()),
    }
}

fn refused(format: &Format) -> String {
    let lines = format.refusals.iter();
    let lines = lines.map(|r| constant("    ", &r.comment, &r.name, "u32", r.number));
    let rows = format.sentences.iter().map(|(wrong, remedy)| {
        format!(
            "    (\n        {},\n        {},\n    ),\n",
            quoted(wrong),
            quoted(remedy)
        )
    });
    module(
        "The numbers of refusal.",
        "refused",
        &lines.collect::<String>(),
    ) + &format!(
        "/// What is wrong and what to do, for each number of refusal from 1 on.\n\
             pub(crate) const SENTENCES: [(&str, &str); {}] = [\n{}];\n\n",
        format.sentences.len(),
        rows.collect::<String>()
    )
}

fn ids(format: &Format) -> String {
    let lines = format.kinds.iter().map(|kind| {
        let name = upper(&kind.name);
        let comment = format!("A {}.", words(&kind.name));
        let comment = comment
            .replace("A acq", "An acq")
            .replace("A ima", "An ima");
        constant(
            "    ",
            &comment.replace("A close", "The close"),
            &name,
            "u16",
            kind.id,
        )
    });
    module(
        "The ids of the eight kinds of message.",
        "id",
        &lines.collect::<String>(),
    )
}

/// `ConfigurationName` as `configuration name`.
pub fn words(name: &str) -> String {
    upper(name).to_lowercase().replace('_', " ")
}

/// Bytes as a sentence says them, from their first and how many they are: `2 to 7, 38 and 39`.
pub fn said(ranges: &[(usize, usize)]) -> String {
    let said = |(first, count): &(usize, usize)| match (first, first + count - 1) {
        (first, last) if last - first < 2 => (*first..=last).map(|byte| byte.to_string()).collect(),
        (first, last) => vec![format!("{first} to {last}")],
    };
    let mut words: Vec<String> = ranges.iter().flat_map(said).collect();
    match words.pop() {
        Some(last) if !words.is_empty() => format!("{} and {last}", words.join(", ")),
        last => last.unwrap_or_default(),
    }
}

/// A function from a number to its name, in small letters as the answers of programs have it.
fn named(comment: &str, function: &str, of: &str, names: &[(usize, &str)]) -> String {
    let arms = names.iter().map(|(number, name)| {
        let name = quoted(&name.to_lowercase());
        format!("        {number} => {name},\n")
    });
    format!(
        "/// {comment}\npub fn {function}(number: {of}) -> Option<&'static str> {{\n    Some(match number {{\n{}        \
         _ => return None,\n    }})\n}}\n\n",
        arms.collect::<String>()
    )
}

fn flags(format: &Format) -> String {
    let names: Vec<(usize, &str)> = format
        .flags
        .iter()
        .map(|flag| (flag.number, flag.name.as_str()))
        .collect();
    let lines = format.flags.iter();
    let lines = lines.map(|flag| {
        constant(
            "    ",
            &format!("Flag {}.", flag.number),
            &flag.name,
            "u32",
            flag.number,
        )
    });
    let comment = "The acquisition flags by name, for [`flag_test`](crate::flag_test) and its like. Numbers that are not here have none.";
    let name_of =
        "The name of an acquisition flag, `first_in_slice` for 7; none where its number has none.";
    module(comment, "acquisition_flag", &lines.collect::<String>())
        + &named(name_of, "flag_name", "u32", &names)
}

fn counters(format: &Format) -> String {
    let names = format.counters.iter().map(|counter| counter.name());
    let lines = names.enumerate().map(|(i, name)| {
        constant(
            "    ",
            &format!("`{name}`."),
            &name.to_uppercase(),
            "usize",
            i,
        )
    });
    let comment =
        "The seventeen counters of an acquisition (ISMRMRD's `idx`), by their place in the array.";
    let quoted = format
        .counters
        .iter()
        .map(|counter| quoted(&counter.name()));
    let rows = quoted.map(|name| format!("    {name},\n"));
    module(comment, "counter", &lines.collect::<String>())
        + &format!(
            "/// The names of the seventeen counters, by their place in the array.\n\
             pub const COUNTER_NAMES: [&str; {}] = [\n{}];\n\n",
            format.counters.len(),
            rows.collect::<String>()
        )
}

fn image_names(format: &Format) -> String {
    let types = DATA_TYPES.iter().zip(&format.element_sizes).enumerate();
    let types = types.map(|(i, ((name, of), size))| {
        constant(
            "    ",
            &format!("`{of}`, {size} bytes."),
            name,
            "u16",
            i + 1,
        )
    });
    let images = IMAGE_TYPES.iter().enumerate();
    let images =
        images.map(|(i, name)| constant("    ", &format!("Number {}.", i + 1), name, "u16", i + 1));
    module(
        "The data types of an image's pixels.",
        "data_type",
        &types.collect::<String>(),
    ) + &module(
        "What an image shows; it is not checked.",
        "image_type",
        &images.collect::<String>(),
    ) + &named(
        "The name of a data type of pixels, `cxfloat` for 7; none where there is no such type.",
        "data_type_name",
        "u16",
        &numbered(DATA_TYPES.map(|(name, _)| name)),
    ) + &named(
        "The name of what an image shows, `magnitude` for 1; none where its number has none.",
        "image_type_name",
        "u16",
        &numbered(IMAGE_TYPES),
    )
}

/// Names with their numbers, from 1 on.
fn numbered<const N: usize>(names: [&str; N]) -> Vec<(usize, &str)> {
    (1..).zip(names).collect()
}

fn offsets(format: &Format) -> String {
    let mut lines = String::new();
    for header in &format.headers {
        let name = words(&header.name);
        let rows = header.fields.iter().map(|field| {
            let comment = format!("`{}`.", type_of(field.element, field.count));
            constant(
                "        ",
                &comment,
                &field.name.to_uppercase(),
                "usize",
                field.offset,
            )
        });
        let an = if name == "waveform" { "a" } else { "an" };
        let filler = match said(&header.filler()) {
            none if none.is_empty() => none,
            filler => format!(" Bytes {filler} are filler, where none starts."),
        };
        lines += &format!(
            "    /// In the header of {an} {name}, {} bytes.{filler}\n    pub mod {} {{\n{}    }}\n",
            header.size,
            name.replace(' ', "_"),
            rows.collect::<String>()
        );
    }
    let comment = "Where each header element starts, counted from the header's first byte: the offsets that \
                   [`field`](crate::Stream::field) takes. Element i of an array lies i times its type's size further.";
    module(comment, "offset", &lines)
}

pub fn names_file(format: &Format) -> String {
    let mut out = String::from("//! Names and numbers of MRD message streams.\n");
    out += FROM;
    out += "use crate::rules::Layout;\n\n";
    out += &refused(format);
    for (comment, name, number) in [
        (
            "The largest message, in bytes, its id included.",
            "MAX_MESSAGE_SIZE",
            format.message_size,
        ),
        (
            "The most messages of one stream.",
            "MAX_MESSAGES",
            format.messages,
        ),
    ] {
        out += &constant("", comment, name, "usize", number);
        out.push('\n');
    }
    out += &ids(format);
    out += &offsets(format);
    out += &counters(format);
    out += &elements::in_rust(format);
    out += &flags(format);
    out += &image_names(format);
    out.truncate(out.len() - 1);
    out
}

/// An accessor, with what its comment says of the offset and the expression for it.
fn accessor(field: &Field, said: &str, at: &str) -> String {
    let of = type_of(field.element, field.count);
    let read = if field.count == 1 {
        "element"
    } else {
        "elements"
    };
    let name = &field.name;
    format!(
        "\n    /// `{name}`, at offset {said}.\n    pub fn {name}(&self) -> {of} {{\n        {read}(self.bytes, {at})\n    }}\n"
    )
}

fn header(header: &Header, id: usize) -> String {
    let (kind, size) = (&header.kind, header.size);
    let an = if kind == "Waveform" { "a" } else { "an" };
    let accessors = header.fields.iter().map(|field| {
        let at = field.offset.to_string();
        accessor(field, &at, &at)
    });
    let accessors: String = accessors.collect();
    format!(
        "/// The header of {an} {} (id {id}): its {size} bytes as they lie in the stream, and each field by name.\n\
         #[derive(Clone, Copy, Debug, PartialEq, Eq, Hash)]\n\
         pub struct {kind}Header<'a> {{\n    bytes: &'a [u8; {size}],\n}}\n\n\
         impl<'a> {kind}Header<'a> {{\n    \
         /// How many bytes the header has.\n    pub const SIZE: usize = {size};\n\n    \
         /// A header from its bytes.\n    \
         pub fn new(bytes: &'a [u8; {size}]) -> {kind}Header<'a> {{\n        {kind}Header {{ bytes }}\n    }}\n\n    \
         /// The bytes.\n    pub fn bytes(&self) -> &'a [u8; {size}] {{\n        self.bytes\n    }}\n{accessors}}}\n\n",
        kind.to_lowercase()
    )
}

/// The header of a kind with two layouts, which holds its layout beside the bytes.
fn header_of_layouts(packed: &Header, aligned: &Header, id: usize) -> String {
    let kind = &packed.kind;
    let accessors = packed.fields.iter().zip(&aligned.fields).map(|(p, a)| {
        assert_eq!(p.name, a.name, "the same fields in both layouts");
        match (p.offset, a.offset) {
            (packed, aligned) if packed == aligned => {
                accessor(p, &packed.to_string(), &packed.to_string())
            }
            (packed, aligned) => {
                let said = format!("{packed}, aligned {aligned}");
                accessor(p, &said, &format!("self.at({packed}, {aligned})"))
            }
        }
    });
    let made = [(packed, "Packed"), (aligned, "Aligned")].map(|(header, layout)| {
        let (size, constructor) = (header.size, layout.to_lowercase());
        format!(
            "    /// A header from its {size} bytes, {constructor}.\n    \
             pub fn {constructor}(bytes: &'a [u8; {size}]) -> {kind}Header<'a> {{\n        {kind}Header {{\n            \
             layout: Layout::{layout},\n            bytes,\n        }}\n    }}\n\n"
        )
    });
    format!(
        "/// The header of a {} (id {id}) in one of its layouts: its bytes as they lie in the stream, {} packed or {}\n\
         /// aligned, and each field by name. Two are equal where layout and bytes are, filler too.\n\
         #[derive(Clone, Copy, Debug, PartialEq, Eq, Hash)]\n\
         pub struct {kind}Header<'a> {{\n    layout: Layout,\n    bytes: &'a [u8],\n}}\n\n\
         impl<'a> {kind}Header<'a> {{\n    \
         /// How many bytes the header has in a layout.\n    \
         pub const fn size(layout: Layout) -> usize {{\n        match layout {{\n            \
         Layout::Packed => {},\n            Layout::Aligned => {},\n        }}\n    }}\n\n{}    \
         /// The layout.\n    pub fn layout(&self) -> Layout {{\n        self.layout\n    }}\n\n    \
         /// The bytes.\n    pub fn bytes(&self) -> &'a [u8] {{\n        self.bytes\n    }}\n\n    \
         /// The offset in this header's layout.\n    \
         fn at(&self, packed: usize, aligned: usize) -> usize {{\n        match self.layout {{\n            \
         Layout::Packed => packed,\n            Layout::Aligned => aligned,\n        }}\n    }}\n{}}}\n\n",
        kind.to_lowercase(),
        packed.size,
        aligned.size,
        packed.size,
        aligned.size,
        made.concat(),
        accessors.collect::<String>(),
    )
}

pub fn headers_file(format: &Format) -> String {
    let mut out = String::from("//! The three headers, each field by its name.\n");
    out += FROM;
    out += "use crate::element::{element, elements};\nuse crate::rules::Layout;\n\n";
    for kind in &format.kinds {
        let of_kind = format.headers.iter().filter(|of| of.kind == kind.name);
        out += &match of_kind.collect::<Vec<_>>()[..] {
            [] => String::new(),
            [of] => header(of, kind.id),
            [packed, aligned] => header_of_layouts(packed, aligned, kind.id),
            _ => panic!("{} has more than two layouts", kind.name),
        };
    }
    out.truncate(out.len() - 1);
    out
}
