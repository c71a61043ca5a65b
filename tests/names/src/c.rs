//! include/cotterleaf_names.h: names, numbers and sentences for C.

use crate::definitions::{Element, Header, Kind, Named};
use crate::elements;
use crate::field::Counter;
use crate::rust::{said, words};
use crate::{Format, DATA_TYPES, IMAGE_TYPES};

/// `ConfigurationName` as `CONFIGURATION_NAME`.
pub fn upper(name: &str) -> String {
    let mut out = String::new();
    for c in name.chars() {
        if c.is_ascii_uppercase() && !out.is_empty() {
            out.push('_');
        }
        out.push(c.to_ascii_uppercase());
    }
    out
}

/// A row of an enum: its name, number and what its comment says.
struct Row {
    name: String,
    number: usize,
    comment: String,
}

fn row(name: String, number: usize, comment: impl Into<String>) -> Row {
    let comment = comment.into();
    Row {
        name,
        number,
        comment,
    }
}

/// An enum under a comment; `tag` makes it a type.
fn enumeration(comment: &str, tag: Option<&str>, rows: &[Row]) -> String {
    let width = rows
        .iter()
        .map(|row| format!("{} = {},", row.name, row.number).len());
    let width = width.max().unwrap_or(0);
    let lines: Vec<String> = rows
        .iter()
        .enumerate()
        .map(|(i, row)| {
            let comma = if i + 1 == rows.len() { "" } else { "," };
            let left = format!("{} = {}{comma}", row.name, row.number);
            match row.comment.is_empty() {
                true => format!("    {left}"),
                false => format!("    {left:width$} /* {} */", row.comment),
            }
        })
        .collect();
    let (open, close) = match tag {
        Some(tag) => (format!("typedef enum {tag} {{"), format!("}} {tag};")),
        None => ("enum {".to_string(), "};".to_string()),
    };
    format!("/* {comment} */\n{open}\n{}\n{close}\n\n", lines.join("\n"))
}

fn refusals(refusals: &[Named]) -> String {
    let mut rows = vec![row("MRD_OK".to_string(), 0, "")];
    rows.extend(refusals.iter().map(|refusal| {
        row(
            format!("MRD_REFUSED_{}", refusal.name),
            refusal.number,
            &refusal.comment,
        )
    }));
    let comment = "The numbers of refusal, and 0 where nothing is refused. mrd_refusal_text says what to do about each.";
    enumeration(comment, Some("mrd_refusal"), &rows)
}

fn ids(kinds: &[Kind]) -> String {
    let rows: Vec<Row> = kinds
        .iter()
        .map(|kind| row(format!("MRD_ID_{}", upper(&kind.name)), kind.id, ""))
        .collect();
    enumeration("The kinds of message, by id.", None, &rows)
}

fn type_of(element: Element, count: usize) -> String {
    match count {
        1 => element.in_c().to_string(),
        _ => format!("{}[{count}]", element.in_c()),
    }
}

fn offsets(header: &Header, id: usize) -> String {
    let prefix = format!("MRD_{}", upper(&header.name));
    let mut rows: Vec<Row> = header
        .fields
        .iter()
        .map(|field| {
            let name = format!("{prefix}_{}", field.name.to_uppercase());
            row(name, field.offset, type_of(field.element, field.count))
        })
        .collect();
    rows.push(row(format!("{prefix}_HEADER_SIZE"), header.size, "bytes"));
    let name = words(&header.name);
    let mut comment = format!(
        "Where each element of the {name} header (id {id}) starts, counted from the header's first byte.\n * "
    );
    comment += &match said(&header.filler()) {
        none if none.is_empty() => {
            "Element i of an array lies i times its type's size further.".to_string()
        }
        filler => format!("Bytes {filler} are filler, where none starts."),
    };
    enumeration(&comment, None, &rows)
}

fn counters(counters: &[Counter]) -> String {
    let name = |counter: &Counter| format!("MRD_COUNTER_{}", counter.name().to_uppercase());
    let mut rows: Vec<Row> = counters
        .iter()
        .enumerate()
        .map(|(i, counter)| row(name(counter), i, ""))
        .collect();
    rows.push(row(
        "MRD_COUNTERS".to_string(),
        counters.len(),
        "how many there are",
    ));
    let comment = "The seventeen counters of an acquisition (ISMRMRD's idx), by their place in mrd_find's array; in the\n * \
                   header counter i starts at MRD_ACQUISITION_COUNTERS + 2 * i.";
    enumeration(comment, None, &rows)
}

fn flags(flags: &[Named]) -> String {
    let rows: Vec<Row> = flags
        .iter()
        .map(|flag| row(format!("MRD_FLAG_{}", flag.name), flag.number, ""))
        .collect();
    enumeration(
        "The acquisition flags, for mrd_flag_test and its like. Flag n is bit n - 1.",
        None,
        &rows,
    )
}

fn image_names(sizes: &[usize]) -> String {
    let types: Vec<Row> = DATA_TYPES
        .iter()
        .zip(sizes)
        .enumerate()
        .map(|(i, ((name, of), size))| {
            let name = format!("MRD_DATA_TYPE_{name}");
            row(name, i + 1, format!("{of}, {size} bytes"))
        })
        .collect();
    let images: Vec<Row> = IMAGE_TYPES
        .iter()
        .enumerate()
        .map(|(i, name)| row(format!("MRD_IMAGE_TYPE_{name}"), i + 1, ""))
        .collect();
    enumeration("The data types of an image's pixels.", None, &types)
        + &enumeration(
            "What an image shows, in its header's image_type; it is not checked.",
            None,
            &images,
        )
}

/// A string for C, and one for Rust: the sentences have neither quotes nor backslashes.
pub fn quoted(text: &str) -> String {
    assert!(!text.contains(['"', '\\']), "{text}");
    format!("\"{text}\"")
}

fn sentences(sentences: &[(String, String)]) -> String {
    let lines: Vec<String> = sentences
        .iter()
        .map(|(wrong, remedy)| format!("        {}", quoted(&format!("{wrong}; {remedy}"))))
        .collect();
    format!(
        "/* What is wrong and what to do, as one sentence, for any number: never NULL. */\n\
         static inline const char *mrd_refusal_text(uint32_t refusal)\n{{\n    \
         static const char *const texts[] = {{\n        \"nothing is refused\",\n{}\n    }};\n    \
         if (refusal >= sizeof texts / sizeof texts[0])\n        \
         return \"no refusal has this number; the library and its header may be of different versions\";\n    \
         return texts[refusal];\n}}\n\n",
        lines.join(",\n")
    )
}

fn version(version: &str) -> String {
    let parts: Vec<&str> = version.split('.').collect();
    let names = ["MAJOR", "MINOR", "PATCH"].iter().zip(parts);
    let lines = names.map(|(name, part)| format!("#define COTTERLEAF_VERSION_{name} {part}\n"));
    format!(
        "{}#define COTTERLEAF_VERSION {}\n\n",
        lines.collect::<String>(),
        quoted(version)
    )
}

fn limits(format: &Format) -> String {
    let rows = [
        row(
            "MRD_MAX_MESSAGE_SIZE".to_string(),
            format.message_size,
            "bytes of one message, its id included",
        ),
        row(
            "MRD_MAX_MESSAGES".to_string(),
            format.messages,
            "messages of one stream",
        ),
    ];
    enumeration("The limits of a stream.", None, &rows)
}

pub fn header_file(format: &Format) -> String {
    let mut out = String::from(
        "/* Names and numbers of MRD message streams, for C. Included by cotterleaf.h.\n \
         * Written by tests/names from the definitions in crates/: change those, not this file. */\n\
         #ifndef COTTERLEAF_NAMES_H\n#define COTTERLEAF_NAMES_H\n\n#include <stdbool.h>\n#include <stddef.h>\n#include <stdint.h>\n\n",
    );
    out += &version(&format.version);
    out += &refusals(&format.refusals);
    out += &sentences(&format.sentences);
    out += &limits(format);
    out += &ids(&format.kinds);
    for header in &format.headers {
        out += &offsets(header, format.id(&header.kind));
    }
    out += &counters(&format.counters);
    out += &elements::in_c(format);
    out += &flags(&format.flags);
    out += &image_names(&format.element_sizes);
    out + "#endif\n"
}
