//! Header elements by name: each element of an array by itself, a counter by its own name. From the tables that the
//! offsets come from, for C and for Rust.

use crate::c::{quoted, upper};
use crate::definitions::{Field, Header};
use crate::field::Counter;
use crate::rust::words;
use crate::Format;

/// What is said of the name in both languages, before what is answered where there is none.
const SAID: [&str; 2] = [
    "The name of the header element that starts at an offset, as ISMRMRD spells it: \"flags\", \"user_int[3]\", of a",
    "counter \"counters.slice\".",
];

/// The offset and name of an element.
type Named = (usize, String);

fn name(field: &Field, i: usize, counters: &[Counter]) -> String {
    match (field.name.as_str(), field.count) {
        (array @ "counters", _) => format!("{array}.{}", counters[i].element()),
        (one, 1) => one.to_string(),
        (array, _) => format!("{array}[{i}]"),
    }
}

/// The elements of a field.
fn of_field(field: &Field, counters: &[Counter]) -> Vec<Named> {
    let at = |i| field.offset + i * field.element.size();
    let elements = (0..field.count).map(|i| (at(i), name(field, i, counters)));
    elements.collect()
}

/// Words with spaces between, in lines of at most so many characters.
fn filled(indent: &str, words: &[String], width: usize) -> String {
    let mut lines = vec![String::new()];
    for word in words {
        let line = lines.last_mut().expect("a line");
        match line.is_empty() {
            true => *line = format!("{indent}{word}"),
            false if line.len() + 1 + word.len() <= width => *line += &format!(" {word}"),
            false => lines.push(format!("{indent}{word}")),
        }
    }
    lines.join("\n") + "\n"
}

/// The function in C for the elements of one header; those of a field stand together.
fn c_function(header: &Header, counters: &[Counter]) -> String {
    let row = |(offset, name): Named| format!("{{{offset}, {}}},", quoted(&name));
    let rows = header.fields.iter().map(|field| {
        let rows: Vec<String> = of_field(field, counters).into_iter().map(row).collect();
        filled("        ", &rows, 116)
    });
    let mut rows: String = rows.collect();
    rows.truncate(rows.len() - ",\n".len());
    format!(
        "static inline const char *{}(size_t offset)\n{{\n    static const mrd_element elements[] = {{\n{rows}\n    }};\n    \
         return mrd_element_in(elements, sizeof elements / sizeof elements[0], offset);\n}}\n\n",
        c_name(header)
    )
}

/// The name in C of that function.
fn c_name(header: &Header) -> String {
    format!("mrd_{}_element_name", upper(&header.name).to_lowercase())
}

/// A kind that has headers, with the one or two of them: packed first.
fn of_kinds(format: &Format) -> Vec<(&str, Vec<&Header>)> {
    let kinds = format.kinds.iter().map(|kind| {
        let headers = format.headers.iter().filter(|of| of.kind == kind.name);
        (kind.name.as_str(), headers.collect::<Vec<_>>())
    });
    kinds.filter(|(_, headers)| !headers.is_empty()).collect()
}

/// The part of cotterleaf_names.h about the names of elements.
pub fn in_c(format: &Format) -> String {
    let functions = format.headers.iter();
    let functions = functions.map(|header| c_function(header, &format.counters));
    let cases = of_kinds(format).into_iter().map(|(kind, headers)| {
        let named = match headers[..] {
            [one] => format!("{}(offset)", c_name(one)),
            [packed, aligned] => format!(
                "aligned_waveforms ? {}(offset) : {}(offset)",
                c_name(aligned),
                c_name(packed)
            ),
            _ => panic!("{kind} has more than two layouts"),
        };
        format!(
            "    case MRD_ID_{}:\n        return {named};\n",
            upper(kind)
        )
    });
    format!(
        "/* Elements by the offset at which they start, for mrd_element_name. */\n\
         typedef struct {{\n    size_t offset;\n    const char *name;\n}} mrd_element;\n\n\
         static inline const char *mrd_element_in(const mrd_element *elements, size_t count, size_t offset)\n{{\n    \
         for (size_t i = 0; i < count; i++)\n        if (elements[i].offset == offset)\n            \
         return elements[i].name;\n    return NULL;\n}}\n\n{}\
         /* {}\n * {} NULL where none starts there, and for a kind without a header. */\n\
         static inline const char *mrd_element_name(uint16_t id, bool aligned_waveforms, size_t offset)\n{{\n    \
         switch (id) {{\n{}    default:\n        return NULL;\n    }}\n}}\n\n",
        functions.collect::<String>(),
        SAID[0],
        SAID[1],
        cases.collect::<String>()
    )
}

/// The name in Rust of a header's table.
fn rust_name(header: &Header) -> String {
    format!("{}_ELEMENTS", upper(&header.name))
}

/// The table in Rust of the elements of one header.
fn rust_table(header: &Header, counters: &[Counter]) -> String {
    let elements = header.fields.iter();
    let elements: Vec<Named> = elements.flat_map(|f| of_field(f, counters)).collect();
    let rows = elements.iter();
    let rows = rows.map(|(offset, name)| format!("    ({offset}, {}),\n", quoted(name)));
    format!(
        "/// The elements of the {} header.\nconst {}: [(usize, &str); {}] = [\n{}];\n\n",
        words(&header.name),
        rust_name(header),
        elements.len(),
        rows.collect::<String>()
    )
}

/// The part of rust/src/names.rs about the names of elements.
pub fn in_rust(format: &Format) -> String {
    let tables = format.headers.iter();
    let tables = tables.map(|header| rust_table(header, &format.counters));
    let arms = of_kinds(format).into_iter().map(|(kind, headers)| {
        let id = format!("id::{}", upper(kind));
        match headers[..] {
            [one] => format!("        ({id}, _) => &{},\n", rust_name(one)),
            [packed, aligned] => format!(
                "        ({id}, Layout::Packed) => &{},\n        ({id}, Layout::Aligned) => &{},\n",
                rust_name(packed),
                rust_name(aligned)
            ),
            _ => panic!("{kind} has more than two layouts"),
        }
    });
    format!(
        "{}/// {}\n/// {} None where none starts there, and for a kind without a header.\n\
         pub fn element_name(id: u16, layout: Layout, offset: usize) -> Option<&'static str> {{\n    \
         let elements: &[(usize, &str)] = match (id, layout) {{\n{}        _ => return None,\n    }};\n    \
         let found = elements.binary_search_by_key(&offset, |(start, _)| *start);\n    \
         found.ok().map(|i| elements[i].1)\n}}\n\n",
        tables.collect::<String>(),
        SAID[0].replace('"', "`"),
        SAID[1].replace('"', "`"),
        arms.collect::<String>()
    )
}
