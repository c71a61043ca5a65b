//! What the Rattle sources export to C, written out as checks that a compiler makes: tests/c/interface.c holds
//! include/cotterleaf.h to it, rust/src/raw/interface.rs holds rust/src/raw.rs to it.

use crate::c::upper;
use crate::definitions::Sources;
use std::collections::BTreeMap;

/// How tests/c/interface.c begins. A member is held to its type by `_Generic`, to which an array would be a pointer.
const C_BEGINNING: &str = r##"/* Holds include/cotterleaf.h to the Rattle sources when it is compiled: offset and type of every member of every
 * struct, and the type of every function, which are declared here once more.
 * Written by tests/names from the functions marked #[unsafe(no_mangle)]: change those, not this file. */
#include "cotterleaf.h"

#define AT(of, member, offset) \
    _Static_assert(offsetof(of, member) == (offset), #of "." #member ": another offset")
#define TYPE(value, type) _Static_assert(_Generic(value, type: 1, default: 0), #value ": not of type " #type)
#define MEMBER(of, member, offset, type) \
    AT(of, member, offset);              \
    TYPE(((of){0}).member, type)
#define ARRAY(of, member, offset, type, size) \
    AT(of, member, offset);                   \
    TYPE(((of){0}).member[0], type);          \
    _Static_assert(sizeof((of){0}.member) == (size), #of "." #member ": another size")
"##;

const RUST_BEGINNING: &str = r##"//! Holds the declarations of raw.rs to the Rattle sources when it is compiled: offset and type of every member of
//! every struct, and the type of every function.
//! Written by tests/names from the functions marked #[unsafe(no_mangle)]: change those, not this file.

use super::*;
use std::mem::{offset_of, size_of};
"##;

/// A struct that crosses the boundary: its members in order, each with its Rattle type.
struct Struct {
    name: String,
    members: Vec<(String, String)>,
}

/// A function that crosses the boundary.
struct Function {
    name: String,
    parameters: Vec<(String, String)>,
    result: String,
}

pub struct Interface {
    structs: Vec<Struct>,
    functions: Vec<Function>,
}

/// The name in C of a Rattle struct: `ViewPlace` is `mrd_view_place`.
fn in_c(name: &str) -> String {
    format!("mrd_{}", upper(name).to_lowercase())
}

/// `name: type` pairs of a list, with or without `pub`.
fn pairs(list: &str) -> Vec<(String, String)> {
    let list = list
        .lines()
        .filter(|line| !line.trim().starts_with("//"))
        .collect::<Vec<_>>();
    let list = list.join(" ");
    let pair = |item: &str| {
        let (name, of) = item.split_once(':')?;
        let name = name.trim().trim_start_matches("pub ");
        Some((name.to_string(), of.trim().to_string()))
    };
    list.split(',').filter_map(pair).collect()
}

/// What stands after each mark, with the attributes between left out; every mark is followed by what it marks.
fn marked<'a>(text: &'a str, mark: &'a str, of: &'a str) -> impl Iterator<Item = &'a str> {
    let parts = text.split(mark).skip(1);
    parts.map(move |part| {
        let mut rest = part;
        while rest.starts_with("#[") {
            (_, rest) = rest.split_once('\n').expect("the end of an attribute");
        }
        let found = rest.strip_prefix(of);
        found.unwrap_or_else(|| panic!("no `{of}` after {}", mark.trim_end()))
    })
}

fn structs(text: &str) -> Vec<Struct> {
    marked(text, "#[repr(C)]\n", "pub struct ")
        .map(|part| {
            let (name, rest) = part.split_once(" {").expect("a struct with members");
            let (members, _) = rest.split_once("\n}").expect("its end");
            let (name, members) = (name.to_string(), pairs(members));
            Struct { name, members }
        })
        .collect()
}

fn functions(text: &str) -> Vec<Function> {
    marked(text, "#[unsafe(no_mangle)]\n", "pub extern \"C\" fn ")
        .map(|part| {
            let (name, rest) = part.split_once('(').expect("a function");
            let (parameters, rest) = rest.split_once(") -> ").expect("its parameters and result");
            let end = rest
                .find(|c: char| c.is_whitespace())
                .expect("what follows the result");
            Function {
                name: name.to_string(),
                parameters: pairs(parameters),
                result: rest[..end].to_string(),
            }
        })
        .collect()
}

impl Interface {
    pub fn of(sources: &Sources) -> Interface {
        let mut found = Interface {
            structs: Vec::new(),
            functions: Vec::new(),
        };
        for (path, text) in sources.programs() {
            found.structs.extend(structs(text));
            // The library has the functions of this crate alone; `reads_compared` exports for the tests.
            if path.starts_with("cotterleaf/") {
                found.functions.extend(functions(text));
            }
        }
        found.functions.sort_by(|a, b| a.name.cmp(&b.name));
        found.order_structs();
        found
    }

    /// Each struct after those that its members have.
    fn order_structs(&mut self) {
        let mut ordered: Vec<Struct> = Vec::new();
        while !self.structs.is_empty() {
            let waits = |s: &Struct| {
                let others = self.structs.iter().map(|other| &other.name);
                let others: Vec<&String> = others.collect();
                s.members.iter().any(|(_, of)| others.contains(&of))
            };
            let ready = self.structs.iter().position(|s| !waits(s));
            ordered.push(
                self.structs
                    .remove(ready.expect("structs without a circle")),
            );
        }
        self.structs = ordered;
    }

    /// Size and alignment of each type by the rules of C on x86-64, and each struct's offsets.
    fn layouts(&self) -> Vec<(usize, Vec<(usize, usize)>)> {
        let plain = [
            ("bool", 1),
            ("u8", 1),
            ("u16", 2),
            ("u32", 4),
            ("i32", 4),
            ("u64", 8),
            ("usize", 8),
        ];
        let mut known: BTreeMap<&str, (usize, usize)> = BTreeMap::new();
        known.extend(plain.map(|(name, size)| (name, (size, size))));
        let mut layouts = Vec::new();
        for s in &self.structs {
            let (mut at, mut most, mut members) = (0usize, 1, Vec::new());
            for (name, of) in &s.members {
                let (element, count) = repeated(of);
                let known = known.get(element);
                let (size, align) = *known.unwrap_or_else(|| panic!("{name}: {of}"));
                let size = count * size;
                at = at.next_multiple_of(align);
                members.push((at, size));
                at += size;
                most = most.max(align);
            }
            let size = at.next_multiple_of(most);
            known.insert(&s.name, (size, most));
            layouts.push((size, members));
        }
        layouts
    }

    pub fn c_file(&self) -> String {
        let mut out = String::from(C_BEGINNING);
        for (s, (size, members)) in self.structs.iter().zip(self.layouts()) {
            let name = in_c(&s.name);
            out +=
                &format!("\n_Static_assert(sizeof({name}) == {size}, \"{name}: another size\");\n");
            for ((member, of), (offset, size)) in s.members.iter().zip(members) {
                out += &match repeated(of) {
                    (element, 1) => format!(
                        "MEMBER({name}, {member}, {offset}, {});\n",
                        c_plain(element)
                    ),
                    (element, _) => format!(
                        "ARRAY({name}, {member}, {offset}, {}, {size});\n",
                        c_plain(element)
                    ),
                };
            }
        }
        out.push('\n');
        for f in &self.functions {
            let parameters: Vec<String> = f.parameters.iter().map(|(_, of)| c_type(of)).collect();
            let parameters = match parameters.is_empty() {
                true => "void".to_string(),
                false => parameters.join(", "),
            };
            out += &format!("{} {}({parameters});\n", c_type(&f.result), f.name);
        }
        out + "\nint main(void)\n{\n    return 0;\n}\n"
    }

    pub fn rust_file(&self) -> String {
        let mut out = String::from(RUST_BEGINNING);
        for (s, (size, members)) in self.structs.iter().zip(self.layouts()) {
            let name = in_c(&s.name);
            out += &format!("\nconst _: () = assert!(size_of::<{name}>() == {size});\n");
            for ((member, of), (offset, _)) in s.members.iter().zip(members) {
                let of = rust_member(of);
                out +=
                    &format!("const _: () = assert!(offset_of!({name}, {member}) == {offset});\n");
                out += &format!("const _: fn({name}) -> {of} = |of| of.{member};\n");
            }
        }
        out.push('\n');
        for f in &self.functions {
            let parameters: Vec<String> =
                f.parameters.iter().map(|(_, of)| rust_type(of)).collect();
            let parameters = parameters.join(", ");
            out += &typed(&parameters, &rust_type(&f.result), &f.name);
        }
        out
    }

    /// The functions that a header does not declare.
    pub fn missing(&self, header: &str) -> Vec<&str> {
        let names = self.functions.iter().map(|f| f.name.as_str());
        names
            .filter(|name| !header.contains(&format!(" {name}(")))
            .collect()
    }
}

/// A line that compiles where a function has this type, in rustfmt's layout.
fn typed(parameters: &str, result: &str, name: &str) -> String {
    let left = format!("const _: unsafe extern \"C\" fn({parameters}) -> {result} =");
    match left.len() {
        ..=100 if left.len() + name.len() + 2 <= 100 => format!("{left} {name};\n"),
        ..=100 => format!("{left}\n    {name};\n"),
        _ => {
            let lines = parameters.split(", ").map(|of| format!("    {of},\n"));
            let lines: String = lines.collect();
            format!("const _: unsafe extern \"C\" fn(\n{lines}) -> {result} = {name};\n")
        }
    }
}

/// The element type and length of an array; any other type is one of itself.
fn repeated(of: &str) -> (&str, usize) {
    let array = of
        .strip_prefix('[')
        .and_then(|array| array.strip_suffix(']'));
    match array.and_then(|array| array.split_once("; ")) {
        Some((element, count)) => (element, count.parse().expect("an array's length")),
        None => (of, 1),
    }
}

/// The element of a slice or array type and whether it is written to: a slice crosses as pointer and length, an
/// array as a pointer.
enum Crossing<'a> {
    Slice(&'a str, bool),
    Array(&'a str, &'a str),
    Plain(&'a str),
}

fn crossing(of: &str) -> Crossing<'_> {
    let written = of.starts_with("&mut ");
    let inner = of.trim_start_matches("&mut ").trim_start_matches('&');
    match inner
        .strip_prefix('[')
        .and_then(|list| list.strip_suffix(']'))
    {
        Some(list) => match list.split_once(';') {
            Some((element, count)) => Crossing::Array(element, count.trim()),
            None => Crossing::Slice(list, written),
        },
        None => Crossing::Plain(of),
    }
}

/// The type of a member in Rust.
fn rust_member(of: &str) -> String {
    match of.starts_with(char::is_uppercase) {
        true => in_c(of),
        false => of.to_string(),
    }
}

fn c_plain(of: &str) -> String {
    match of {
        "bool" => "bool".to_string(),
        "usize" => "size_t".to_string(),
        "u8" | "u16" | "u32" | "u64" => format!("uint{}_t", &of[1..]),
        "i32" => "int32_t".to_string(),
        name => in_c(name),
    }
}

fn c_type(of: &str) -> String {
    match crossing(of) {
        Crossing::Slice(element, true) => format!("{} *, size_t", c_plain(element)),
        Crossing::Slice(element, false) => format!("const {} *, size_t", c_plain(element)),
        Crossing::Array(element, count) => format!("const {}[{count}]", c_plain(element)),
        Crossing::Plain(of) => c_plain(of),
    }
}

fn rust_type(of: &str) -> String {
    match crossing(of) {
        Crossing::Slice(element, true) => format!("*mut {element}, usize"),
        Crossing::Slice(element, false) => format!("*const {element}, usize"),
        Crossing::Array(element, _) => format!("*const {element}"),
        Crossing::Plain(of) => rust_member(of),
    }
}
