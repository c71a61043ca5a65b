//! The tables of the pages: each stands between `<!-- names: NAME -->` and `<!-- end -->`.

use crate::definitions::{self, header_file, Field, Header, Sources};
use crate::rust::words;
use crate::{Format, DATA_TYPES};

/// A number with a comma before every three digits.
fn grouped(number: usize) -> String {
    let digits = number.to_string();
    let first = digits.len() % 3;
    let mut out = digits[..first].to_string();
    for three in digits.as_bytes()[first..].chunks(3) {
        if !out.is_empty() {
            out.push(',');
        }
        out += std::str::from_utf8(three).expect("digits");
    }
    out
}

/// A table from its head's cells and its rows' cells.
fn table(head: &[&str], rows: Vec<Vec<String>>) -> String {
    let mut out = format!("| {} |\n|{}\n", head.join(" | "), "---|".repeat(head.len()));
    for row in rows {
        assert_eq!(row.len(), head.len(), "a cell for each column");
        out += &format!("| {} |\n", row.join(" | "));
    }
    out
}

/// Where a definition stands, as a line under its table.
fn carried(names: &[&str], path: &str) -> String {
    let names: Vec<String> = names.iter().map(|name| format!("`{name}`")).collect();
    format!("\nDefinition: {} in `{path}`.\n", names.join(", "))
}

/// What follows the fixed part of a kind.
fn then(kind: &str) -> &'static str {
    match kind {
        "ConfigurationName" | "Close" => "nothing",
        "ConfigurationText" | "HeaderText" | "Text" => {
            "L bytes of text, L being the u32 in the fixed part"
        }
        "Acquisition" => {
            "trajectory: number_of_samples x trajectory_dimensions x 4 bytes; \
             then samples: active_channels x number_of_samples x 8 bytes"
        }
        "Image" => "attributes: A bytes, A being the u64 after the header; then pixels",
        "Waveform" => "data: channels x number_of_samples x 4 bytes",
        other => panic!("nothing is said of what follows the fixed part of {other}"),
    }
}

fn kinds(format: &Format) -> String {
    let rows = format.kinds.iter().map(|kind| {
        let mut headers = format.headers.iter();
        let header = headers.find(|header| header.kind == kind.name);
        let fixed = match (&kind.fixed[..], header) {
            ([packed, aligned], _) => format!("{packed}, aligned {aligned}"),
            ([fixed], Some(header)) if *fixed > header.size => {
                format!("{} + {}", header.size, fixed - header.size)
            }
            ([fixed], _) => grouped(*fixed),
            _ => panic!("{} has more than two layouts", kind.name),
        };
        vec![
            kind.id.to_string(),
            words(&kind.name),
            fixed,
            then(&kind.name).to_string(),
        ]
    });
    table(&["id", "kind", "fixed part, bytes", "then"], rows.collect())
        + &carried(
            &["id_of", "form_of", "fixed_size"],
            "mrd_format/specs/Kinds.antt",
        )
}

fn order(format: &Format, sources: &Sources) -> String {
    let mut head = vec!["message"];
    let phases: Vec<String> = format
        .order
        .phases
        .iter()
        .map(|phase| phase.to_lowercase())
        .collect();
    head.extend(phases.iter().map(String::as_str));
    head.push("phase after it");
    let rows = format.order.kinds.iter().map(|(kind, may, next)| {
        let mut row = vec![words(kind)];
        row.extend(
            may.iter()
                .map(|may| if *may { "allowed" } else { "12" }.to_string()),
        );
        row.push(
            next.as_ref()
                .map_or("the same".to_string(), |next| next.to_lowercase()),
        );
        row
    });
    table(&head, rows.collect()) + &carried(&["allowed", "next_phase"], sources.home("allowed"))
}

/// What is said of a stage: its name in words, and what it is about.
fn stage_words(stage: &str) -> (&'static str, &'static str) {
    match stage {
        "front" => ("front", "before the id is looked at"),
        "id" => (
            "id",
            "2 where the id names no kind, else 12 where the kind may not come now",
        ),
        "fixed" => ("fixed part", "3, and then the kind's own checks, below"),
        "size" => ("size", "the whole message, by the sizes in its fixed part"),
        "text" => (
            "text",
            "in the strict profile: the name, the text or the attributes",
        ),
        other => {
            panic!("nothing is said of the stage {other}: say it in tests/names/src/tables.rs")
        }
    }
}

/// The stages of judging a message, each with its checks in order.
fn stages(sources: &Sources) -> String {
    let row = |stage: String| {
        let (words, of) = stage_words(&stage);
        let name = format!("{stage}_checks");
        vec![
            words.to_string(),
            listed(&definitions::stage_checks(sources, &name)),
            of.to_string(),
            format!("`{name}`"),
        ]
    };
    let names = ["stages", "checks_as"];
    table(
        &["stage", "checks, in order", "", "definition"],
        definitions::stages(sources).into_iter().map(row).collect(),
    ) + &carried(&names, sources.home("stages"))
}

/// The checks of each kind's own fixed part.
fn own_checks(format: &Format, sources: &Sources) -> String {
    let checks = |name: &str| match definitions::own_checks(sources, name) {
        none if none.is_empty() => "none".to_string(),
        some => listed(&some),
    };
    let rows = format
        .kinds
        .iter()
        .map(|kind| vec![words(&kind.name), checks(&kind.name)]);
    table(&["kind", "own checks, in order"], rows.collect())
        + &carried(&["own_checks"], "mrd_format/specs/Message.antt")
}

/// Numbers with commas between.
fn listed(numbers: &[usize]) -> String {
    let words: Vec<String> = numbers.iter().map(usize::to_string).collect();
    words.join(", ")
}

fn element_name(field: &Field) -> String {
    match field.count {
        1 => field.name.clone(),
        count => format!("{}[{count}]", field.name),
    }
}

fn header(header: &Header, definitions: &[&str]) -> String {
    let field = |field: &Field| {
        let of = field.element.in_rust().to_string();
        (field.offset, of, format!("`{}`", element_name(field)))
    };
    let filler = |(at, size)| (at, format!("{size} bytes"), "filler".to_string());
    let mut rows: Vec<(usize, String, String)> = header.fields.iter().map(field).collect();
    rows.extend(header.filler().into_iter().map(filler));
    rows.sort();
    let cells = rows
        .into_iter()
        .map(|(at, of, name)| vec![at.to_string(), of, name]);
    table(&["offset", "type", "name"], cells.collect())
        + &carried(definitions, &header_file(&header.kind))
}

fn counters(format: &Format) -> String {
    let names = format.counters.iter().map(|counter| counter.name());
    let names = names.enumerate();
    let names: Vec<String> = names.map(|(i, name)| format!("{i} `{name}`")).collect();
    format!("{}.\n", names.join(", "))
}

fn data_types(format: &Format) -> String {
    let rows = DATA_TYPES.iter().zip(&format.element_sizes).enumerate();
    let rows = rows.map(|(i, ((name, of), size))| {
        vec![
            (i + 1).to_string(),
            name.to_string(),
            of.to_string(),
            size.to_string(),
        ]
    });
    table(&["data_type", "name", "one pixel", "bytes"], rows.collect())
        + &carried(
            &["element_size", "pixels_size"],
            "mrd_format/specs/Image.antt",
        )
}

fn flags(format: &Format) -> String {
    let names = format
        .flags
        .iter()
        .map(|flag| format!("{} `{}`", flag.number, flag.name));
    format!(
        "{}.\n\nSource: `mrd_flags/src/acquisition_flag.rt`, where the first is `FirstInEncodeStep1`.\n",
        names.collect::<Vec<_>>().join(", ")
    )
}

/// Where a refusal points.
fn points(number: usize) -> &'static str {
    match number {
        13 => "record count, stream length",
        // 9 too: the writer does not give it.
        1 | 9 | 11 | 12 | 19 => "the message: its record number, its first byte",
        2..=10 | 21 => {
            "the message: its record number, its first byte; of the writer the number alone"
        }
        _ => "the number alone",
    }
}

fn refusals(format: &Format) -> String {
    let rows = format
        .refusals
        .iter()
        .zip(&format.sentences)
        .map(|(refusal, (_, remedy))| {
            let points = points(refusal.number).to_string();
            vec![
                refusal.number.to_string(),
                format!("`{}`", refusal.name),
                refusal.comment.clone(),
                points,
                remedy.clone(),
            ]
        });
    table(&["no.", "name", "given exactly when", "points to", "what to do"], rows.collect())
        + "\nNames: `mrd_format/src/refusal.rt`, where the first is `IdCut`; C has them with `MRD_REFUSED_` before, Rust in `cotterleaf::refused`.\n"
}

fn refusals_short(format: &Format) -> String {
    let rows = format
        .refusals
        .iter()
        .zip(&format.sentences)
        .map(|(refusal, (wrong, remedy))| {
            vec![refusal.number.to_string(), wrong.clone(), remedy.clone()]
        });
    table(&["no.", "what is wrong", "what to do"], rows.collect())
}

fn limits(format: &Format, sources: &Sources) -> String {
    let rows = vec![
        vec![
            "bytes of one message, its id included".to_string(),
            grouped(format.message_size),
            "10 above it".to_string(),
        ],
        vec![
            "messages of one stream".to_string(),
            grouped(format.messages),
            "19 at the next one".to_string(),
        ],
        vec![
            "bytes that the listing program takes".to_string(),
            grouped(format.listing),
            "`input over 65536 bytes`".to_string(),
        ],
    ];
    table(&["limit", "value", "beyond it"], rows)
        + &format!(
            "\nDefinitions: `limit` in `mrd_format/specs/Message.antt`, `max_messages` in `{}`; `LIMIT` in `mrd_list/src/main.rt`.\n",
            sources.home("max_messages")
        )
}

/// The table of this name.
fn named(name: &str, format: &Format, sources: &Sources) -> String {
    match name {
        "kinds" => kinds(format),
        "order" => order(format, sources),
        "stages" => stages(sources),
        "own checks" => own_checks(format, sources),
        "acquisition" => header(&format.headers[0], &["layout", "cells"]),
        "image" => header(&format.headers[1], &["layout", "cells"]),
        "waveform" => header(&format.headers[2], &["offset", "type_of", "cells"]),
        "aligned waveform" => header(&format.headers[3], &["offset", "type_of", "cells"]),
        "counters" => counters(format),
        "data types" => data_types(format),
        "flags" => flags(format),
        "refusals" => refusals(format),
        "refusals in short" => refusals_short(format),
        "limits" => limits(format, sources),
        other => panic!("no table is called {other}"),
    }
}

/// A page with every table as the definitions give it.
pub fn filled(page: &str, format: &Format, sources: &Sources) -> String {
    let mut out = String::new();
    let mut rest = page;
    while let Some((before, after)) = rest.split_once("<!-- names: ") {
        let (name, after) = after.split_once(" -->\n").expect("the end of a marker");
        let (_, after) = after
            .split_once("<!-- end -->")
            .expect("the end of a table");
        out += &format!(
            "{before}<!-- names: {name} -->\n{}<!-- end -->",
            named(name, format, sources)
        );
        rest = after;
    }
    out + rest
}
