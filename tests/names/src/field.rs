//! The names that the field's own library has, from its description of itself in field_data/phantom.txt.

use crate::definitions::Header;

/// A member of one of the library's structs.
struct Member<'a> {
    name: &'a str,
    element: &'a str,
    count: usize,
    offset: usize,
}

/// The members of a struct, from the `table` line with its name on.
fn members<'a>(description: &'a str, table: &str) -> Vec<Member<'a>> {
    let start = format!("table {table} ");
    let lines = description
        .lines()
        .skip_while(|line| !line.starts_with(&start));
    let rows = lines.skip(1).map_while(|line| line.strip_prefix("member "));
    rows.map(|row| match row.split(' ').collect::<Vec<&str>>()[..] {
        [name, element, count, offset] => Member {
            name,
            element,
            count: count.parse().expect("a count"),
            offset: offset.parse().expect("an offset"),
        },
        _ => panic!("a member line of another form: {row}"),
    })
    .collect()
}

/// What the library says is the size of a struct.
fn size(description: &str, table: &str) -> usize {
    let start = format!("table {table} ");
    let mut lines = description.lines();
    let size = lines.find_map(|line| line.strip_prefix(&start));
    size.and_then(|size| size.parse().ok()).expect("a size")
}

/// One of the seventeen counters: a member of the library's struct, or one of an array's, by its number from 0.
pub struct Counter {
    member: String,
    number: Option<usize>,
}

impl Counter {
    /// As constants and pages have it: `slice`, `user_2`.
    pub fn name(&self) -> String {
        match self.number {
            None => self.member.clone(),
            Some(i) => format!("{}_{i}", self.member),
        }
    }

    /// As an element is spelled: `slice`, `user[2]`.
    pub fn element(&self) -> String {
        match self.number {
            None => self.member.clone(),
            Some(i) => format!("{}[{i}]", self.member),
        }
    }
}

/// The seventeen counters, in their order.
pub fn counters(description: &str) -> Vec<Counter> {
    let mut counters = Vec::new();
    for member in members(description, "counters") {
        assert_eq!(
            member.offset,
            2 * counters.len(),
            "counters of two bytes adjoin"
        );
        let counter = |number| Counter {
            member: member.name.to_string(),
            number,
        };
        match member.count {
            1 => counters.push(counter(None)),
            count => counters.extend((0..count).map(|i| counter(Some(i)))),
        }
    }
    assert_eq!(counters.len(), 17, "seventeen counters");
    counters
}

/// Where a header of ours and the library's struct differ in a name, type or count; in an offset and the size too, but
/// for the packed waveform, as the library has that struct aligned. Our `counters` are a struct of the library.
pub fn differences(description: &str, header: &Header) -> Vec<String> {
    let table = header.kind.to_lowercase();
    let theirs = members(description, &table);
    let placed = header.name != "Waveform";
    let ours = header
        .fields
        .iter()
        .filter(|field| field.name != "counters");
    let ours: Vec<_> = ours.collect();
    assert_eq!(
        ours.len(),
        theirs.len(),
        "{}: another number of fields",
        header.kind
    );
    let mut found = Vec::new();
    if placed && header.size != size(description, &table) {
        found.push(format!("{}: {} bytes", header.name, header.size));
    }
    for (ours, theirs) in ours.into_iter().zip(theirs) {
        let alike = (ours.name.as_str(), ours.element.in_rust(), ours.count)
            == (theirs.name, theirs.element, theirs.count);
        if !alike || (placed && ours.offset != theirs.offset) {
            found.push(format!(
                "{}: {} {} x {} at {}, there {} {} x {} at {}",
                header.name,
                ours.name,
                ours.element.in_rust(),
                ours.count,
                ours.offset,
                theirs.name,
                theirs.element,
                theirs.count,
                theirs.offset
            ));
        }
    }
    found
}
