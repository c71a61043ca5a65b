//! The library's structs against the headers of documents 01 and 02, which the second reader has as
//! tables.

use crate::description::{Description, Member, Table};
use second_reader::{headers, Entry, Kind, Layout};

/// A header element by name, as the description tells its values: members with offsets into the
/// stream's header. The acquisition's counters are members of their own. An aligned waveform header
/// is the library's struct.
pub fn stream_members(
    description: &Description,
    kind: Kind,
    layout: Layout,
) -> Result<Vec<Member>, String> {
    match kind {
        Kind::Acquisition => {
            let mut members = description.table("acquisition")?.members.clone();
            for counter in &description.table("counters")?.members {
                let offset = description.counters_at + counter.offset;
                let counter = counter.clone();
                members.push(Member { offset, ..counter });
            }
            Ok(members)
        }
        Kind::Image => Ok(description.table("image")?.members.clone()),
        Kind::Waveform => {
            let table = description.table("waveform")?;
            Ok(match layout {
                Layout::Packed => packed(table),
                Layout::Aligned => table.members.clone(),
            })
        }
        _ => Ok(vec![]),
    }
}

/// The members one after another without gaps. Document 01 packs the waveform header, where the
/// library's struct is aligned.
fn packed(table: &Table) -> Vec<Member> {
    let mut at = 0;
    let mut members = table.members.clone();
    for member in &mut members {
        member.offset = at;
        at += member.count * member.element.size();
    }
    members
}

/// The differences between the library's tables and those of the documents.
pub fn differences(description: &Description) -> Result<Vec<String>, String> {
    let mut found = vec![];
    let acquisition = description.table("acquisition")?;
    let image = description.table("image")?;
    let waveform = description.table("waveform")?;
    let counters = description.table("counters")?;
    compare_sizes(acquisition, headers::ACQUISITION.size, &mut found);
    compare_sizes(image, headers::IMAGE.size, &mut found);
    compare_sizes(waveform, headers::ALIGNED_WAVEFORM.size, &mut found);
    let mut members = acquisition.members.clone();
    members.push(counters_member(description, counters, &mut found));
    compare("acquisition", &members, &headers::ACQUISITION, &mut found);
    compare("image", &image.members, &headers::IMAGE, &mut found);
    compare(
        "packed waveform",
        &packed(waveform),
        &headers::WAVEFORM,
        &mut found,
    );
    compare(
        "aligned waveform",
        &waveform.members,
        &headers::ALIGNED_WAVEFORM,
        &mut found,
    );
    Ok(found)
}

fn compare_sizes(table: &Table, size: usize, found: &mut Vec<String>) {
    if table.size != size {
        found.push(format!(
            "{} header: {} bytes, not {size}",
            table.name, table.size
        ));
    }
}

/// The counters' struct as one run of elements, which document 01 has as `counters`.
fn counters_member(description: &Description, counters: &Table, found: &mut Vec<String>) -> Member {
    let mut at = 0;
    for member in &counters.members {
        if member.offset != at || member.element != second_reader::Type::U16 {
            found.push(format!("counter {} is not u16 at {at}", member.name));
        }
        at += member.count * 2;
    }
    compare_sizes(counters, at, found);
    Member {
        name: "counters".to_string(),
        element: second_reader::Type::U16,
        count: at / 2,
        offset: description.counters_at,
    }
}

fn compare(kind: &str, members: &[Member], table: &headers::Table, found: &mut Vec<String>) {
    if members.len() != table.entries.len() {
        let (library, paper) = (members.len(), table.entries.len());
        found.push(format!(
            "{kind} header: {library} members, the documents have {paper}"
        ));
    }
    for member in members {
        match table.entry(&member.name) {
            Some(entry) if same(member, entry) => {}
            other => found.push(format!(
                "{kind} header: {member:?}, the documents have {other:?}"
            )),
        }
    }
}

fn same(member: &Member, entry: &Entry) -> bool {
    member.offset == entry.offset && member.count == entry.count && member.element == entry.element
}
