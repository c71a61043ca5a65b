//! The questions about a record, each asked of both readers with the same given index or none.

use crate::answers::{self, Answer};
use crate::case::Case;
use crate::tally::{Family, Outcome, Tally};
use cotterleaf::{Index, Part, Stream};
use second_reader as second;
use std::fmt::Debug;
use streams::{GivenColumns, GivenFile, OF_OTHER_LAYOUT};

/// What index is given with the questions.
pub enum GivenIndex {
    None,
    File(GivenFile),
    Columns(GivenColumns),
}

impl GivenIndex {
    pub fn what(&self) -> String {
        match self {
            GivenIndex::None => String::new(),
            GivenIndex::File(file) => format!(", given a file: {}", file.what),
            GivenIndex::Columns(columns) => format!(", given columns: {}", columns.what),
        }
    }

    /// What is noted of an index that was made under the other layout, by whether it was believed.
    fn of_other_layout(&self, believed: bool) -> Option<&'static str> {
        let (form, what) = match self {
            GivenIndex::None => return None,
            GivenIndex::File(file) => (0, file.what),
            GivenIndex::Columns(columns) => (1, columns.what),
        };
        let noted = [
            ["file refused with 15", "columns refused with 15"],
            ["file believed", "columns believed"],
            [
                "file believed without waveforms",
                "columns believed without waveforms",
            ],
        ];
        let i = OF_OTHER_LAYOUT.iter().position(|&other| other == what)?;
        // The first of the three is another index.
        (believed == (i > 0)).then_some(noted[i][form])
    }

    pub fn library(&self) -> Option<Index<'_>> {
        match self {
            GivenIndex::None => None,
            GivenIndex::File(file) => Some(Index::File(&file.bytes)),
            GivenIndex::Columns(columns) => Some(Index::Columns {
                starts: &columns.starts,
                ids: &columns.ids,
                counters: &columns.counters,
            }),
        }
    }

    pub fn second(&self) -> second::GivenIndex<'_> {
        match self {
            GivenIndex::None => second::GivenIndex::NONE,
            GivenIndex::File(file) => second::GivenIndex::file(&file.bytes),
            GivenIndex::Columns(columns) => {
                second::GivenIndex::columns(&columns.starts, &columns.ids, &columns.counters)
            }
        }
    }
}

/// A stream and the index given with it.
pub struct Asked<'a> {
    pub case: Case<'a>,
    pub given: &'a GivenIndex,
}

impl<'a> Asked<'a> {
    fn library(&self) -> Stream<'a> {
        let stream = self.case.library();
        match self.given.library() {
            None => stream,
            Some(index) => stream.with(index),
        }
    }

    /// Compares, and notes whether the given index was believed.
    fn same<T: PartialEq + Debug>(
        &self,
        tally: &mut Tally,
        family: Family,
        question: impl Fn() -> String,
        library: Answer<T>,
        second: Answer<T>,
    ) -> Outcome {
        let believed = match &second {
            Err(second::Refused::Stream(_)) => None,
            Err(second::Refused::Other(15)) => Some(false),
            _ => Some(true),
        };
        let group = match (self.given, believed) {
            (GivenIndex::File(_), Some(true)) => Some("file believed"),
            (GivenIndex::File(_), Some(false)) => Some("file not believed"),
            (GivenIndex::Columns(_), Some(true)) => Some("columns believed"),
            (GivenIndex::Columns(_), Some(false)) => Some("columns not believed"),
            _ => None,
        };
        let question = || format!("{}{}", question(), self.given.what());
        tally.same(family, question, library, second)?;
        if let Some(group) = group {
            tally.note(group, family.name());
        }
        if let Some(what) = believed.and_then(|believed| self.given.of_other_layout(believed)) {
            tally.note("index made under the other layout", what);
        }
        Ok(())
    }

    pub fn place(&self, tally: &mut Tally, n: u64) -> Outcome {
        let library = self.library().place(n as usize);
        let library = library.map(answers::record).map_err(answers::refused);
        let second =
            second::kind_and_place(self.case.rules, self.case.bytes, self.given.second(), n);
        let question = || format!("place of record {n}");
        self.same(tally, Family::Place, question, library, second)
    }

    /// The view's place as it is given, and as the view's own address shows it.
    pub fn view(&self, tally: &mut Tally, n: u64, part: Part) -> Outcome {
        let second = second_view(self.case, self.given.second(), n, part);
        let shown = second.is_ok();
        let view = self.library().view(n as usize, part);
        let by_address = view.map(|view| answers::part_by_address(self.case.bytes, view));
        let by_address = by_address.map_err(answers::refused);
        let place = self.library().view_place(n as usize, part);
        let place = place.map(answers::part).map_err(answers::refused);
        let question = || format!("{part:?} of record {n}");
        self.same(tally, Family::View, question, place, second)?;
        self.same(tally, Family::View, question, by_address, second)?;
        if shown {
            tally.note("view shown", name_of(part));
        }
        Ok(())
    }

    pub fn field(&self, tally: &mut Tally, n: u64, offset: u64) -> Outcome {
        let library = self.library().field(n as usize, offset as usize);
        let library = library.map(answers::field).map_err(answers::refused);
        let second = second::field(
            self.case.rules,
            self.case.bytes,
            self.given.second(),
            n,
            offset,
        );
        let question = || format!("field at {offset} of record {n}");
        self.same(tally, Family::Field, question, library, second)?;
        match second {
            Ok(second::Field::Whole(_)) => tally.note("element", "whole"),
            Ok(second::Field::Signed(_)) => tally.note("element", "signed"),
            Ok(second::Field::Float(bits)) if f32::from_bits(bits).is_nan() => {
                tally.note("element", "NaN")
            }
            Ok(second::Field::Float(_)) => tally.note("element", "float"),
            Err(_) => {}
        }
        Ok(())
    }

    pub fn find(&self, tally: &mut Tally, n: u64, counters: &[u16; 17]) -> Outcome {
        let library = answers::number(self.library().find(n as usize, counters));
        let second = second::find(
            self.case.rules,
            self.case.bytes,
            self.given.second(),
            n,
            counters,
        );
        let question = || format!("find {counters:?} from record {n} on");
        self.same(tally, Family::Find, question, library, second)
    }

    /// Whether the given index is the stream's own, asked by itself.
    pub fn matches(&self, tally: &mut Tally) -> Outcome {
        let (family, index) = match self.given.library() {
            None => return Ok(()),
            Some(index @ Index::File(_)) => (Family::FileMatches, index),
            Some(index @ Index::Columns { .. }) => (Family::ColumnsMatch, index),
        };
        let library = self.case.library().matches(index);
        let library = library.map_err(answers::refused);
        let second = match second::agrees(self.case.rules, self.case.bytes, self.given.second()) {
            Ok(true) => Ok(()),
            Ok(false) => Err(second::Refused::Other(15)),
            Err(refusal) => Err(refusal.into()),
        };
        let question = || "whether the index is the stream's own".to_string();
        self.same(tally, family, question, library, second)
    }
}

/// The second reader's view of a part.
pub fn second_view(
    Case { rules, bytes }: Case,
    given: second::GivenIndex,
    n: u64,
    part: Part,
) -> Answer<second::Part> {
    match part {
        Part::Name => second::name(rules, bytes, given, n),
        Part::Text => second::text(rules, bytes, given, n),
        Part::Attributes => second::attributes(rules, bytes, given, n),
        Part::Trajectory => second::trajectory(rules, bytes, given, n),
        Part::Channel(channel) => second::channel(rules, bytes, given, n, channel as u64),
        Part::Pixels => second::pixels(rules, bytes, given, n),
        Part::Waveform => second::waveform(rules, bytes, given, n),
    }
}

pub fn name_of(part: Part) -> &'static str {
    match part {
        Part::Name => "name",
        Part::Text => "text",
        Part::Attributes => "attributes",
        Part::Trajectory => "trajectory",
        Part::Channel(_) => "channel",
        Part::Pixels => "pixels",
        Part::Waveform => "waveform",
    }
}
