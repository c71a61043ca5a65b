//! What a run has met, the comparison that counts it, and the table that is printed at the end.

use crate::answers::Answer;
use crate::part_at;
use crate::parts_met::PartsMet;
use crate::salvage_limits;
use crate::salvage_met::SalvagesMet;
use crate::strict::{self, ACCEPTED, FAULTS, NOT_UTF8, PLACES, TEXTS, WIDTHS};
use crate::torn;
use second_reader::{Detail, Kind, Layout, Mask, Profile, Rules};
use std::collections::BTreeMap;
use std::fmt::Debug;
use streams::{writer_refusals, OF_OTHER_LAYOUT};

/// The calls by what they answer.
#[derive(Clone, Copy, Debug, PartialEq, Eq, PartialOrd, Ord)]
pub enum Family {
    Check,
    Walk,
    Place,
    View,
    Field,
    Find,
    FileMatches,
    ColumnsMatch,
    PartAt,
    NormalForm,
    WriteIndex,
    FillColumns,
    Salvage,
    Write,
}

impl Family {
    pub const ALL: [Family; 14] = [
        Family::Check,
        Family::Walk,
        Family::Place,
        Family::View,
        Family::Field,
        Family::Find,
        Family::FileMatches,
        Family::ColumnsMatch,
        Family::PartAt,
        Family::NormalForm,
        Family::WriteIndex,
        Family::FillColumns,
        Family::Salvage,
        Family::Write,
    ];

    pub fn name(self) -> &'static str {
        match self {
            Family::Check => "check",
            Family::Walk => "walk",
            Family::Place => "place",
            Family::View => "view",
            Family::Field => "field",
            Family::Find => "find",
            Family::FileMatches => "file",
            Family::ColumnsMatch => "columns",
            Family::PartAt => "part",
            Family::NormalForm => "normal",
            Family::WriteIndex => "index",
            Family::FillColumns => "fill",
            Family::Salvage => "salvage",
            Family::Write => "write",
        }
    }

    /// Whether this number, 0 for an answer, is one that these rules let the family give.
    fn may_give(self, rules: Rules, number: u32) -> bool {
        if number == 0 {
            return true;
        }
        if self == Family::Write {
            return writer_refusals(rules).contains(&number);
        }
        if self == Family::Salvage {
            return number == 14;
        }
        if number == 21 {
            return rules.profile == Profile::Strict;
        }
        let own: &[u32] = match self {
            Family::Check | Family::Walk | Family::Salvage | Family::Write => &[],
            Family::Place | Family::Find => &[15, 16],
            Family::View => &[15, 16, 17],
            Family::Field => &[15, 16, 20],
            Family::FileMatches | Family::ColumnsMatch => &[15],
            Family::PartAt => &[16],
            Family::NormalForm | Family::WriteIndex | Family::FillColumns => &[14],
        };
        matches!(number, 1..=13 | 19) || own.contains(&number)
    }
}

/// A question that the two readers answer differently.
pub struct Difference {
    pub question: String,
    pub library: String,
    pub second: String,
}

pub type Outcome = Result<(), Difference>;

/// Every number that a call may give, 0 being an answer.
const NUMBERS: std::ops::RangeInclusive<u32> = 0..=21;

/// The views, by name.
const VIEWS: &[&str] = &[
    "name",
    "text",
    "attributes",
    "trajectory",
    "channel",
    "pixels",
    "waveform",
];

/// The stream refusals, by name.
const STREAM_REFUSALS: &[&str] = &[
    "1", "2", "3", "4", "5", "6", "7", "8", "9", "10", "11", "12", "13", "19", "21",
];

/// Those of a faulty message: the fault of 13 is where the stream ends.
const AT_A_MESSAGE: &[&str] = &[
    "1", "2", "3", "4", "5", "6", "7", "8", "9", "10", "11", "12", "19", "21",
];

/// What a stream may hold otherwise than its normal form.
const STORED_OTHERWISE: &[&str] = &[
    "filler of a name",
    "filler of a waveform header",
    "0 in an image header",
];

/// What a stream that was made for one layout can be under both.
const UNDER_BOTH: &[&str] = &[
    "one record list",
    "as many other records",
    "another number of records",
    "accepted under its own alone",
    "accepted under the other alone",
    "refused alike",
    "refused otherwise",
];

/// Everything but answers that a run must meet, by group.
const GROUPS: &[(&str, &[&str])] = &[
    ("view shown", VIEWS),
    ("view where a walk stands", VIEWS),
    (
        "mask, no channel active",
        &["not stated", "differs by one", "differs", "all ones"],
    ),
    (
        "mask, 1 to 1,024 channels active",
        &[
            "not stated",
            "agrees",
            "differs by one",
            "differs",
            "all ones",
        ],
    ),
    (
        "mask, more channels active",
        &["not stated", "differs", "all ones"],
    ),
    (
        "image header says",
        &["0 with attributes", "their length", "0 without attributes"],
    ),
    (
        "image header in a normal form",
        &["0 made the length", "the length kept", "0 kept"],
    ),
    (
        "image header given to the writer",
        &["the length", "0 with attributes", "another number"],
    ),
    (
        "attributes of 2^32 bytes or more",
        &[
            "10 with 0 in the header",
            "10 with 0 as low word",
            "10 with a size past 64 bits",
            "9 with the low word",
            "9 with another number",
        ],
    ),
    (
        "waveform accepted",
        &["packed", "aligned with zeros", "aligned with other filler"],
    ),
    ("packed waveform refused", &["3", "4", "10", "11"]),
    ("aligned waveform refused", &["3", "4", "10", "11"]),
    ("packed stream under both layouts", UNDER_BOTH),
    ("aligned stream under both layouts", UNDER_BOTH),
    ("filler in a normal form", &["made zero", "kept zero"]),
    ("filler given to the writer", &["zero", "not zero"]),
    (
        "aligned waveform refused by the writer",
        &["3", "4", "10", "14", "18"],
    ),
    (
        "waveform header of the other length given to the writer",
        &["40 bytes packed", "32 bytes aligned"],
    ),
    ("field question at filler", &["20"]),
    (
        "offset of an aligned waveform",
        &["element", "filler", "inside an element", "past the header"],
    ),
    (
        "scan counter of an aligned waveform",
        &["in an index file", "in columns"],
    ),
    ("element", &["whole", "signed", "float", "NaN"]),
    (
        "file given",
        &[
            "right",
            "one byte off",
            "short",
            "trailing bytes",
            "one record less",
            "empty",
            OF_OTHER_LAYOUT[0],
            OF_OTHER_LAYOUT[1],
            OF_OTHER_LAYOUT[2],
        ],
    ),
    (
        "columns given",
        &[
            "right",
            "one number off",
            "one column short",
            "longer",
            "empty",
            OF_OTHER_LAYOUT[0],
            OF_OTHER_LAYOUT[1],
            OF_OTHER_LAYOUT[2],
        ],
    ),
    (
        "index made under the other layout",
        &[
            "file refused with 15",
            "columns refused with 15",
            "file believed",
            "columns believed",
            "file believed without waveforms",
            "columns believed without waveforms",
        ],
    ),
    ("file believed", &["place", "view", "field", "find", "file"]),
    (
        "file not believed",
        &["place", "view", "field", "find", "file"],
    ),
    (
        "columns believed",
        &["place", "view", "field", "find", "columns"],
    ),
    (
        "columns not believed",
        &["place", "view", "field", "find", "columns"],
    ),
    ("room", &["exact", "short", "long"]),
    ("not UTF-8 and accepted plain", TEXTS),
    (NOT_UTF8[0][0], FAULTS),
    (NOT_UTF8[1][0], FAULTS),
    (NOT_UTF8[2][0], FAULTS),
    (NOT_UTF8[3][0], FAULTS),
    (NOT_UTF8[4][0], FAULTS),
    (ACCEPTED[0], WIDTHS),
    (ACCEPTED[1], WIDTHS),
    (ACCEPTED[2], WIDTHS),
    (ACCEPTED[3], WIDTHS),
    (ACCEPTED[4], WIDTHS),
    (
        "character accepted",
        &[
            "U+0000", "U+07FF", "U+0800", "U+D7FF", "U+E000", "U+FEFF", "U+FFFF", "U+10000",
            "U+10FFFF",
        ],
    ),
    ("2 bytes at a place of 32", PLACES),
    ("3 bytes at a place of 32", PLACES),
    ("4 bytes at a place of 32", PLACES),
    ("length over a multiple of 32", PLACES),
    ("fault at a place of 32", PLACES),
    ("filler of an accepted name", &["UTF-8", "not UTF-8"]),
    (
        "half a character and its rest",
        &["in the next text", "in the pixels", "after a name's zero"],
    ),
    (
        "earlier fault beside text not UTF-8",
        &["3", "4", "5", "8", "9", "10", "11", "12"],
    ),
    ("plain stream under both profiles", strict::UNDER_BOTH),
    ("strict stream under both profiles", strict::UNDER_BOTH),
    (
        "later fault behind text not UTF-8",
        &[
            "1", "2", "3", "4", "5", "6", "7", "8", "9", "10", "11", "12", "13",
        ],
    ),
    ("not UTF-8 and written plain", TEXTS),
    ("UTF-8 and written strict", TEXTS),
    (NOT_UTF8[0][1], FAULTS),
    (NOT_UTF8[1][1], FAULTS),
    (NOT_UTF8[2][1], FAULTS),
    (NOT_UTF8[3][1], FAULTS),
    (NOT_UTF8[4][1], FAULTS),
    (
        strict::GIVEN_WITH,
        &[
            "3 before 21",
            "4 before 21",
            "5 before 21",
            "8 before 21",
            "10 before 21",
            "18 before 21",
            "21 alone",
            "21 before 14",
        ],
    ),
    (
        "every byte asked for",
        &["of an accepted stream", "of a refused stream"],
    ),
    ("view of the part that holds a byte", VIEWS),
    (
        "element that holds a byte",
        &["u16", "u32", "u64", "i32", "f32"],
    ),
    (
        "byte of a waveform header",
        &["packed", "aligned", "aligned filler"],
    ),
    (
        "channel that holds a byte",
        &[
            "the first",
            "one between",
            "the last of several",
            "one above 255",
            "the highest",
        ],
    ),
    (
        "byte of a name",
        &[
            "the last before its zero",
            "its zero",
            "one after its zero",
            "the zero of an empty name",
            "the zero of a longest name",
        ],
    ),
    (
        "empty part where a byte stands",
        &[
            "name",
            "configuration text",
            "header text",
            "text",
            "trajectory of no samples",
            "trajectory of no dimensions",
            "channel",
            "no channel",
            "attributes",
            "pixels",
            "waveform of no samples",
            "waveform of no channels",
        ],
    ),
    (
        "byte past the end",
        &["the first", "the next", "far from it", "the last"],
    ),
    (part_at::REFUSED[0], STREAM_REFUSALS),
    (part_at::REFUSED[1], AT_A_MESSAGE),
    (part_at::REFUSED[2], STREAM_REFUSALS),
    ("wrong index beside a byte", &["not looked at"]),
    ("wrong index beside a salvage", &["not looked at"]),
    ("longer front refused", &["alone", "with a close"]),
    (
        "what follows a close",
        &[
            "one byte",
            "an unknown id",
            "a close",
            "another message",
            "a faulty message",
        ],
    ),
    ("kept as stored, with its own close", STORED_OTHERWISE),
    ("kept as stored, with an added close", STORED_OTHERWISE),
    (salvage_limits::GROUP, salvage_limits::NAMES),
    (
        "drawn stream torn at every byte",
        &[
            "accepted and short",
            "accepted and longer",
            "refused and short",
        ],
    ),
    (
        "file torn at every byte",
        &[
            torn::FILES[0].0,
            torn::FILES[1].0,
            torn::FILES[2].0,
            torn::FILES[3].0,
            torn::FILES[4].0,
        ],
    ),
    (
        "tear",
        &[
            "before the first message",
            "within an id",
            "within a fixed part",
            "behind a fixed part",
            "between two messages",
            "behind the close",
        ],
    ),
];

/// How often each thing was met where both readers agreed.
#[derive(Default)]
pub struct Tally {
    pub streams: u64,
    /// What is asked under now.
    pub rules: Rules,
    answers: BTreeMap<(Rules, Family, u32), u64>,
    kinds: BTreeMap<(Rules, Kind), u64>,
    met: BTreeMap<(&'static str, &'static str), u64>,
    pub parts: PartsMet,
    pub salvages: SalvagesMet,
}

impl Tally {
    /// Compares the two answers to a question and counts the number that both give.
    pub fn same<T: PartialEq + Debug>(
        &mut self,
        family: Family,
        question: impl Fn() -> String,
        library: Answer<T>,
        second: Answer<T>,
    ) -> Outcome {
        let number = second.as_ref().err().map_or(0, |refused| refused.number());
        self.same_value(question, library, second)?;
        self.count(family, number);
        Ok(())
    }

    /// Counts a number, 0 for an answer, that both readers give.
    pub fn count(&mut self, family: Family, number: u32) {
        let answer = (self.rules, family, number);
        *self.answers.entry(answer).or_default() += 1;
    }

    /// Compares two values that are no answers, or parts of some.
    pub fn same_value<T: PartialEq + Debug>(
        &self,
        question: impl Fn() -> String,
        library: T,
        second: T,
    ) -> Outcome {
        if library == second {
            return Ok(());
        }
        Err(Difference {
            question: format!("{}, {}", question(), rules_name(self.rules)),
            library: format!("{library:?}"),
            second: format!("{second:?}"),
        })
    }

    /// Compares two whole buffers, and names the first place that differs.
    pub fn same_buffer<T: PartialEq + Debug>(
        &self,
        question: impl Fn() -> String,
        library: &[T],
        second: &[T],
    ) -> Outcome {
        // Whole slices are compared far faster than place after place.
        if library == second {
            return Ok(());
        }
        let differs = |i: &usize| library.get(*i) != second.get(*i);
        match (0..library.len().max(second.len())).find(differs) {
            None => Ok(()),
            Some(i) => Err(Difference {
                question: format!(
                    "{}, {}, place {i} of the output",
                    question(),
                    rules_name(self.rules)
                ),
                library: format!("{:?}", library.get(i)),
                second: format!("{:?}", second.get(i)),
            }),
        }
    }

    pub fn note(&mut self, group: &'static str, what: &'static str) {
        *self.met.entry((group, what)).or_default() += 1;
    }

    pub fn note_kind(&mut self, detail: Detail) {
        let kind = (self.rules, detail.kind());
        *self.kinds.entry(kind).or_default() += 1;
        if let Detail::Acquisition {
            active_channels,
            mask,
            ..
        } = detail
        {
            self.note_mask(active_channels, mask);
        }
    }

    fn note_mask(&mut self, active_channels: u16, mask: Mask) {
        let group = match active_channels {
            0 => "mask, no channel active",
            1..=1_024 => "mask, 1 to 1,024 channels active",
            _ => "mask, more channels active",
        };
        let by_one = |ones: u32| ones.abs_diff(u32::from(active_channels)) == 1;
        let what = match mask {
            Mask::NotStated => "not stated",
            Mask::Agrees { .. } => "agrees",
            Mask::Differs { ones: 1_024 } => "all ones",
            Mask::Differs { ones } if by_one(ones) => "differs by one",
            Mask::Differs { .. } => "differs",
        };
        self.note(group, what);
    }

    /// Counts what another share of the streams has met too.
    pub fn add(&mut self, other: Tally) {
        self.streams += other.streams;
        for (answer, times) in other.answers {
            *self.answers.entry(answer).or_default() += times;
        }
        for (kind, times) in other.kinds {
            *self.kinds.entry(kind).or_default() += times;
        }
        for (thing, times) in other.met {
            *self.met.entry(thing).or_default() += times;
        }
        self.parts.add(other.parts);
        self.salvages.add(other.salvages);
    }

    fn answers(&self, rules: Rules, family: Family, number: u32) -> u64 {
        *self.answers.get(&(rules, family, number)).unwrap_or(&0)
    }

    fn kinds(&self, rules: Rules, kind: Kind) -> u64 {
        *self.kinds.get(&(rules, kind)).unwrap_or(&0)
    }

    fn times(&self, group: &'static str, what: &'static str) -> u64 {
        *self.met.get(&(group, what)).unwrap_or(&0)
    }

    pub fn print(&self) {
        for rules in Rules::ALL {
            self.print_answers(rules);
            self.parts.print(rules);
            self.salvages.print(rules);
        }
        for &(group, names) in GROUPS {
            let counts: Vec<String> = names
                .iter()
                .map(|name| format!("{name} {}", self.times(group, name)))
                .collect();
            println!("{group}: {}", counts.join(", "));
        }
    }

    /// The table of one layout and profile: a column for each family, a row for each number, a line for each kind.
    fn print_answers(&self, rules: Rules) {
        println!("{}:", rules_name(rules));
        print!("{:>8}", "number");
        for family in Family::ALL {
            print!("{:>9}", family.name());
        }
        println!();
        for number in NUMBERS {
            print!("{number:>8}");
            for family in Family::ALL {
                if family.may_give(rules, number) {
                    print!("{:>9}", self.answers(rules, family, number));
                } else {
                    print!("{:>9}", "-");
                }
            }
            println!();
        }
        for kind in Kind::ALL {
            let times = self.kinds(rules, kind);
            println!("kind {} ({kind:?}): {times} records", kind.id());
        }
    }

    /// What a run over many streams must meet and did not, and numbers that no such call may give.
    pub fn missing(&self) -> Vec<String> {
        let mut missing = Vec::new();
        for rules in Rules::ALL {
            missing.extend(self.missing_answers(rules));
            missing.extend(self.parts.missing(rules));
            missing.extend(self.salvages.missing(rules));
        }
        for (&(rules, family, number), times) in &self.answers {
            if !family.may_give(rules, number) {
                let (family, rules) = (family.name(), rules_name(rules));
                missing.push(format!(
                    "a rule for {number} from {family}, {rules}, given {times} times"
                ));
            }
        }
        for &(group, names) in GROUPS {
            for name in names {
                if self.times(group, name) == 0 {
                    missing.push(format!("{group}: {name}"));
                }
            }
        }
        missing
    }

    /// The numbers and kinds that no call under these rules met.
    fn missing_answers(&self, rules: Rules) -> Vec<String> {
        let under = rules_name(rules);
        let mut missing = Vec::new();
        for family in Family::ALL {
            for number in NUMBERS {
                if family.may_give(rules, number) && self.answers(rules, family, number) == 0 {
                    missing.push(format!("{number} from {}, {under}", family.name()));
                }
            }
        }
        for kind in Kind::ALL {
            if self.kinds(rules, kind) == 0 {
                missing.push(format!("kind {}, {under}", kind.id()));
            }
        }
        missing
    }
}

/// The layout, and the profile where it is not the plain one.
pub fn rules_name(rules: Rules) -> &'static str {
    match (rules.layout, rules.profile) {
        (Layout::Packed, Profile::Plain) => "packed",
        (Layout::Aligned, Profile::Plain) => "aligned",
        (Layout::Packed, Profile::Strict) => "packed and strict",
        (Layout::Aligned, Profile::Strict) => "aligned and strict",
    }
}
