//! Kinds, parts and flags by the names that options and answers have for them.

use clap::ValueEnum;
use cotterleaf::{flag_name, flag_test, Kind, Part};
use serde_json::Value;
use std::str::FromStr;

/// The eight kinds of record.
#[derive(Clone, Copy, Debug, PartialEq, Eq, PartialOrd, Ord, ValueEnum)]
pub enum KindName {
    ConfigurationName,
    ConfigurationText,
    HeaderText,
    Close,
    Text,
    Acquisition,
    Image,
    Waveform,
}

impl KindName {
    pub fn of(kind: &Kind) -> KindName {
        match kind {
            Kind::ConfigurationName { .. } => KindName::ConfigurationName,
            Kind::ConfigurationText { .. } => KindName::ConfigurationText,
            Kind::HeaderText { .. } => KindName::HeaderText,
            Kind::Close => KindName::Close,
            Kind::Text { .. } => KindName::Text,
            Kind::Acquisition { .. } => KindName::Acquisition,
            Kind::Image { .. } => KindName::Image,
            Kind::Waveform { .. } => KindName::Waveform,
        }
    }

    pub fn word(self) -> &'static str {
        match self {
            KindName::ConfigurationName => "configuration-name",
            KindName::ConfigurationText => "configuration-text",
            KindName::HeaderText => "header-text",
            KindName::Close => "close",
            KindName::Text => "text",
            KindName::Acquisition => "acquisition",
            KindName::Image => "image",
            KindName::Waveform => "waveform",
        }
    }
}

/// The parts that a view shows.
#[derive(Clone, Copy, Debug, PartialEq, Eq, ValueEnum)]
pub enum PartName {
    Name,
    Text,
    Attributes,
    Trajectory,
    Channel,
    Pixels,
    Waveform,
}

impl PartName {
    pub fn of(part: Part) -> PartName {
        match part {
            Part::Name => PartName::Name,
            Part::Text => PartName::Text,
            Part::Attributes => PartName::Attributes,
            Part::Trajectory => PartName::Trajectory,
            Part::Channel(_) => PartName::Channel,
            Part::Pixels => PartName::Pixels,
            Part::Waveform => PartName::Waveform,
        }
    }

    /// The part; of a channel the given one.
    pub fn part(self, channel: usize) -> Part {
        match self {
            PartName::Name => Part::Name,
            PartName::Text => Part::Text,
            PartName::Attributes => Part::Attributes,
            PartName::Trajectory => Part::Trajectory,
            PartName::Channel => Part::Channel(channel),
            PartName::Pixels => Part::Pixels,
            PartName::Waveform => Part::Waveform,
        }
    }

    pub fn word(self) -> &'static str {
        match self {
            PartName::Name => "name",
            PartName::Text => "text",
            PartName::Attributes => "attributes",
            PartName::Trajectory => "trajectory",
            PartName::Channel => "channel",
            PartName::Pixels => "pixels",
            PartName::Waveform => "waveform",
        }
    }

    /// Whether its bytes are a text, which may be shown on a terminal and is no array.
    pub fn is_text(self) -> bool {
        matches!(self, PartName::Name | PartName::Text | PartName::Attributes)
    }
}

/// An acquisition flag that is asked for.
#[derive(Clone, Copy, Debug, PartialEq, Eq)]
pub struct Flag(pub u32);

impl FromStr for Flag {
    type Err = String;

    fn from_str(given: &str) -> Result<Flag, String> {
        let name = given.to_lowercase();
        let name = name
            .trim_start_matches("ismrmrd_")
            .trim_start_matches("acq_");
        let number = name.trim_start_matches("flag_").parse().ok();
        let named = |n: &u32| Some(*n) == number || flag_name(*n) == Some(name);
        let found = (1..=64).find(named);
        found.map(Flag).ok_or_else(|| {
            "a flag is a number from 1 to 64, or a name such as first_in_slice".to_string()
        })
    }
}

/// The numbers of the flags that are set.
pub fn set_flags(flags: u64) -> impl Iterator<Item = u32> {
    let mut rest = flags;
    std::iter::from_fn(move || {
        let n = rest.trailing_zeros() + 1;
        rest &= rest.wrapping_sub(1);
        (n <= 64).then_some(n)
    })
    .filter(move |&n| flag_test(flags, n))
}

/// An acquisition flag's name, `flag_30` where its number has none.
pub fn flag_word(n: u32) -> String {
    match flag_name(n) {
        Some(name) => name.to_string(),
        None => bare_flag_word(n),
    }
}

/// The flag of an image or waveform, whose flags have no names.
pub fn bare_flag_word(n: u32) -> String {
    format!("flag_{n}")
}

/// The set flags of an acquisition.
pub fn flag_words(flags: u64) -> Vec<String> {
    set_flags(flags).map(flag_word).collect()
}

/// A range or another pair as an array.
pub fn pair<T: Into<Value>>((least, greatest): (T, T)) -> Value {
    Value::Array(vec![least.into(), greatest.into()])
}
