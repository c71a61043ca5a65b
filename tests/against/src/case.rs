//! A stream and the rules under which both readers are asked about it.

use cotterleaf::{raw, Stream};
use second_reader::{Layout, Profile, Rules};

#[derive(Clone, Copy)]
pub struct Case<'a> {
    pub rules: Rules,
    pub bytes: &'a [u8],
}

impl<'a> Case<'a> {
    /// The stream as the library is given it.
    pub fn library(self) -> Stream<'a> {
        Stream::new(library_rules(self.rules), self.bytes)
    }

    /// The same stream under other rules.
    pub fn under(self, rules: Rules) -> Case<'a> {
        Case { rules, ..self }
    }

    /// Another stream under the same rules.
    pub fn with<'b>(self, bytes: &'b [u8]) -> Case<'b> {
        Case {
            rules: self.rules,
            bytes,
        }
    }
}

/// The rules as the wrapper takes them.
pub fn library_rules(rules: Rules) -> cotterleaf::Rules {
    let plain = match rules.layout {
        Layout::Packed => cotterleaf::Rules::packed(),
        Layout::Aligned => cotterleaf::Rules::aligned(),
    };
    match rules.profile {
        Profile::Plain => plain,
        Profile::Strict => plain.strict(),
    }
}

/// The rules as the C functions take them.
pub fn raw_rules(rules: Rules) -> raw::mrd_rules {
    raw::mrd_rules {
        aligned_waveforms: rules.layout == Layout::Aligned,
        strict_text: rules.profile == Profile::Strict,
    }
}
