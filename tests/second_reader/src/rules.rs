//! What the caller chooses for a whole stream (document 02, E3 and E9). Nothing in a stream tells it.

/// How waveform headers lie in the stream.
#[derive(Clone, Copy, Debug, Default, PartialEq, Eq, PartialOrd, Ord)]
pub enum Layout {
    /// 32 bytes, without a gap (document 01).
    #[default]
    Packed,
    /// 40 bytes, with filler in bytes 2 to 7 and 38 to 39 (document 02, E3).
    Aligned,
}

/// What names, texts and attributes may hold.
#[derive(Clone, Copy, Debug, Default, PartialEq, Eq, PartialOrd, Ord)]
pub enum Profile {
    /// Any bytes (document 01).
    #[default]
    Plain,
    /// Well-formed UTF-8, each by itself (document 02, E9).
    Strict,
}

/// The choices under which a stream is read, written or asked about.
#[derive(Clone, Copy, Debug, Default, PartialEq, Eq, PartialOrd, Ord)]
pub struct Rules {
    pub layout: Layout,
    pub profile: Profile,
}

impl Rules {
    pub const PACKED: Rules = Rules {
        layout: Layout::Packed,
        profile: Profile::Plain,
    };

    pub const ALIGNED: Rules = Rules {
        layout: Layout::Aligned,
        profile: Profile::Plain,
    };

    /// Both layouts in the plain profile.
    pub const PLAIN: [Rules; 2] = [Rules::PACKED, Rules::ALIGNED];

    /// Both layouts in the strict profile.
    pub const STRICT: [Rules; 2] = [Rules::PACKED.strict(), Rules::ALIGNED.strict()];

    pub const ALL: [Rules; 4] = [
        Rules::PLAIN[0],
        Rules::PLAIN[1],
        Rules::STRICT[0],
        Rules::STRICT[1],
    ];

    /// The same layout in the plain profile.
    pub const fn plain(self) -> Rules {
        Rules {
            profile: Profile::Plain,
            ..self
        }
    }

    /// The same layout in the strict profile.
    pub const fn strict(self) -> Rules {
        Rules {
            profile: Profile::Strict,
            ..self
        }
    }

    /// The same choices with the other layout.
    pub fn with_other_layout(self) -> Rules {
        Rules {
            layout: match self.layout {
                Layout::Packed => Layout::Aligned,
                Layout::Aligned => Layout::Packed,
            },
            ..self
        }
    }

    /// The same choices with the other profile.
    pub fn with_other_profile(self) -> Rules {
        match self.profile {
            Profile::Plain => self.strict(),
            Profile::Strict => self.plain(),
        }
    }
}

#[cfg(test)]
mod tests {
    use super::*;

    #[test]
    fn packed_and_plain_is_what_is_chosen_without_a_word() {
        assert_eq!(Rules::default(), Rules::PACKED);
        assert_eq!(Rules::PACKED.profile, Profile::Plain);
    }

    #[test]
    fn each_choice_is_changed_by_itself() {
        assert_eq!(Rules::PACKED.with_other_layout(), Rules::ALIGNED);
        assert_eq!(Rules::ALIGNED.with_other_layout(), Rules::PACKED);
        for rules in Rules::ALL {
            let (layout, profile) = (rules.with_other_layout(), rules.with_other_profile());
            assert!(layout.layout != rules.layout && layout.profile == rules.profile);
            assert!(profile.layout == rules.layout && profile.profile != rules.profile);
            assert_eq!(layout.with_other_layout(), rules);
            assert_eq!(profile.with_other_profile(), rules);
        }
    }

    #[test]
    fn all_four_are_different() {
        let mut all = Rules::ALL.to_vec();
        all.sort();
        all.dedup();
        assert_eq!(all.len(), 4);
    }
}
