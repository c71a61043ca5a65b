//! What the caller says of a whole stream.

use crate::raw;

/// How the waveform headers of a stream are laid out.
#[derive(Clone, Copy, Debug, Default, PartialEq, Eq, Hash)]
pub enum Layout {
    /// Fields that adjoin, 32 bytes.
    #[default]
    Packed,
    /// Fields that lie aligned, 40 bytes. Bytes 2 to 7, 38 and 39 are filler: reading does not look at them, no
    /// field starts there, and the normal form and the writer make them zero.
    Aligned,
}

/// What the texts of a stream may hold.
#[derive(Clone, Copy, Debug, Default, PartialEq, Eq, Hash)]
pub enum Profile {
    /// Any bytes.
    #[default]
    Plain,
    /// UTF-8: names (the bytes before the zero), configuration texts, header texts, texts and the attributes of
    /// images must each be well formed by RFC 3629, else 21. So `std::str::from_utf8` of these parts of a strict
    /// stream never fails.
    ///
    /// ```
    /// use cotterleaf::{refused, Part, Refusal, Rules, Stream};
    ///
    /// // A text of one character, and the close.
    /// let utf8 = [5, 0, 2, 0, 0, 0, 0xC3, 0xA9, 4, 0];
    /// let stream = Stream::new(Rules::packed().strict(), &utf8);
    /// assert_eq!(std::str::from_utf8(stream.view(0, Part::Text)?), Ok("é"));
    ///
    /// // The same text in Latin-1.
    /// let latin1 = [5, 0, 1, 0, 0, 0, 0xE9, 4, 0];
    /// let stream = Stream::new(Rules::packed().strict(), &latin1);
    /// assert_eq!(stream.check().unwrap_err().number, refused::TEXT_NOT_UTF8);
    /// assert_eq!(Stream::new(Rules::packed(), &latin1).check(), Ok(2));
    /// # Ok::<(), Refusal>(())
    /// ```
    Strict,
}

/// The rules by which a stream is read or written, the same for the whole of it.
///
/// Nothing in a stream tells them: the caller knows the layout from where the stream comes, and the profile from
/// where it goes. A stream may be accepted under both layouts, with other records; a cursor, an index and a normal
/// form belong to a stream under one of them. What the strict profile accepts the plain one accepts too, with the
/// same records, index and normal form.
///
/// ```
/// use cotterleaf::{Layout, Profile, Rules};
///
/// assert_eq!(Rules::default(), Rules::packed());
/// assert_eq!(Rules::aligned().layout, Layout::Aligned);
/// assert_eq!(Rules::aligned().profile, Profile::Plain);
/// assert_eq!(Rules::aligned().strict().profile, Profile::Strict);
/// ```
#[derive(Clone, Copy, Debug, Default, PartialEq, Eq, Hash)]
#[non_exhaustive]
pub struct Rules {
    /// The layout of waveform headers.
    pub layout: Layout,
    /// What texts may hold.
    pub profile: Profile,
}

impl Rules {
    /// Waveform headers of 32 bytes, as MRD packs them, and the plain profile: the default.
    pub const fn packed() -> Rules {
        Rules {
            layout: Layout::Packed,
            profile: Profile::Plain,
        }
    }

    /// Waveform headers of 40 bytes, and the plain profile.
    pub const fn aligned() -> Rules {
        Rules {
            layout: Layout::Aligned,
            profile: Profile::Plain,
        }
    }

    /// The same layout with the strict profile: texts must be UTF-8.
    pub const fn strict(self) -> Rules {
        Rules {
            profile: Profile::Strict,
            ..self
        }
    }

    /// The same layout with the plain profile: texts may hold any bytes.
    pub const fn plain(self) -> Rules {
        Rules {
            profile: Profile::Plain,
            ..self
        }
    }

    pub(crate) fn given(self) -> raw::mrd_rules {
        raw::mrd_rules {
            aligned_waveforms: self.layout == Layout::Aligned,
            strict_text: self.profile == Profile::Strict,
        }
    }
}
