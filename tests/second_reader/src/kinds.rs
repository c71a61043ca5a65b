//! The eight kinds of message, with their ids and fixed sizes (document 01, "Message kinds").

use crate::headers::{Table, ACQUISITION, ALIGNED_WAVEFORM, IMAGE, WAVEFORM};
use crate::rules::{Layout, Rules};

#[derive(Clone, Copy, Debug, PartialEq, Eq, PartialOrd, Ord)]
pub enum Kind {
    ConfigurationName,
    ConfigurationText,
    HeaderText,
    Close,
    Text,
    Acquisition,
    Image,
    Waveform,
}

impl Kind {
    pub const ALL: [Kind; 8] = [
        Kind::ConfigurationName,
        Kind::ConfigurationText,
        Kind::HeaderText,
        Kind::Close,
        Kind::Text,
        Kind::Acquisition,
        Kind::Image,
        Kind::Waveform,
    ];

    pub fn id(self) -> u16 {
        match self {
            Kind::ConfigurationName => 1,
            Kind::ConfigurationText => 2,
            Kind::HeaderText => 3,
            Kind::Close => 4,
            Kind::Text => 5,
            Kind::Acquisition => 1008,
            Kind::Image => 1022,
            Kind::Waveform => 1026,
        }
    }

    pub fn of_id(id: u16) -> Option<Kind> {
        Kind::ALL.into_iter().find(|kind| kind.id() == id)
    }

    /// The bytes that every message of this kind has after its id.
    pub fn fixed_size(self, rules: Rules) -> usize {
        match self {
            Kind::ConfigurationName => 1_024,
            Kind::ConfigurationText | Kind::HeaderText | Kind::Text => 4,
            Kind::Close => 0,
            Kind::Acquisition => 340,
            Kind::Image => 198 + 8,
            Kind::Waveform => match rules.layout {
                Layout::Packed => 32,
                Layout::Aligned => 40,
            },
        }
    }

    /// The table of this kind's fixed header; names, texts and the close have none.
    pub fn table(self, rules: Rules) -> Option<&'static Table> {
        match self {
            Kind::Acquisition => Some(&ACQUISITION),
            Kind::Image => Some(&IMAGE),
            Kind::Waveform => Some(match rules.layout {
                Layout::Packed => &WAVEFORM,
                Layout::Aligned => &ALIGNED_WAVEFORM,
            }),
            _ => None,
        }
    }

    /// The bytes of the fixed header. An image's 8-byte attribute length is not part of it.
    pub fn header_size(self, rules: Rules) -> usize {
        self.table(rules).map_or(0, |table| table.size)
    }

    pub fn is_text(self) -> bool {
        matches!(
            self,
            Kind::ConfigurationText | Kind::HeaderText | Kind::Text
        )
    }

    pub fn is_configuration(self) -> bool {
        matches!(self, Kind::ConfigurationName | Kind::ConfigurationText)
    }

    pub fn is_data(self) -> bool {
        matches!(self, Kind::Acquisition | Kind::Image | Kind::Waveform)
    }
}

#[cfg(test)]
mod tests {
    use super::*;

    #[test]
    fn ids_and_fixed_sizes_are_the_papers() {
        for (rules, waveform) in [(Rules::PACKED, 32), (Rules::ALIGNED, 40)] {
            let rows: Vec<(u16, usize)> = Kind::ALL
                .iter()
                .map(|kind| (kind.id(), kind.fixed_size(rules)))
                .collect();
            assert_eq!(
                rows,
                [
                    (1, 1_024),
                    (2, 4),
                    (3, 4),
                    (4, 0),
                    (5, 4),
                    (1008, 340),
                    (1022, 206),
                    (1026, waveform)
                ]
            );
        }
    }

    #[test]
    fn the_layout_is_that_of_waveform_headers_alone() {
        for kind in Kind::ALL {
            let [packed, aligned] = Rules::PLAIN.map(|rules| kind.header_size(rules));
            assert_eq!(packed == aligned, kind != Kind::Waveform);
        }
        for rules in Rules::ALL {
            let header = Kind::Waveform.header_size(rules);
            assert_eq!(header, Kind::Waveform.fixed_size(rules));
        }
    }

    #[test]
    fn eight_of_all_ids_are_known() {
        let known: Vec<u16> = (0..=u16::MAX)
            .filter(|&id| Kind::of_id(id).is_some())
            .collect();
        assert_eq!(known, [1, 2, 3, 4, 5, 1008, 1022, 1026]);
    }
}
