//! The streams that the repository keeps.

use second_reader::Rules;

pub struct Kept {
    pub name: &'static str,
    pub bytes: &'static [u8],
    /// Those that it is accepted under, in the plain profile and in the strict one.
    pub rules: Rules,
}

pub const ALL_KINDS: &[u8] = include_bytes!("../../../samples/all_kinds.mrd");

pub const KEPT: [Kept; 5] = [
    Kept {
        name: "all_kinds.mrd",
        bytes: ALL_KINDS,
        rules: Rules::PACKED,
    },
    Kept {
        name: "configuration_text.mrd",
        bytes: include_bytes!("../../../samples/configuration_text.mrd"),
        rules: Rules::PACKED,
    },
    Kept {
        name: "aligned_waveforms.mrd",
        bytes: include_bytes!("../../../samples/aligned_waveforms.mrd"),
        rules: Rules::ALIGNED,
    },
    Kept {
        name: "phantom.mrd",
        bytes: include_bytes!("../../../field_data/phantom.mrd"),
        rules: Rules::PACKED,
    },
    Kept {
        name: "phantom_aligned.mrd",
        bytes: include_bytes!("../../../field_data/phantom_aligned.mrd"),
        rules: Rules::ALIGNED,
    },
];
