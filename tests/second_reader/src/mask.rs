//! What an acquisition's channel mask says (document 02, E5).

use crate::headers::Table;

/// The answer of the mask check, with the ones counted where there are any.
#[derive(Clone, Copy, Debug, PartialEq, Eq)]
pub enum Mask {
    /// All zero.
    NotStated,
    /// As many ones as active channels.
    Agrees { ones: u32 },
    /// Any other count.
    Differs { ones: u32 },
}

/// Counts one after the other. Which channels the ones stand for is not looked at.
pub fn mask(table: &Table, header: &[u8]) -> Mask {
    let mut ones = 0;
    for i in 0..16 {
        let mut word = table.whole(header, "channel_mask", i);
        while word != 0 {
            word &= word - 1;
            ones += 1;
        }
    }
    if ones == 0 {
        Mask::NotStated
    } else if u64::from(ones) == table.whole(header, "active_channels", 0) {
        Mask::Agrees { ones }
    } else {
        Mask::Differs { ones }
    }
}
