//! The number reads of the library, those that they replaced, and Rust's own, by width. The first two are the proved
//! ones of crates/reads_compared. Each gives 0 where its bytes do not lie in the slice.

/// The number of the bytes of a slice from a place on.
pub type Read = fn(&[u8], usize) -> u64;

pub struct Width {
    pub bytes: usize,
    pub old: Read,
    pub new: Read,
    /// Rust's `from_le_bytes`.
    pub plain: Read,
}

pub const WIDTHS: [Width; 3] = [
    Width {
        bytes: 2,
        old: old_u16,
        new: new_u16,
        plain: plain_u16,
    },
    Width {
        bytes: 4,
        old: old_u32,
        new: new_u32,
        plain: plain_u32,
    },
    Width {
        bytes: 8,
        old: old_u64,
        new: new_u64,
        plain: plain_u64,
    },
];

/// The C function of the archive, and the same with a slice in place of pointer and length.
macro_rules! read {
    ($name:ident, $function:ident, $number:ty) => {
        extern "C" {
            fn $function(s: *const u8, length: usize, at: usize) -> $number;
        }

        fn $name(s: &[u8], at: usize) -> u64 {
            // SAFETY: pointer and length are those of a slice that is borrowed for the call; any place may be given.
            u64::from(unsafe { $function(s.as_ptr(), s.len(), at) })
        }
    };
}

read!(old_u16, old_read_u16, u16);
read!(old_u32, old_read_u32, u32);
read!(old_u64, old_read_u64, u64);
read!(new_u16, new_read_u16, u16);
read!(new_u32, new_read_u32, u32);
read!(new_u64, new_read_u64, u64);

macro_rules! plain {
    ($name:ident, $number:ty) => {
        #[inline]
        fn $name(s: &[u8], at: usize) -> u64 {
            s.get(at..)
                .and_then(|from| from.first_chunk())
                .map_or(0, |&bytes| u64::from(<$number>::from_le_bytes(bytes)))
        }
    };
}

plain!(plain_u16, u16);
plain!(plain_u32, u32);
plain!(plain_u64, u64);

extern "C" {
    fn old_xor(s: *const u8, length: usize, width: usize, places: usize) -> u64;
    fn new_xor(s: *const u8, length: usize, width: usize, places: usize) -> u64;
}

/// The numbers of a width, 2, 4 or 8 bytes, at the first places of a slice, taken together by 'exclusive or', each read
/// in the loop itself: what the benchmark times.
pub fn old_together(s: &[u8], width: usize, places: usize) -> u64 {
    // SAFETY: pointer and length are those of a slice that is borrowed for the call; any numbers may be given.
    unsafe { old_xor(s.as_ptr(), s.len(), width, places) }
}

/// The same by the new reads.
pub fn new_together(s: &[u8], width: usize, places: usize) -> u64 {
    // SAFETY: as above.
    unsafe { new_xor(s.as_ptr(), s.len(), width, places) }
}

/// The same by Rust's own.
pub fn plain_together(s: &[u8], width: usize, places: usize) -> u64 {
    match width {
        2 => (0..places).fold(0, |x, at| x ^ plain_u16(s, at)),
        4 => (0..places).fold(0, |x, at| x ^ plain_u32(s, at)),
        _ => (0..places).fold(0, |x, at| x ^ plain_u64(s, at)),
    }
}
