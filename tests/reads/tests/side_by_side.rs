//! Old and new reads side by side on the same bytes, and beside Rust's own: every width, every place at both ends of
//! a slice and beyond, drawn and patterned bytes, between pages that must not be touched.

use reads::{new_together, old_together, plain_together, Read, Width, WIDTHS};
use streams::rng::Rng;

/// The first place where a read and Rust's own differ.
fn difference(read: Read, plain: Read, s: &[u8], places: &[usize]) -> Option<usize> {
    places
        .iter()
        .copied()
        .find(|&at| read(s, at) != plain(s, at))
}

/// All places of a short slice and some beyond; of a long one those at its ends and some between.
fn places(length: usize) -> Vec<usize> {
    let mut places: Vec<usize> = if length <= 64 {
        (0..length + 10).collect()
    } else {
        let step = 1 + length / 61;
        let between = (20..length - 20).step_by(step);
        (0..20)
            .chain(between)
            .chain(length - 20..length + 10)
            .collect()
    };
    places.extend((0..20).map(|less| usize::MAX - less));
    places.extend([1 << 31, 1 << 32, 1 << 63].map(|far: usize| far.wrapping_add(length)));
    places
}

/// Compares both reads of each width with Rust's own, and gives how many reads were compared.
fn compared(s: &[u8]) -> usize {
    let places = places(s.len());
    for Width {
        bytes,
        old,
        new,
        plain,
    } in &WIDTHS
    {
        for (name, read) in [("old", old), ("new", new)] {
            let differs = difference(*read, *plain, s, &places);
            assert_eq!(
                differs, None,
                "the {name} read of {bytes} bytes at this place of {s:02x?}"
            );
        }
    }
    2 * WIDTHS.len() * places.len()
}

/// Bytes that show which place each byte of a number goes to, and the least and largest values.
fn patterns(length: usize) -> Vec<Vec<u8>> {
    let by_place = |byte: fn(usize) -> u8| (0..length).map(byte).collect();
    let mut patterns = vec![
        vec![0x00; length],
        vec![0xFF; length],
        vec![0x80; length],
        vec![0x7F; length],
        by_place(|i| i as u8),
        by_place(|i| !(i as u8)),
        by_place(|i| if i % 2 == 0 { 0xFF } else { 0x00 }),
        by_place(|i| 1 << (i % 8)),
    ];
    patterns.extend((0..length).map(|one| (0..length).map(|i| u8::from(i == one)).collect()));
    patterns
}

#[test]
fn patterned_bytes_of_every_short_length() {
    let count: usize = (0..=40)
        .flat_map(patterns)
        .map(|bytes| compared(&bytes))
        .sum();
    assert!(count > 300_000, "{count} reads");
}

#[test]
fn drawn_bytes_at_every_alignment() {
    let mut rng = Rng::new(4);
    let mut count = 0;
    for _ in 0..2_000 {
        let length = rng.below(300) as usize;
        let bytes = rng.bytes(8 + length);
        let from = rng.below(8) as usize;
        count += compared(&bytes[from..from + length]);
    }
    assert!(count > 300_000, "{count} reads");
}

/// Every number of two bytes, and each byte of the wider ones alone.
#[test]
fn every_number_of_two_bytes() {
    for number in 0..=u16::MAX {
        let bytes = number.to_le_bytes();
        let Width { old, new, .. } = &WIDTHS[0];
        assert_eq!(
            (old(&bytes, 0), new(&bytes, 0)),
            (number.into(), number.into())
        );
    }
    for Width {
        bytes, old, new, ..
    } in &WIDTHS
    {
        for (place, byte) in (0..*bytes).flat_map(|place| (0..=255).map(move |byte| (place, byte)))
        {
            let mut s = vec![0; *bytes];
            s[place] = byte;
            let number = u64::from(byte) << (8 * place);
            assert_eq!((old(&s, 0), new(&s, 0)), (number, number));
        }
    }
}

/// The loops that the benchmark times read the same numbers.
#[test]
fn numbers_of_many_places_together() {
    let mut rng = Rng::new(6);
    for _ in 0..200 {
        let length = rng.below(300) as usize;
        let s = rng.bytes(length);
        let places = rng.below(320) as usize;
        for width in [2, 4, 8] {
            let plain = plain_together(&s, width, places);
            assert_eq!(old_together(&s, width, places), plain);
            assert_eq!(new_together(&s, width, places), plain);
        }
    }
}

/// A slice that fills a page, with no access to the pages before and after it.
struct Guarded {
    pages: *mut u8,
}

const PAGE: usize = 4096;

extern "C" {
    fn mmap(at: *mut u8, length: usize, access: i32, flags: i32, file: i32, offset: i64)
        -> *mut u8;
    fn mprotect(at: *mut u8, length: usize, access: i32) -> i32;
    fn munmap(at: *mut u8, length: usize) -> i32;
}

impl Guarded {
    fn new() -> Guarded {
        const READ_WRITE: i32 = 3;
        const PRIVATE_ANONYMOUS: i32 = 0x22;
        // SAFETY: a new mapping of three pages, of which the middle one is then made accessible.
        unsafe {
            let pages = mmap(std::ptr::null_mut(), 3 * PAGE, 0, PRIVATE_ANONYMOUS, -1, 0);
            assert!(pages as isize != -1, "no pages");
            assert_eq!(mprotect(pages.add(PAGE), PAGE, READ_WRITE), 0);
            Guarded { pages }
        }
    }

    fn page(&mut self) -> &mut [u8] {
        // SAFETY: the middle page is this mapping's own and accessible.
        unsafe { std::slice::from_raw_parts_mut(self.pages.add(PAGE), PAGE) }
    }
}

impl Drop for Guarded {
    fn drop(&mut self) {
        // SAFETY: the mapping is this value's own.
        unsafe { munmap(self.pages, 3 * PAGE) };
    }
}

#[test]
fn no_byte_outside_the_slice_is_touched() {
    let mut guarded = Guarded::new();
    let page = guarded.page();
    page.copy_from_slice(&Rng::new(5).bytes(PAGE));
    for length in (0..=24).chain([PAGE]) {
        compared(&page[..length]);
        compared(&page[PAGE - length..]);
    }
}

/// The comparison finds a byte taken twice, two bytes swapped and a byte of the next place.
#[test]
fn a_wrong_read_is_found() {
    let wrong: [Read; 3] = [
        |s, at| plain_of(s, at, [0, 1, 2, 2]),
        |s, at| plain_of(s, at, [1, 0, 2, 3]),
        |s, at| plain_of(s, at, [0, 1, 2, 4]),
    ];
    for read in wrong {
        let found = patterns(12)
            .iter()
            .any(|s| difference(read, WIDTHS[1].plain, s, &places(12)).is_some());
        assert!(found);
    }
}

fn plain_of(s: &[u8], at: usize, order: [usize; 4]) -> u64 {
    let byte = |i: usize| s.get(at.wrapping_add(i)).copied().unwrap_or(0);
    if s.get(at..).is_none_or(|from| from.len() < 4) {
        return 0;
    }
    u64::from(u32::from_le_bytes(order.map(byte)))
}
