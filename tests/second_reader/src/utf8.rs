//! Well-formed UTF-8, read from the definition of RFC 3629, section 3: each sequence of octets is taken apart into
//! the character number that its bits hold, and the number must be one that this many octets are for.
//!
//! U+0000, U+FEFF and noncharacters are numbers like any other. No octet sequence runs from one text into the next.

/// A line of the RFC's table: the numbers that sequences of this form are for.
struct Form {
    octets: usize,
    /// The bits of the first octet that are fixed, and what they are.
    fixed: u8,
    marked: u8,
    first: u32,
    last: u32,
}

const FORMS: [Form; 4] = [
    Form {
        octets: 1,
        fixed: 0b1000_0000,
        marked: 0b0000_0000,
        first: 0,
        last: 0x7F,
    },
    Form {
        octets: 2,
        fixed: 0b1110_0000,
        marked: 0b1100_0000,
        first: 0x80,
        last: 0x7FF,
    },
    Form {
        octets: 3,
        fixed: 0b1111_0000,
        marked: 0b1110_0000,
        first: 0x800,
        last: 0xFFFF,
    },
    Form {
        octets: 4,
        fixed: 0b1111_1000,
        marked: 0b1111_0000,
        first: 0x1_0000,
        last: 0x10_FFFF,
    },
];

/// Numbers that RFC 3629 keeps out: they are for pairs in UTF-16.
const SURROGATES: std::ops::RangeInclusive<u32> = 0xD800..=0xDFFF;

/// Why bytes are not UTF-8.
#[derive(Clone, Copy, Debug, PartialEq, Eq, PartialOrd, Ord)]
pub enum Fault {
    /// 10xxxxxx where a character begins.
    Continuation,
    /// 11111xxx, which no form has.
    NoForm,
    /// The text ends inside a character.
    CutByEnd,
    /// Another octet than 10xxxxxx inside a character.
    CutByOther,
    /// A number in more octets than it needs: in two, three or four.
    OverlongTwo,
    OverlongThree,
    OverlongFour,
    Surrogate,
    /// A number above U+10FFFF.
    Above,
}

impl Fault {
    pub const ALL: [Fault; 9] = [
        Fault::Continuation,
        Fault::NoForm,
        Fault::CutByEnd,
        Fault::CutByOther,
        Fault::OverlongTwo,
        Fault::OverlongThree,
        Fault::OverlongFour,
        Fault::Surrogate,
        Fault::Above,
    ];
}

/// Whether the bytes are characters one after another, and nothing else.
pub fn is_well_formed(bytes: &[u8]) -> bool {
    first_fault(bytes).is_none()
}

/// The first byte that does not begin a character where one is due, and why it does not.
pub fn first_fault(bytes: &[u8]) -> Option<(usize, Fault)> {
    let mut at = 0;
    while at < bytes.len() {
        match character(&bytes[at..]) {
            Ok(octets) => at += octets,
            Err(fault) => return Some((at, fault)),
        }
    }
    None
}

/// The octets of the character at the front of `left`, which is not empty.
fn character(left: &[u8]) -> Result<usize, Fault> {
    let form = form_of(left[0])?;
    let sequence = &left[..form.octets.min(left.len())];
    let mut number = u32::from(left[0] & !form.fixed);
    for &octet in &sequence[1..] {
        if octet & 0b1100_0000 != 0b1000_0000 {
            return Err(Fault::CutByOther);
        }
        number = number << 6 | u32::from(octet & 0b0011_1111);
    }
    if sequence.len() < form.octets {
        return Err(Fault::CutByEnd);
    }
    if number < form.first {
        return Err(overlong(form.octets));
    }
    if number > form.last {
        return Err(Fault::Above);
    }
    if SURROGATES.contains(&number) {
        return Err(Fault::Surrogate);
    }
    Ok(form.octets)
}

fn form_of(first_octet: u8) -> Result<&'static Form, Fault> {
    let form = FORMS
        .iter()
        .find(|form| first_octet & form.fixed == form.marked);
    form.ok_or(if first_octet & 0b1100_0000 == 0b1000_0000 {
        Fault::Continuation
    } else {
        Fault::NoForm
    })
}

fn overlong(octets: usize) -> Fault {
    match octets {
        2 => Fault::OverlongTwo,
        3 => Fault::OverlongThree,
        _ => Fault::OverlongFour,
    }
}

#[cfg(test)]
mod tests {
    use super::*;

    /// Rust's own answer.
    fn same_as_std(bytes: &[u8]) -> bool {
        let std = std::str::from_utf8(bytes);
        let fault = first_fault(bytes).map(|(at, _)| at);
        fault == std.err().map(|error| error.valid_up_to())
    }

    #[test]
    fn all_strings_of_up_to_three_bytes_as_std_has_them() {
        assert!(same_as_std(&[]));
        for a in 0..=u8::MAX {
            assert!(same_as_std(&[a]), "{a:02X}");
            for b in 0..=u8::MAX {
                assert!(same_as_std(&[a, b]), "{a:02X} {b:02X}");
                for c in 0..=u8::MAX {
                    assert!(same_as_std(&[a, b, c]), "{a:02X} {b:02X} {c:02X}");
                }
            }
        }
    }

    #[test]
    fn all_strings_of_four_bytes_that_begin_as_four_octets_do() {
        // Of the last two octets, one on each side of each edge.
        let edges = [0x00, 0x7F, 0x80, 0x8F, 0x90, 0x9F, 0xA0, 0xBF, 0xC0, 0xFF];
        for a in 0xE0..=u8::MAX {
            for b in 0..=u8::MAX {
                for (c, d) in edges.into_iter().flat_map(|c| edges.map(|d| (c, d))) {
                    assert!(
                        same_as_std(&[a, b, c, d]),
                        "{a:02X} {b:02X} {c:02X} {d:02X}"
                    );
                }
            }
        }
    }

    #[test]
    fn each_character_number_in_its_own_octets_and_no_other() {
        for number in 0..0x20_0000_u32 {
            let octets = |count: u32| -> Vec<u8> {
                let last = (0..count - 1)
                    .rev()
                    .map(|i| 0x80 | (number >> (6 * i)) as u8 & 0x3F);
                let mark = [0, 0xC0, 0xE0, 0xF0][count as usize - 1];
                let first = mark | (number >> (6 * (count - 1))) as u8;
                std::iter::once(first).chain(last).collect()
            };
            let own = match char::from_u32(number) {
                Some(character) => character.len_utf8() as u32,
                None => 0,
            };
            for (count, most) in [(1, 0x7F), (2, 0x7FF), (3, 0xFFFF), (4, 0x1F_FFFF)] {
                if number <= most {
                    let formed = is_well_formed(&octets(count));
                    assert_eq!(formed, count == own, "U+{number:04X} in {count}");
                }
            }
        }
    }

    /// Strings of up to 70 bytes: any, and such that most octets go on well.
    #[test]
    fn longer_strings_as_std_has_them() {
        let mut state = 1_u64;
        let mut next = move || {
            state = state
                .wrapping_mul(6_364_136_223_846_793_005)
                .wrapping_add(99_991);
            (state >> 33) as u32
        };
        let mut met = [0; 2];
        for round in 0..400_000 {
            let mut bytes = Vec::new();
            let most = next() as usize % 70;
            while bytes.len() < most {
                match char::from_u32(
                    next() % [0x80, 0x800, 0x1_0000, 0x11_0000][next() as usize % 4],
                ) {
                    Some(character) => {
                        bytes.extend_from_slice(character.to_string().as_bytes());
                    }
                    None => bytes.push(next() as u8),
                }
            }
            if round % 2 == 0 && !bytes.is_empty() {
                let at = next() as usize % bytes.len();
                bytes[at] = next() as u8;
            }
            assert!(same_as_std(&bytes), "{bytes:02X?}");
            met[usize::from(is_well_formed(&bytes))] += 1;
        }
        assert!(met.iter().all(|&times| times > 50_000), "{met:?}");
    }

    #[test]
    fn each_fault_has_its_name_and_its_place() {
        let faults: [(&[u8], usize, Fault); 16] = [
            (b"\x80", 0, Fault::Continuation),
            (b"a\xC3\xA9\xA9", 3, Fault::Continuation),
            (b"ab\xF8\x88\x80\x80\x80", 2, Fault::NoForm),
            (b"\xFF", 0, Fault::NoForm),
            (b"a\xC3", 1, Fault::CutByEnd),
            (b"\xF0\x90\x80", 0, Fault::CutByEnd),
            (b"a\xC3a", 1, Fault::CutByOther),
            (b"\xE2\x82\xC3\xA9", 0, Fault::CutByOther),
            (b"\xC0\x80", 0, Fault::OverlongTwo),
            (b"\xC1\xBF", 0, Fault::OverlongTwo),
            (b"\xE0\x9F\xBF", 0, Fault::OverlongThree),
            (b"\xF0\x8F\xBF\xBF", 0, Fault::OverlongFour),
            (b"\xED\xA0\x80", 0, Fault::Surrogate),
            (b"\xED\xBF\xBF", 0, Fault::Surrogate),
            (b"\xF4\x90\x80\x80", 0, Fault::Above),
            (b"\xF7\xBF\xBF\xBF", 0, Fault::Above),
        ];
        for (bytes, at, fault) in faults {
            assert_eq!(first_fault(bytes), Some((at, fault)), "{bytes:02X?}");
        }
    }

    #[test]
    fn zero_the_byte_order_mark_and_noncharacters_are_characters() {
        let numbers = [0, 0xFEFF, 0xFFFE, 0xFFFF, 0xFDD0, 0x1_FFFF, 0x10_FFFF];
        for number in numbers {
            let character = char::from_u32(number).expect("no surrogate");
            assert!(is_well_formed(character.to_string().as_bytes()));
        }
        // The examples of RFC 3629, section 7.
        let examples: [&[u8]; 4] = [
            b"\x41\xE2\x89\xA2\xCE\x91\x2E",
            b"\xED\x95\x9C\xEA\xB5\xAD\xEC\x96\xB4",
            b"\xE6\x97\xA5\xE6\x9C\xAC\xE8\xAA\x9E",
            b"\xEF\xBB\xBF\xF0\xA3\x8E\xB4",
        ];
        assert!(examples.into_iter().all(is_well_formed));
    }
}
