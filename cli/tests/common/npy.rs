//! Reads a NumPy array file by its own description (version 1.0), without NumPy.

#[derive(Debug, PartialEq)]
pub struct Npy {
    pub dtype: String,
    pub shape: Vec<u64>,
    pub data: Vec<u8>,
}

/// The array that a file holds. What stands before the data takes a multiple of 64 bytes, and the data are in C order.
pub fn parse(file: &[u8]) -> Npy {
    assert_eq!(&file[..8], b"\x93NUMPY\x01\x00", "magic and version");
    let length = usize::from(u16::from_le_bytes([file[8], file[9]]));
    assert_eq!((10 + length) % 64, 0, "a header that fills up 64 bytes");
    let header = std::str::from_utf8(&file[10..][..length]).expect("ASCII");
    assert!(header.ends_with('\n'), "{header:?}");
    let dictionary = header.trim_end_matches(['\n', ' ']);
    assert!(
        dictionary.starts_with('{') && dictionary.ends_with('}'),
        "{header:?}"
    );
    assert_eq!(between(dictionary, "'fortran_order': ", ","), "False");
    Npy {
        dtype: between(dictionary, "'descr': '", "'").to_string(),
        shape: tuple(between(dictionary, "'shape': (", ")")),
        data: file[10 + length..].to_vec(),
    }
}

fn between<'a>(text: &'a str, before: &str, after: &str) -> &'a str {
    let (_, rest) = text.split_once(before).expect(before);
    rest.split_once(after).expect(after).0
}

/// The numbers of a tuple of Python; one of a single number has a comma too.
fn tuple(inside: &str) -> Vec<u64> {
    let numbers: Vec<&str> = inside.split(',').map(str::trim).collect();
    assert!(numbers.len() > 1, "({inside}) is no tuple");
    let given = numbers.iter().filter(|number| !number.is_empty());
    given
        .map(|number| number.parse().expect("a number"))
        .collect()
}
