//! Header elements and texts, in words and in JSON.

use cotterleaf::Field;
use serde_json::Value;
use std::io::{Result, Write};

/// An element as JSON has it: a float that is no finite number by its bits.
pub fn field_value(field: Field) -> Value {
    match field {
        Field::Whole(number) => number.into(),
        Field::Signed(number) => number.into(),
        Field::Float { bits } => match f32::from_bits(bits) {
            float if float.is_finite() => f64::from(float).into(),
            _ => bits_word(bits).into(),
        },
    }
}

/// An element in words: the shortest decimal that gives a float back.
pub fn field_word(field: Field) -> String {
    match field {
        Field::Whole(number) => number.to_string(),
        Field::Signed(number) => number.to_string(),
        Field::Float { bits } => match f32::from_bits(bits) {
            float if float.is_finite() => float.to_string(),
            float => format!("{float} ({})", bits_word(bits)),
        },
    }
}

fn bits_word(bits: u32) -> String {
    format!("{bits:#010x}")
}

/// Whether a character can be shown as it is. Control characters could tell a terminal what to do, and marks of
/// direction could show a text in another order than it has.
fn is_shown(c: char) -> bool {
    let direction =
        matches!(c, '\u{200e}' | '\u{200f}' | '\u{202a}'..='\u{202e}' | '\u{2066}'..='\u{2069}');
    matches!(c, '\n' | '\t') || !(c.is_control() || direction)
}

/// Writes a text for a person: what can't be shown is escaped, bytes that are not UTF-8 are as `\xe9`.
pub fn write_text(out: &mut dyn Write, text: &[u8]) -> Result<()> {
    for chunk in text.utf8_chunks() {
        let mut shown = chunk.valid();
        while let Some(at) = shown.find(|c| !is_shown(c)) {
            out.write_all(&shown.as_bytes()[..at])?;
            let mut rest = shown[at..].chars();
            let hidden = rest.next().expect("a character");
            write!(out, "{}", hidden.escape_unicode())?;
            shown = rest.as_str();
        }
        out.write_all(shown.as_bytes())?;
        for byte in chunk.invalid() {
            write!(out, "\\x{byte:02x}")?;
        }
    }
    Ok(())
}

#[cfg(test)]
mod tests {
    use super::*;

    #[test]
    fn text_is_shown_without_controls() {
        let mut out = Vec::new();
        let text = b"a\tb\n\x1b[2J\0\xe9\xc3\xa9\xc2\x9b\xe2\x80\xae";
        write_text(&mut out, text).expect("a text");
        let shown = String::from_utf8(out).expect("UTF-8");
        assert_eq!(shown, "a\tb\n\\u{1b}[2J\\u{0}\\xe9é\\u{9b}\\u{202e}");
    }

    #[test]
    fn floats_keep_their_bits() {
        for bits in [0, 0x8000_0000, 1, 0x3dcc_cccd, 0x7f7f_ffff] {
            let value = field_value(Field::Float { bits });
            let back = value.as_f64().expect("a number") as f32;
            assert_eq!(back.to_bits(), bits);
        }
        for bits in [0x7f80_0000, 0xff80_0000, 0x7fc0_0001] {
            let value = field_value(Field::Float { bits });
            assert_eq!(value, format!("{bits:#010x}"));
        }
    }
}
