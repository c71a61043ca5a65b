//! The strict profile's check of streams that are texts, beside Rust's own `from_utf8` over the same texts in the same
//! order. What `from_utf8` is given is cut out of the stream before, so that it alone has no messages to find.

use crate::baseline::strict;
use crate::library;
use crate::operations::taken;
use crate::table::{Row, Unit};
use crate::timing::{alternately, Effort};
use std::hint::black_box;
use streams::rng::Rng;

/// What the texts are written in, by the bytes that a character takes.
#[derive(Clone, Copy)]
pub enum Script {
    /// One byte.
    Ascii,
    /// Two bytes.
    Cyrillic,
    /// Three bytes.
    Chinese,
    /// Four bytes.
    Emoji,
    /// One to four bytes, drawn anew for each character.
    Mixed,
}

impl Script {
    fn character(self, rng: &mut Rng) -> char {
        let (first, last) = match self {
            Script::Ascii => (' ', '~'),
            Script::Cyrillic => ('А', 'я'),
            Script::Chinese => ('\u{4E00}', '\u{9FFF}'),
            Script::Emoji => ('\u{1F300}', '\u{1F64F}'),
            Script::Mixed => {
                let one = [
                    Script::Ascii,
                    Script::Cyrillic,
                    Script::Chinese,
                    Script::Emoji,
                ];
                return rng.pick(&one).character(rng);
            }
        };
        let (first, last) = (u32::from(first), u32::from(last));
        let drawn = first + rng.below(u64::from(last - first) + 1) as u32;
        char::from_u32(drawn).expect("a character of the range")
    }

    /// A text of as many characters as so many bytes hold.
    pub fn text(self, rng: &mut Rng, length: usize) -> String {
        let mut text = String::with_capacity(length);
        loop {
            let next = self.character(rng);
            if text.len() + next.len_utf8() > length {
                return text;
            }
            text.push(next);
        }
    }
}

/// A stream of texts and the close.
pub fn stream<'a>(texts: impl IntoIterator<Item = &'a [u8]>) -> Vec<u8> {
    let mut stream = vec![];
    for text in texts {
        stream.extend(5_u16.to_le_bytes());
        stream.extend((text.len() as u32).to_le_bytes());
        stream.extend(text);
    }
    stream.extend(4_u16.to_le_bytes());
    stream
}

/// Many texts of one script.
struct Texts {
    name: &'static str,
    script: Script,
    count: usize,
    length: usize,
}

/// Large texts and small ones in each script. The small ones show what a text costs beside its bytes.
fn measured(quick: bool) -> Vec<Texts> {
    let (large, small) = match quick {
        true => ((2, 10_000), (500, 60)),
        false => ((16, 1_000_000), (200_000, 60)),
    };
    let names = [
        ("ASCII, large texts", "ASCII, small texts", Script::Ascii),
        (
            "Cyrillic, large texts",
            "Cyrillic, small texts",
            Script::Cyrillic,
        ),
        (
            "Chinese, large texts",
            "Chinese, small texts",
            Script::Chinese,
        ),
        ("emoji, large texts", "emoji, small texts", Script::Emoji),
        ("mixed, large texts", "mixed, small texts", Script::Mixed),
    ];
    let texts = |name, script, (count, length)| Texts {
        name,
        script,
        count,
        length,
    };
    let large_texts = names.map(|(name, _, script)| texts(name, script, large));
    let small_texts = names.map(|(_, name, script)| texts(name, script, small));
    large_texts.into_iter().chain(small_texts).collect()
}

impl Texts {
    fn stream(&self) -> Vec<u8> {
        let mut rng = Rng::new(9);
        let drawn = (0..self.count).map(|_| self.script.text(&mut rng, self.length));
        let drawn: Vec<String> = drawn.collect();
        stream(drawn.iter().map(String::as_bytes))
    }

    fn row(&self, effort: Effort) -> Row {
        let stream = self.stream();
        let texts = strict::texts(&stream);
        let messages = self.count + 1;
        assert!(strict::all_utf8(&texts));
        assert_eq!(library::check_strict(&stream), Ok(messages));
        let times = alternately(
            effort,
            &mut || taken(library::check_strict(black_box(&stream))),
            &mut || taken(strict::all_utf8(black_box(&texts))),
        );
        Row {
            operation: "strict check (from_utf8)",
            stream: self.name,
            bytes: texts.iter().map(|text| text.len()).sum(),
            messages,
            unit: Unit::Bandwidth,
            times,
        }
    }
}

pub fn rows(quick: bool, effort: Effort) -> Vec<Row> {
    let rows = measured(quick).into_iter().map(|texts| {
        eprintln!("{}, {} texts", texts.name, texts.count);
        texts.row(effort)
    });
    rows.collect()
}
