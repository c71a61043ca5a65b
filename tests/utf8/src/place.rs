//! A short stream for each kind that has text, built once for each length, into which one text after another is put.

use cotterleaf::{Fault, Message, Refusal, Rules, Stream};
use second_reader::Kind;
use streams::TEXTED;

/// What the library gives other than Rust's own answer asks for, in words.
pub struct Difference(pub String);

type Answer = Result<usize, Refusal>;

/// One message with a text of a fixed length between what the order asks for.
pub struct Place {
    pub kind: Kind,
    stream: Vec<u8>,
    /// Where the message begins, where its text does, and the length of that.
    start: usize,
    text: usize,
    length: usize,
    header: Vec<u8>,
    /// Where the writer puts it.
    written: Vec<u8>,
}

fn strict() -> Rules {
    Rules::packed().strict()
}

fn plain() -> Rules {
    Rules::packed()
}

/// The places of all kinds for texts of this length.
pub fn places(length: usize) -> [Place; 5] {
    TEXTED.map(|kind| Place::of(kind, length))
}

/// A refusal without a place.
fn number(number: u32) -> Refusal {
    Refusal {
        number,
        place: None,
    }
}

impl Place {
    fn of(kind: Kind, length: usize) -> Place {
        let mut message = streams::Message::empty(second_reader::Rules::PACKED, kind.id());
        if kind == Kind::Image {
            message.header = vec![0; 198];
            message.set("version", 0, 1);
            message.set("data_type", 0, 1);
        }
        // What stands after a name's zero is no text, and never UTF-8 here.
        message.filler = vec![0xFF];
        message.set_own_text(vec![b'x'; length]);
        let front: &[u8] = match kind.is_data() {
            true => &[3, 0, 0, 0, 0, 0],
            false => &[],
        };
        let bytes = message.bytes();
        let text = match kind {
            Kind::ConfigurationName => 2,
            Kind::Image => 208,
            _ => 6,
        };
        Place {
            kind,
            stream: [front, &bytes, &[4, 0]].concat(),
            start: front.len(),
            text: front.len() + text,
            length,
            header: message.header,
            written: vec![0; bytes.len()],
        }
    }

    /// Compares what the library says of this text in both profiles, as its check and its writer do, with Rust's own
    /// answer. Whether the strict profile accepts it in a stream is given.
    pub fn same(&mut self, text: &[u8], room: bool) -> Result<bool, Difference> {
        assert_eq!(text.len(), self.length);
        self.stream[self.text..][..text.len()].copy_from_slice(text);
        // A name ends at its first zero.
        let shown = match self.kind {
            Kind::ConfigurationName => text.split(|&byte| byte == 0).next().unwrap_or_default(),
            _ => text,
        };
        let accepted = std::str::from_utf8(shown).is_ok();
        self.same_check(accepted)?;
        self.same_write(text, text.len() == shown.len(), accepted)?;
        if room && text.len() == shown.len() {
            self.same_written(text, accepted)?;
        }
        Ok(accepted)
    }

    fn same_check(&self, accepted: bool) -> Result<(), Difference> {
        let data = usize::from(self.kind.is_data());
        let count = Ok(2 + data);
        let refused = Err(Refusal {
            number: 21,
            place: Some(Fault {
                record: data,
                byte: self.start,
            }),
        });
        let in_strict = if accepted { count } else { refused };
        let check = |rules| Stream::new(rules, &self.stream).check();
        same("check, strict", check(strict()), in_strict)?;
        same("check, plain", check(plain()), count)
    }

    fn message<'a>(&'a self, text: &'a [u8]) -> Message<'a> {
        let mut message = Message {
            id: self.kind.id(),
            header: &self.header,
            ..Message::default()
        };
        match self.kind {
            Kind::ConfigurationName => message.name = text,
            Kind::Image => message.attributes = text,
            _ => message.text = text,
        }
        message
    }

    /// The writer's answer without any room, which is the last to be looked at: 5 for a name with a zero, 21, or 14.
    fn same_write(
        &self,
        text: &[u8],
        without_zero: bool,
        accepted: bool,
    ) -> Result<(), Difference> {
        let [in_strict, in_plain] = match (without_zero, accepted) {
            (false, _) => [5, 5],
            (true, false) => [21, 14],
            (true, true) => [14, 14],
        };
        let message = self.message(text);
        let write = |rules| message.write(rules, &mut [], 0);
        same("write, strict", write(strict()), Err(number(in_strict)))?;
        same("write, plain", write(plain()), Err(number(in_plain)))
    }

    /// What the writer makes of it where there is room: the message of the stream, but for a name's filler, or nothing.
    fn same_written(&mut self, text: &[u8], accepted: bool) -> Result<(), Difference> {
        let mut output = std::mem::take(&mut self.written);
        let size = output.len();
        for (call, rules) in [("written, strict", strict()), ("written, plain", plain())] {
            output.fill(0xEE);
            let answer = self.message(text).write(rules, &mut output, 0);
            let whole = accepted || rules == plain();
            let expected = if whole { Ok(size) } else { Err(number(21)) };
            same(call, answer, expected)?;
            let right = match whole {
                true => output == self.expected_message(),
                false => output.iter().all(|&byte| byte == 0xEE),
            };
            if !right {
                return Err(Difference(format!("{call}: output {output:02X?}")));
            }
        }
        self.written = output;
        Ok(())
    }

    fn expected_message(&self) -> Vec<u8> {
        let size = self.stream.len() - 2 - self.start;
        let mut message = self.stream[self.start..][..size].to_vec();
        match self.kind {
            Kind::ConfigurationName => message[2 + self.length..].fill(0),
            // The header says the length, whatever it said.
            Kind::Image => message[196..200].copy_from_slice(&(self.length as u32).to_le_bytes()),
            _ => {}
        }
        message
    }
}

fn same(call: &str, library: Answer, expected: Answer) -> Result<(), Difference> {
    if library == expected {
        return Ok(());
    }
    let words = format!("{call}: {library:?}, where {expected:?} is right");
    Err(Difference(words))
}
