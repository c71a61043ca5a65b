//! What is measured on one stream. Each operation first shows that library and baseline give the same
//! answer or write the same bytes, then times both.

use crate::baseline::reader::{self, Met};
use crate::baseline::{index, normal, parts, questions, salvage, strict, writer::Message};
use crate::library::{self, Cursor};
use crate::made;
use crate::table::{Row, Unit};
use crate::timing::{alternately, Compared, Effort, Times};
use cotterleaf::raw::mrd_step;
use second_reader::Rules;
use std::cell::RefCell;
use std::hint::black_box;

/// One stream, and an output of its length whose pages were touched before.
pub struct Measured<'a> {
    pub name: &'static str,
    pub stream: &'a [u8],
    pub messages: usize,
    pub effort: Effort,
}

impl Measured<'_> {
    pub fn row(&self, operation: &'static str, unit: Unit, times: Compared) -> Row {
        Row {
            operation,
            stream: self.name,
            bytes: self.stream.len(),
            messages: self.messages,
            unit,
            times,
        }
    }

    /// All operations, in the table's order.
    pub fn rows(&self, out: &mut [u8]) -> Vec<Row> {
        vec![
            self.check(),
            self.strict_check(),
            self.walk(),
            self.field(),
            self.field_at(),
            self.find(),
            self.part_at("part at a byte, middle", self.stream.len() / 2),
            self.part_at("part at a byte, last", self.stream.len() - 1),
            self.normal_form(out),
            self.normal_form_against_copy(out),
            self.torn().salvage("salvage", out),
            self.salvage("salvage, nothing lost", out),
            self.torn().salvage_report(),
            self.write(out),
            self.write_index(out),
            self.index_matches(out),
        ]
    }

    fn check(&self) -> Row {
        let s = self.stream;
        assert_eq!(library::check(s), Ok(self.messages));
        assert_eq!(reader::check(s), Ok(self.messages));
        let times = alternately(
            self.effort,
            &mut || taken(library::check(black_box(s))),
            &mut || taken(reader::check(black_box(s))),
        );
        self.row("check", Unit::PerMessage, times)
    }

    /// Against the library's own plain check: what the strict profile costs where there is little text.
    fn strict_check(&self) -> Row {
        let s = self.stream;
        assert_eq!(library::check_strict(s), Ok(self.messages));
        assert_eq!(strict::check(s), Ok(self.messages));
        let times = alternately(
            self.effort,
            &mut || taken(library::check_strict(black_box(s))),
            &mut || taken(library::check(black_box(s))),
        );
        self.row("strict check (plain)", Unit::PerMessage, times)
    }

    fn walk(&self) -> Row {
        let s = self.stream;
        assert_eq!(library_walk(s), baseline_walk(s));
        let times = alternately(
            self.effort,
            &mut || taken(library_walk(black_box(s))),
            &mut || taken(baseline_walk(black_box(s))),
        );
        self.row("walk", Unit::PerMessage, times)
    }

    /// The scan counter of the last readout.
    fn field(&self) -> Row {
        let (s, n) = (self.stream, self.messages - 2);
        let answer = questions::field(s, n, 14);
        assert!(answer.is_ok());
        assert_eq!(library::field(s, n, 14), answer);
        let times = alternately(
            self.effort,
            &mut || taken(library::field(black_box(s), n, 14)),
            &mut || taken(questions::field(black_box(s), n, 14)),
        );
        self.row("field", Unit::PerMessage, times)
    }

    /// The scan counter of every record, where a walk stood before it; a text has none.
    fn field_at(&self) -> Row {
        let s = self.stream;
        let cursors = library::cursors(s);
        let walks = reader::Records::of(s).walks();
        assert_eq!(walks.len(), cursors.len());
        for (cursor, walk) in cursors.iter().zip(&walks) {
            for offset in [0, 2, 13, 14, 40, 178, 276, 339] {
                let answer = questions::field_at(walk, offset);
                assert_eq!(library::field_at(s, *cursor, offset), answer);
            }
        }
        let times = alternately(
            self.effort,
            &mut || {
                cursors
                    .iter()
                    .for_each(|c| taken(library::field_at(black_box(s), *c, 14)))
            },
            &mut || {
                walks
                    .iter()
                    .for_each(|w| taken(questions::field_at(black_box(w), 14)))
            },
        );
        self.row("field at a cursor", Unit::PerMessage, times)
    }

    /// The last readout, by its counters.
    fn find(&self) -> Row {
        let (s, n) = (self.stream, self.messages - 2);
        let asked: [u16; 17] = std::array::from_fn(|i| counter(s, n, i));
        assert_eq!(questions::find(s, 0, &asked), Ok(n));
        assert_eq!(library::find(s, 0, &asked), Ok(n));
        let times = alternately(
            self.effort,
            &mut || taken(library::find(black_box(s), 0, &asked)),
            &mut || taken(questions::find(black_box(s), 0, &asked)),
        );
        self.row("find", Unit::PerMessage, times)
    }

    fn part_at(&self, operation: &'static str, byte: usize) -> Row {
        let s = self.stream;
        let answer = parts::part_at(s, byte);
        assert!(answer.is_ok());
        assert_eq!(library::part_at(s, byte), answer);
        let times = alternately(
            self.effort,
            &mut || taken(library::part_at(black_box(s), byte)),
            &mut || taken(parts::part_at(black_box(s), byte)),
        );
        self.row(operation, Unit::PerMessage, times)
    }

    fn normal_form(&self, out: &mut [u8]) -> Row {
        let s = self.stream;
        out.fill(0xAA);
        assert_eq!(library::normal_form(s, out), Ok(s.len()));
        assert!(made::is_normal_form(s, out));
        out.fill(0xAA);
        assert_eq!(normal::normal_form(s, out), Ok(s.len()));
        assert!(made::is_normal_form(s, out));
        let out = RefCell::new(out);
        let times = alternately(
            self.effort,
            &mut || taken(library::normal_form(black_box(s), &mut out.borrow_mut())),
            &mut || taken(normal::normal_form(black_box(s), &mut out.borrow_mut())),
        );
        self.row("normal form", Unit::Bandwidth, times)
    }

    /// Against a bare copy of the stream, which checks nothing.
    fn normal_form_against_copy(&self, out: &mut [u8]) -> Row {
        let s = self.stream;
        let out = RefCell::new(out);
        let times = alternately(
            self.effort,
            &mut || taken(library::normal_form(black_box(s), &mut out.borrow_mut())),
            &mut || black_box(&mut out.borrow_mut()[..s.len()]).copy_from_slice(black_box(s)),
        );
        self.row("normal form (memcpy)", Unit::Bandwidth, times)
    }

    /// The same stream without its close, so that one is added to what is saved of it.
    fn torn(&self) -> Measured<'_> {
        Measured {
            name: self.name,
            stream: &self.stream[..self.stream.len() - 2],
            messages: self.messages - 1,
            effort: self.effort,
        }
    }

    /// Against a check and one copy. Of the streams here nothing is lost.
    fn salvage(&self, operation: &'static str, out: &mut [u8]) -> Row {
        let s = self.stream;
        let report = salvage::report(s);
        assert_eq!(
            (report.messages_kept, report.bytes_not_kept),
            (self.messages, 0)
        );
        for salvage in [library::salvage, salvage::salvage] {
            out.fill(0xAA);
            assert_eq!(salvage(s, out), Ok(report));
            assert!(out[..s.len()] == *s);
            assert!(!report.close_added || out[s.len()..][..2] == [4, 0]);
        }
        let out = RefCell::new(out);
        let times = alternately(
            self.effort,
            &mut || taken(library::salvage(black_box(s), &mut out.borrow_mut())),
            &mut || taken(salvage::salvage(black_box(s), &mut out.borrow_mut())),
        );
        self.row(operation, Unit::Bandwidth, times)
    }

    fn salvage_report(&self) -> Row {
        let s = self.stream;
        assert_eq!(library::salvage_report(s), salvage::report(s));
        let times = alternately(
            self.effort,
            &mut || taken(library::salvage_report(black_box(s))),
            &mut || taken(salvage::report(black_box(s))),
        );
        self.row("salvage report", Unit::PerMessage, times)
    }

    /// The whole stream, message by message.
    fn write(&self, out: &mut [u8]) -> Row {
        let (s, messages) = (self.stream, made::messages(self.stream));
        out.fill(0xAA);
        assert_eq!(written(&messages, out, library::write), s.len());
        assert!(made::is_normal_form(s, out));
        out.fill(0xAA);
        assert_eq!(written(&messages, out, Message::write), s.len());
        assert!(made::is_normal_form(s, out));
        let out = RefCell::new(out);
        let times = alternately(
            self.effort,
            &mut || taken(written(&messages, &mut out.borrow_mut(), library::write)),
            &mut || taken(written(&messages, &mut out.borrow_mut(), Message::write)),
        );
        self.row("write", Unit::Bandwidth, times)
    }

    fn write_index(&self, out: &mut [u8]) -> Row {
        let s = self.stream;
        let length = index::length(self.messages);
        assert_eq!(index::write_index(s, out), Ok(length));
        let file = out[..length].to_vec();
        out[..length].fill(0xAA);
        assert_eq!(library::write_index(s, out), Ok(length));
        assert!(out[..length] == file[..]);
        let out = RefCell::new(out);
        let times = alternately(
            self.effort,
            &mut || taken(library::write_index(black_box(s), &mut out.borrow_mut())),
            &mut || taken(index::write_index(black_box(s), &mut out.borrow_mut())),
        );
        self.row("write index", Unit::PerMessage, times)
    }

    fn index_matches(&self, out: &mut [u8]) -> Row {
        let s = self.stream;
        let length = index::write_index(s, out).expect("an accepted stream");
        let file = &out[..length];
        assert_eq!(library::index_matches(s, file), Ok(()));
        assert_eq!(index::index_matches(s, file), Ok(()));
        let times = alternately(
            self.effort,
            &mut || taken(library::index_matches(black_box(s), file)),
            &mut || taken(index::index_matches(black_box(s), file)),
        );
        self.row("compare index", Unit::PerMessage, times)
    }
}

/// Keeps the compiler from leaving out a call whose answer nobody looks at.
pub fn taken<T>(answer: T) {
    black_box(answer);
}

/// The second reader's check, which is written for clarity and keeps a list of the records.
pub fn second_reader_check(stream: &[u8], effort: Effort) -> Times {
    let check = &mut || taken(second_reader::check(Rules::PACKED, black_box(stream)));
    alternately(effort, check, &mut || {}).library
}

fn counter(stream: &[u8], n: usize, i: usize) -> u16 {
    match questions::field(stream, n, 242 + 2 * i) {
        Ok(questions::Field::Whole(number)) => number as u16,
        other => panic!("counter {i} of record {n} is {other:?}"),
    }
}

pub fn library_walk(stream: &[u8]) -> (usize, usize) {
    walked_by(library::next, stream)
}

/// The count of records, and a sum over what the walk hands out, so that none of it can be left out.
pub fn walked_by(next: impl Fn(&[u8], Cursor) -> mrd_step, stream: &[u8]) -> (usize, usize) {
    let mut sum = 0_usize;
    let count = library::walk_by(next, stream, |met| sum = sum.wrapping_add(met.mixed()));
    (count.expect("an accepted stream"), sum)
}

fn baseline_walk(stream: &[u8]) -> (usize, usize) {
    let (mut count, mut sum) = (0, 0_usize);
    for record in reader::Records::of(stream) {
        let record = record.expect("an accepted stream");
        sum = sum.wrapping_add(Met::of(stream, record).mixed());
        count += 1;
    }
    (count, sum)
}

/// Writes the messages one after another and gives the position after the last.
fn written<'a>(
    messages: &[Message<'a>],
    out: &mut [u8],
    write: impl Fn(&Message<'a>, &mut [u8], usize) -> Result<usize, u32>,
) -> usize {
    messages.iter().fold(0, |position, message| {
        write(message, out, position).expect("a message of an accepted stream")
    })
}
