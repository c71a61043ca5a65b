//! The proved library by its C functions, answering in the baseline's types so that the two can be compared. Waveform
//! headers are packed, as the baseline has them, and texts may hold any bytes where nothing else is said.

use crate::baseline::parts::Belongs;
use crate::baseline::questions::Field;
use crate::baseline::reader::Met;
use crate::baseline::salvage::Salvage;
use crate::baseline::writer::Message;
use crate::baseline::Refusal;
use cotterleaf::raw;

pub use cotterleaf::raw::mrd_cursor as Cursor;

const PACKED: raw::mrd_rules = raw::mrd_rules {
    aligned_waveforms: false,
    strict_text: false,
};

const STRICT: raw::mrd_rules = raw::mrd_rules {
    strict_text: true,
    ..PACKED
};

fn answer<T>(number: u32, record: usize, byte: usize, value: T) -> Result<T, Refusal> {
    if number == 0 {
        Ok(value)
    } else {
        Err(Refusal {
            number,
            record,
            byte,
        })
    }
}

/// The count of a stream's answer.
pub fn counted(a: raw::mrd_checked) -> Result<usize, Refusal> {
    answer(a.refusal, a.record, a.byte, a.count)
}

pub fn check(stream: &[u8]) -> Result<usize, Refusal> {
    counted(raw::check(PACKED, stream))
}

/// The same by the strict profile.
pub fn check_strict(stream: &[u8]) -> Result<usize, Refusal> {
    counted(raw::check(STRICT, stream))
}

pub fn next(stream: &[u8], cursor: Cursor) -> raw::mrd_step {
    raw::next(PACKED, stream, cursor)
}

/// Hands each record's place and what its mask says to `each`, and gives the stream's answer.
pub fn walk(stream: &[u8], each: impl FnMut(Met)) -> Result<usize, Refusal> {
    walk_by(next, stream, each)
}

/// The same by a given function for each step.
pub fn walk_by(
    next: impl Fn(&[u8], Cursor) -> raw::mrd_step,
    stream: &[u8],
    mut each: impl FnMut(Met),
) -> Result<usize, Refusal> {
    let mut cursor = raw::beginning();
    loop {
        let step = next(stream, cursor);
        if step.ended {
            return counted(step.answer);
        }
        each(Met {
            start: step.here.start,
            size: step.here.size,
            id: step.here.id,
            mask: (step.here.mask, step.here.mask_ones),
        });
        cursor = step.next;
    }
}

pub fn field(stream: &[u8], n: usize, offset: usize) -> Result<Field, Refusal> {
    field_of(raw::field(PACKED, stream, n, offset))
}

pub fn field_at(stream: &[u8], cursor: Cursor, offset: usize) -> Result<Field, Refusal> {
    field_of(raw::field_at(PACKED, stream, cursor, offset))
}

/// A cursor at each record of an accepted stream.
pub fn cursors(stream: &[u8]) -> Vec<Cursor> {
    let mut cursor = raw::beginning();
    let mut cursors = vec![];
    loop {
        let step = next(stream, cursor);
        if step.ended {
            return cursors;
        }
        cursors.push(cursor);
        cursor = step.next;
    }
}

fn field_of(a: raw::mrd_field_answer) -> Result<Field, Refusal> {
    let field = match a.value_type {
        raw::MRD_SIGNED => Field::Signed(a.integer),
        raw::MRD_FLOAT => Field::Float(a.float_bits),
        _ => Field::Whole(a.whole),
    };
    answer(a.refusal, a.record, a.byte, field)
}

pub fn find(stream: &[u8], n: usize, counters: &[u16; 17]) -> Result<usize, Refusal> {
    let a = raw::find(PACKED, stream, n, counters);
    answer(a.refusal, a.record, a.byte, a.number)
}

pub fn part_at(stream: &[u8], byte: usize) -> Result<Belongs, Refusal> {
    let a = raw::part_at(PACKED, stream, byte);
    let belongs = Belongs {
        record: a.place.number,
        part: a.part,
        channel: a.channel,
        start: a.start,
        length: a.length,
        element: (a.element_offset, a.element_size),
    };
    answer(a.refusal, a.record, a.byte, belongs)
}

pub fn normal_form(stream: &[u8], out: &mut [u8]) -> Result<usize, Refusal> {
    let a = raw::normal_form(PACKED, stream, out);
    answer(a.refusal, a.record, a.byte, a.length)
}

pub fn salvage(stream: &[u8], out: &mut [u8]) -> Result<Salvage, Refusal> {
    salvaged(raw::salvage(PACKED, stream, out))
}

pub fn salvage_report(stream: &[u8]) -> Salvage {
    salvaged(raw::salvage_report(PACKED, stream)).expect("a report is never refused")
}

fn salvaged(a: raw::mrd_salvaged) -> Result<Salvage, Refusal> {
    let salvage = Salvage {
        messages_kept: a.messages_kept,
        bytes_not_kept: a.bytes_not_kept,
        close_added: a.close_added,
        length: a.length,
    };
    answer(a.refusal, 0, 0, salvage)
}

pub fn write_index(stream: &[u8], out: &mut [u8]) -> Result<usize, Refusal> {
    let a = raw::write_index(PACKED, stream, out);
    answer(a.refusal, a.record, a.byte, a.length)
}

pub fn index_matches(stream: &[u8], file: &[u8]) -> Result<(), Refusal> {
    let a = raw::index_matches(PACKED, stream, file);
    answer(a.refusal, a.record, a.byte, ())
}

pub fn write(message: &Message, out: &mut [u8], position: usize) -> Result<usize, u32> {
    let parts = [
        message.name,
        message.text,
        message.trajectory,
        message.samples,
        message.attributes,
        message.pixels,
        message.waveform,
    ];
    let put = raw::write(PACKED, message.id, message.header, parts, out, position);
    match put.refusal {
        0 => Ok(put.position),
        number => Err(number),
    }
}
