//! The plain structs of the C functions, member by member: what an answer lacks is 0, and numbers that the wrapper
//! cannot ask with, such as parts that no record has.

use crate::case::{raw_rules, Case};
use crate::tally::{Outcome, Tally};
use cotterleaf::raw;
use second_reader::{self as second, Detail, Field, GivenIndex, Kind, Mask, Refused};
use streams::Rng;

/// Number, record and byte of a refusal as the C functions gives them.
fn numbers(refused: Refused) -> (u32, usize, usize) {
    match refused {
        Refused::Stream(refusal) => (
            refusal.number,
            refusal.record as usize,
            refusal.byte as usize,
        ),
        Refused::Other(number) => (number, 0, 0),
    }
}

pub fn refusal_of<T>(answer: &Result<T, Refused>) -> (u32, usize, usize) {
    match answer {
        Ok(_) => (0, 0, 0),
        Err(refused) => numbers(*refused),
    }
}

/// A record's place and kind, or its refusal.
pub fn placed(answer: Result<second::Record, Refused>) -> raw::mrd_placed {
    let (refusal, record, byte) = refusal_of(&answer);
    let mut placed = raw::mrd_placed {
        refusal,
        record,
        byte,
        ..raw::mrd_placed::default()
    };
    if let Ok(found) = answer {
        placed.number = found.number as usize;
        placed.start = found.start as usize;
        placed.size = found.size as usize;
        placed.id = found.detail.kind().id();
        set_own_numbers(&mut placed, found.detail);
    }
    placed
}

fn set_own_numbers(placed: &mut raw::mrd_placed, detail: Detail) {
    match detail {
        Detail::Close => {}
        Detail::ConfigurationName { length }
        | Detail::ConfigurationText { length }
        | Detail::HeaderText { length }
        | Detail::Text { length } => placed.length = length as usize,
        Detail::Acquisition {
            samples,
            active_channels,
            dimensions,
            mask,
        } => {
            placed.number_of_samples = samples;
            placed.channels = active_channels;
            placed.trajectory_dimensions = dimensions;
            (placed.mask, placed.mask_ones) = match mask {
                Mask::NotStated => (raw::MRD_MASK_NOT_STATED, 0),
                Mask::Agrees { ones } => (raw::MRD_MASK_AGREES, ones as u16),
                Mask::Differs { ones } => (raw::MRD_MASK_DIFFERS, ones as u16),
            };
        }
        Detail::Image {
            matrix_size,
            channels,
            data_type,
            attribute_length,
        } => {
            [
                placed.matrix_size_x,
                placed.matrix_size_y,
                placed.matrix_size_z,
            ] = matrix_size;
            placed.channels = channels;
            placed.data_type = data_type;
            placed.attribute_length = attribute_length;
        }
        Detail::Waveform { samples, channels } => {
            placed.number_of_samples = samples;
            placed.channels = channels;
        }
    }
}

fn field_answer(answer: Result<Field, Refused>) -> raw::mrd_field_answer {
    let (refusal, record, byte) = refusal_of(&answer);
    let mut c = raw::mrd_field_answer {
        refusal,
        record,
        byte,
        ..raw::mrd_field_answer::default()
    };
    match answer {
        Ok(Field::Whole(whole)) => (c.value_type, c.whole) = (raw::MRD_WHOLE, whole),
        Ok(Field::Signed(integer)) => (c.value_type, c.integer) = (raw::MRD_SIGNED, integer),
        Ok(Field::Float(bits)) => (c.value_type, c.float_bits) = (raw::MRD_FLOAT, bits),
        Err(_) => {}
    }
    c
}

/// The questions without an index, all members compared.
pub fn questions(tally: &Tally, rng: &mut Rng, case: Case, n: u64, offset: u64) -> Outcome {
    let Case { rules, bytes } = case;
    let given = raw_rules(rules);
    let place = second::kind_and_place(rules, bytes, GivenIndex::NONE, n);
    let question = || format!("mrd_place of record {n}");
    tally.same_value(
        question,
        raw::place(given, bytes, n as usize),
        placed(place),
    )?;

    let field = second::field(rules, bytes, GivenIndex::NONE, n, offset);
    let question = || format!("mrd_field at {offset} of record {n}");
    let library = raw::field(given, bytes, n as usize, offset as usize);
    tally.same_value(question, library, field_answer(field))?;

    let found = second::find(rules, bytes, GivenIndex::NONE, n, &[0; 17]);
    let (refusal, record, byte) = refusal_of(&found);
    let found = raw::mrd_found {
        refusal,
        record,
        byte,
        number: found.unwrap_or(0) as usize,
    };
    let question = || format!("mrd_find of zeros from {n} on");
    tally.same_value(
        question,
        raw::find(given, bytes, n as usize, &[0; 17]),
        found,
    )?;
    checked(tally, case)?;
    unknown_part(tally, rng, case, n)
}

/// The check's answer.
fn checked(tally: &Tally, Case { rules, bytes }: Case) -> Outcome {
    let (refusal, record, byte) = refusal_of(&second::check(rules, bytes).map_err(Refused::from));
    let checked = raw::mrd_checked {
        refusal,
        record,
        byte,
        count: second::check(rules, bytes).unwrap_or(0) as usize,
    };
    let question = || "mrd_check".to_string();
    tally.same_value(question, raw::check(raw_rules(rules), bytes), checked)
}

/// A part that no view shows, or that no record has: the stream's refusal, then 16, then 17, at the stream's front.
fn unknown_part(tally: &Tally, rng: &mut Rng, case: Case, n: u64) -> Outcome {
    let Case { rules, bytes } = case;
    let given = raw_rules(rules);
    let part = rng.pick(&[0, 8, 9, 10, 11, 12, 256 + 5, u32::MAX]);
    let channel = rng.below(3) as usize;
    let refused = match second::kind_and_place(rules, bytes, GivenIndex::NONE, n) {
        Ok(_) => Refused::Other(17),
        Err(refused) => refused,
    };
    let (refusal, record, byte) = numbers(refused);
    let expected = raw::mrd_view_place {
        refusal,
        record,
        byte,
        start: 0,
        length: 0,
    };
    let question = || format!("mrd_view of part {part} of record {n}");
    let library = raw::view(given, bytes, n as usize, part, channel);
    tally.same_value(question, library, expected)?;
    // A channel number with a part that is no channel is not looked at.
    let text = second::text(rules, bytes, GivenIndex::NONE, n);
    let (refusal, record, byte) = refusal_of(&text);
    let (_, start, length) = second::place_of_view(&text);
    let expected = raw::mrd_view_place {
        refusal,
        record,
        byte,
        start: start as usize,
        length: length as usize,
    };
    let question = || format!("mrd_view of the text of record {n}, channel {channel}");
    tally.same_value(
        question,
        raw::view(given, bytes, n as usize, 2, channel),
        expected,
    )
}

/// Every member of the steps from the beginning on: what a step that ends or goes on lacks is 0.
pub fn steps(tally: &Tally, case: Case, read: &crate::walk::Read) -> Outcome {
    let (given, bytes) = (raw_rules(case.rules), case.bytes);
    let mut cursor = raw::beginning();
    for (i, record) in read.records.iter().enumerate() {
        let phase = match record.detail.kind() {
            Kind::ConfigurationName | Kind::ConfigurationText => 1,
            Kind::HeaderText => 2,
            Kind::Close => 3,
            _ => cursor.phase,
        };
        let next = raw::mrd_cursor {
            number: i + 1,
            start: (record.start + record.size) as usize,
            phase,
        };
        let expected = raw::mrd_step {
            here: placed(Ok(*record)),
            next,
            ..raw::mrd_step::default()
        };
        let question = || format!("mrd_next at {cursor:?}");
        tally.same_value(question, raw::next(given, bytes, cursor), expected)?;
        cursor = next;
    }
    let (refusal, record, byte) = refusal_of(&read.answer.map_err(Refused::from));
    let expected = raw::mrd_step {
        ended: true,
        answer: raw::mrd_checked {
            refusal,
            record,
            byte,
            count: read.answer.unwrap_or(0) as usize,
        },
        ..raw::mrd_step::default()
    };
    let question = || format!("mrd_next at {cursor:?}");
    tally.same_value(question, raw::next(given, bytes, cursor), expected)
}

/// Outputs without any room: every writing call refuses, and its length or position is 0. Columns without a place
/// give no cursor.
pub fn refused_outputs(tally: &Tally, case: Case) -> Outcome {
    let Case { rules, bytes } = case;
    let given = raw_rules(rules);
    let refused = match second::check(rules, bytes) {
        Ok(_) => Refused::Other(14),
        Err(refusal) => refusal.into(),
    };
    let (refusal, record, byte) = numbers(refused);
    let expected = raw::mrd_written {
        refusal,
        record,
        byte,
        length: 0,
    };
    let question = |what: &str| format!("{what} into no room");
    let normal = raw::normal_form(given, bytes, &mut []);
    tally.same_value(|| question("mrd_normal_form"), normal, expected)?;
    let index = raw::write_index(given, bytes, &mut []);
    tally.same_value(|| question("mrd_write_index"), index, expected)?;
    let columns = raw::fill_columns(given, bytes, &mut [], &mut [], &mut []);
    tally.same_value(|| question("mrd_fill_columns"), columns, expected)?;
    // What is saved has at least a close, and the stream's own refusal is none of this.
    let expected = raw::mrd_salvaged {
        refusal: 14,
        ..raw::mrd_salvaged::default()
    };
    let saved = raw::salvage(given, bytes, &mut []);
    tally.same_value(|| question("mrd_salvage"), saved, expected)?;
    let cursor = raw::cursor_for(given, &[], &[], 0);
    let expected = raw::mrd_cursor_answer {
        refusal: 16,
        cursor: raw::mrd_cursor::default(),
    };
    tally.same_value(|| "mrd_cursor_for no columns".into(), cursor, expected)?;
    let close = raw::write(given, 4, &[], [&[]; 7], &mut [], 0);
    let expected = raw::mrd_put {
        refusal: 14,
        position: 0,
    };
    tally.same_value(|| question("mrd_write"), close, expected)
}
