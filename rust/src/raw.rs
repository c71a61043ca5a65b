//! The C interface as include/cotterleaf.h declares it, and each of its functions with slices in place of pointers.
//! All of this crate's unsafe code is here. The functions take any numbers, so that each of them is safe.

#![allow(non_camel_case_types, clippy::too_many_arguments)]

mod interface;

#[repr(C)]
#[derive(Clone, Copy, Debug, Default, PartialEq, Eq)]
pub struct mrd_rules {
    pub aligned_waveforms: bool,
    pub strict_text: bool,
}

#[repr(C)]
#[derive(Clone, Copy, Debug, Default, PartialEq, Eq)]
pub struct mrd_checked {
    pub refusal: u32,
    pub record: usize,
    pub byte: usize,
    pub count: usize,
}

#[repr(C)]
#[derive(Clone, Copy, Debug, Default, PartialEq, Eq)]
pub struct mrd_placed {
    pub refusal: u32,
    pub record: usize,
    pub byte: usize,
    pub number: usize,
    pub start: usize,
    pub size: usize,
    pub length: usize,
    pub attribute_length: u64,
    pub id: u16,
    pub number_of_samples: u16,
    pub channels: u16,
    pub trajectory_dimensions: u16,
    pub matrix_size_x: u16,
    pub matrix_size_y: u16,
    pub matrix_size_z: u16,
    pub data_type: u16,
    pub mask: u16,
    pub mask_ones: u16,
}

#[repr(C)]
#[derive(Clone, Copy, Debug, Default, PartialEq, Eq)]
pub struct mrd_cursor {
    pub number: usize,
    pub start: usize,
    pub phase: u32,
}

#[repr(C)]
#[derive(Clone, Copy, Debug, Default, PartialEq, Eq)]
pub struct mrd_cursor_answer {
    pub refusal: u32,
    pub cursor: mrd_cursor,
}

#[repr(C)]
#[derive(Clone, Copy, Debug, Default, PartialEq, Eq)]
pub struct mrd_step {
    pub ended: bool,
    pub here: mrd_placed,
    pub next: mrd_cursor,
    pub answer: mrd_checked,
}

#[repr(C)]
#[derive(Clone, Copy, Debug, Default, PartialEq, Eq)]
pub struct mrd_view_place {
    pub refusal: u32,
    pub record: usize,
    pub byte: usize,
    pub start: usize,
    pub length: usize,
}

#[repr(C)]
#[derive(Clone, Copy, Debug, Default, PartialEq, Eq)]
pub struct mrd_field_answer {
    pub refusal: u32,
    pub record: usize,
    pub byte: usize,
    pub value_type: u32,
    pub whole: u64,
    pub integer: i32,
    pub float_bits: u32,
}

#[repr(C)]
#[derive(Clone, Copy, Debug, Default, PartialEq, Eq)]
pub struct mrd_found {
    pub refusal: u32,
    pub record: usize,
    pub byte: usize,
    pub number: usize,
}

#[repr(C)]
#[derive(Clone, Copy, Debug, Default, PartialEq, Eq)]
pub struct mrd_part_answer {
    pub refusal: u32,
    pub record: usize,
    pub byte: usize,
    pub place: mrd_placed,
    pub part: u32,
    pub channel: usize,
    pub start: usize,
    pub length: usize,
    pub element_offset: usize,
    pub element_size: usize,
}

#[repr(C)]
#[derive(Clone, Copy, Debug, Default, PartialEq, Eq)]
pub struct mrd_question {
    pub what: u32,
    pub part: u32,
    pub number: usize,
    pub channel: usize,
    pub offset: usize,
    pub counters: [u16; 17],
}

/// The numbers of `mrd_question::what`.
pub const MRD_ASK_PLACE: u32 = 1;
pub const MRD_ASK_VIEW: u32 = 2;
pub const MRD_ASK_FIELD: u32 = 3;
pub const MRD_ASK_FIND: u32 = 4;

#[repr(C)]
#[derive(Clone, Copy, Debug, Default, PartialEq, Eq)]
pub struct mrd_reply {
    pub refusal: u32,
    pub record: usize,
    pub byte: usize,
    pub place: mrd_placed,
    pub view: mrd_view_place,
    pub field: mrd_field_answer,
    pub found: mrd_found,
}

#[repr(C)]
#[derive(Clone, Copy, Debug, Default, PartialEq, Eq)]
pub struct mrd_written {
    pub refusal: u32,
    pub record: usize,
    pub byte: usize,
    pub length: usize,
}

#[repr(C)]
#[derive(Clone, Copy, Debug, Default, PartialEq, Eq)]
pub struct mrd_matched {
    pub refusal: u32,
    pub record: usize,
    pub byte: usize,
}

#[repr(C)]
#[derive(Clone, Copy, Debug, Default, PartialEq, Eq)]
pub struct mrd_put {
    pub refusal: u32,
    pub position: usize,
}

#[repr(C)]
#[derive(Clone, Copy, Debug, Default, PartialEq, Eq)]
pub struct mrd_salvaged {
    pub refusal: u32,
    pub messages_kept: usize,
    pub bytes_not_kept: usize,
    pub length: usize,
    pub close_added: bool,
}

/// The numbers of `mrd_placed::mask`.
pub const MRD_MASK_NOT_STATED: u16 = 1;
pub const MRD_MASK_AGREES: u16 = 2;
pub const MRD_MASK_DIFFERS: u16 = 3;

/// The parts of a record: those that a view shows, and those that none does.
pub const MRD_PART_NAME: u32 = 1;
pub const MRD_PART_TEXT: u32 = 2;
pub const MRD_PART_ATTRIBUTES: u32 = 3;
pub const MRD_PART_TRAJECTORY: u32 = 4;
pub const MRD_PART_CHANNEL: u32 = 5;
pub const MRD_PART_PIXELS: u32 = 6;
pub const MRD_PART_WAVEFORM: u32 = 7;
pub const MRD_PART_ID: u32 = 8;
pub const MRD_PART_LENGTH: u32 = 9;
pub const MRD_PART_HEADER: u32 = 10;
pub const MRD_PART_NAME_REST: u32 = 11;

/// The numbers of `mrd_field_answer::value_type`.
pub const MRD_WHOLE: u32 = 1;
pub const MRD_SIGNED: u32 = 2;
pub const MRD_FLOAT: u32 = 3;

extern "C" {
    fn mrd_check(rules: mrd_rules, stream: *const u8, stream_length: usize) -> mrd_checked;
    fn mrd_place(rules: mrd_rules, stream: *const u8, stream_length: usize, n: usize)
        -> mrd_placed;
    fn mrd_beginning() -> mrd_cursor;
    fn mrd_next(
        rules: mrd_rules,
        stream: *const u8,
        stream_length: usize,
        cursor: mrd_cursor,
    ) -> mrd_step;
    fn mrd_check_from(
        rules: mrd_rules,
        stream: *const u8,
        stream_length: usize,
        cursor: mrd_cursor,
    ) -> mrd_checked;
    fn mrd_view(
        rules: mrd_rules,
        stream: *const u8,
        stream_length: usize,
        n: usize,
        part: u32,
        channel: usize,
    ) -> mrd_view_place;
    fn mrd_view_at(
        rules: mrd_rules,
        stream: *const u8,
        stream_length: usize,
        cursor: mrd_cursor,
        part: u32,
        channel: usize,
    ) -> mrd_view_place;
    fn mrd_field_at(
        rules: mrd_rules,
        stream: *const u8,
        stream_length: usize,
        cursor: mrd_cursor,
        offset: usize,
    ) -> mrd_field_answer;
    fn mrd_cursor_for(
        rules: mrd_rules,
        starts: *const u64,
        starts_length: usize,
        ids: *const u16,
        ids_length: usize,
        n: usize,
    ) -> mrd_cursor_answer;
    fn mrd_field(
        rules: mrd_rules,
        stream: *const u8,
        stream_length: usize,
        n: usize,
        offset: usize,
    ) -> mrd_field_answer;
    fn mrd_find(
        rules: mrd_rules,
        stream: *const u8,
        stream_length: usize,
        n: usize,
        counters: *const u16,
    ) -> mrd_found;
    fn mrd_part_at(
        rules: mrd_rules,
        stream: *const u8,
        stream_length: usize,
        byte: usize,
    ) -> mrd_part_answer;

    fn mrd_ask_with_file(
        rules: mrd_rules,
        stream: *const u8,
        stream_length: usize,
        question: mrd_question,
        file: *const u8,
        file_length: usize,
    ) -> mrd_reply;
    fn mrd_ask_with_columns(
        rules: mrd_rules,
        stream: *const u8,
        stream_length: usize,
        question: mrd_question,
        starts: *const u64,
        starts_length: usize,
        ids: *const u16,
        ids_length: usize,
        counters: *const u32,
        counters_length: usize,
    ) -> mrd_reply;

    fn mrd_flag_test(flags: u64, n: u32) -> bool;
    fn mrd_flag_set(flags: u64, n: u32) -> u64;
    fn mrd_flag_clear(flags: u64, n: u32) -> u64;
    fn mrd_counter_step(earlier: u32, later: u32) -> i32;

    fn mrd_normal_form(
        rules: mrd_rules,
        stream: *const u8,
        stream_length: usize,
        out: *mut u8,
        out_length: usize,
    ) -> mrd_written;
    fn mrd_write_index(
        rules: mrd_rules,
        stream: *const u8,
        stream_length: usize,
        out: *mut u8,
        out_length: usize,
    ) -> mrd_written;
    fn mrd_fill_columns(
        rules: mrd_rules,
        stream: *const u8,
        stream_length: usize,
        starts: *mut u64,
        starts_length: usize,
        ids: *mut u16,
        ids_length: usize,
        counters: *mut u32,
        counters_length: usize,
    ) -> mrd_written;
    fn mrd_index_matches(
        rules: mrd_rules,
        stream: *const u8,
        stream_length: usize,
        file: *const u8,
        file_length: usize,
    ) -> mrd_matched;
    fn mrd_columns_match(
        rules: mrd_rules,
        stream: *const u8,
        stream_length: usize,
        starts: *const u64,
        starts_length: usize,
        ids: *const u16,
        ids_length: usize,
        counters: *const u32,
        counters_length: usize,
    ) -> mrd_matched;
    fn mrd_write(
        rules: mrd_rules,
        id: u16,
        header: *const u8,
        header_length: usize,
        name: *const u8,
        name_length: usize,
        text: *const u8,
        text_length: usize,
        trajectory: *const u8,
        trajectory_length: usize,
        samples: *const u8,
        samples_length: usize,
        attributes: *const u8,
        attributes_length: usize,
        pixels: *const u8,
        pixels_length: usize,
        waveform: *const u8,
        waveform_length: usize,
        out: *mut u8,
        out_length: usize,
        position: usize,
    ) -> mrd_put;

    fn mrd_salvage(
        rules: mrd_rules,
        stream: *const u8,
        stream_length: usize,
        out: *mut u8,
        out_length: usize,
    ) -> mrd_salvaged;
    fn mrd_salvage_report(
        rules: mrd_rules,
        stream: *const u8,
        stream_length: usize,
    ) -> mrd_salvaged;
}

pub fn check(rules: mrd_rules, stream: &[u8]) -> mrd_checked {
    // SAFETY: the pointer and length are those of a slice that is borrowed for the call.
    unsafe { mrd_check(rules, stream.as_ptr(), stream.len()) }
}

pub fn place(rules: mrd_rules, stream: &[u8], n: usize) -> mrd_placed {
    // SAFETY: the pointer and length are those of a slice that is borrowed for the call.
    unsafe { mrd_place(rules, stream.as_ptr(), stream.len(), n) }
}

pub fn beginning() -> mrd_cursor {
    // SAFETY: it takes nothing.
    unsafe { mrd_beginning() }
}

pub fn next(rules: mrd_rules, stream: &[u8], cursor: mrd_cursor) -> mrd_step {
    // SAFETY: the pointer and length are those of a slice that is borrowed for the call; any cursor may be given.
    unsafe { mrd_next(rules, stream.as_ptr(), stream.len(), cursor) }
}

pub fn check_from(rules: mrd_rules, stream: &[u8], cursor: mrd_cursor) -> mrd_checked {
    // SAFETY: the pointer and length are those of a slice that is borrowed for the call; any cursor may be given.
    unsafe { mrd_check_from(rules, stream.as_ptr(), stream.len(), cursor) }
}

pub fn view_at(
    rules: mrd_rules,
    stream: &[u8],
    cursor: mrd_cursor,
    part: u32,
    channel: usize,
) -> mrd_view_place {
    // SAFETY: the pointer and length are those of a slice that is borrowed for the call; any cursor may be given.
    unsafe { mrd_view_at(rules, stream.as_ptr(), stream.len(), cursor, part, channel) }
}

pub fn field_at(
    rules: mrd_rules,
    stream: &[u8],
    cursor: mrd_cursor,
    offset: usize,
) -> mrd_field_answer {
    // SAFETY: the pointer and length are those of a slice that is borrowed for the call; any cursor may be given.
    unsafe { mrd_field_at(rules, stream.as_ptr(), stream.len(), cursor, offset) }
}

pub fn cursor_for(rules: mrd_rules, starts: &[u64], ids: &[u16], n: usize) -> mrd_cursor_answer {
    // SAFETY: each pointer and length are those of a slice that is borrowed for the call.
    unsafe {
        mrd_cursor_for(
            rules,
            starts.as_ptr(),
            starts.len(),
            ids.as_ptr(),
            ids.len(),
            n,
        )
    }
}

pub fn view(
    rules: mrd_rules,
    stream: &[u8],
    n: usize,
    part: u32,
    channel: usize,
) -> mrd_view_place {
    // SAFETY: the pointer and length are those of a slice that is borrowed for the call.
    unsafe { mrd_view(rules, stream.as_ptr(), stream.len(), n, part, channel) }
}

pub fn field(rules: mrd_rules, stream: &[u8], n: usize, offset: usize) -> mrd_field_answer {
    // SAFETY: the pointer and length are those of a slice that is borrowed for the call.
    unsafe { mrd_field(rules, stream.as_ptr(), stream.len(), n, offset) }
}

pub fn find(rules: mrd_rules, stream: &[u8], n: usize, counters: &[u16; 17]) -> mrd_found {
    // SAFETY: the slice is borrowed for the call, and the array has the seventeen numbers that are read.
    unsafe { mrd_find(rules, stream.as_ptr(), stream.len(), n, counters.as_ptr()) }
}

pub fn part_at(rules: mrd_rules, stream: &[u8], byte: usize) -> mrd_part_answer {
    // SAFETY: the pointer and length are those of a slice that is borrowed for the call.
    unsafe { mrd_part_at(rules, stream.as_ptr(), stream.len(), byte) }
}

pub fn ask_with_file(
    rules: mrd_rules,
    stream: &[u8],
    question: mrd_question,
    file: &[u8],
) -> mrd_reply {
    // SAFETY: each pointer and length are those of a slice that is borrowed for the call; any question may be asked.
    unsafe {
        mrd_ask_with_file(
            rules,
            stream.as_ptr(),
            stream.len(),
            question,
            file.as_ptr(),
            file.len(),
        )
    }
}

pub fn ask_with_columns(
    rules: mrd_rules,
    stream: &[u8],
    question: mrd_question,
    starts: &[u64],
    ids: &[u16],
    counters: &[u32],
) -> mrd_reply {
    // SAFETY: each pointer and length are those of a slice that is borrowed for the call; any question may be asked.
    unsafe {
        mrd_ask_with_columns(
            rules,
            stream.as_ptr(),
            stream.len(),
            question,
            starts.as_ptr(),
            starts.len(),
            ids.as_ptr(),
            ids.len(),
            counters.as_ptr(),
            counters.len(),
        )
    }
}

pub fn flag_test(flags: u64, n: u32) -> bool {
    // SAFETY: numbers alone.
    unsafe { mrd_flag_test(flags, n) }
}

pub fn flag_set(flags: u64, n: u32) -> u64 {
    // SAFETY: numbers alone.
    unsafe { mrd_flag_set(flags, n) }
}

pub fn flag_clear(flags: u64, n: u32) -> u64 {
    // SAFETY: numbers alone.
    unsafe { mrd_flag_clear(flags, n) }
}

pub fn counter_step(earlier: u32, later: u32) -> i32 {
    // SAFETY: numbers alone.
    unsafe { mrd_counter_step(earlier, later) }
}

pub fn normal_form(rules: mrd_rules, stream: &[u8], out: &mut [u8]) -> mrd_written {
    // SAFETY: each pointer and length are those of a slice that is borrowed for the call, `out` by it alone.
    unsafe {
        mrd_normal_form(
            rules,
            stream.as_ptr(),
            stream.len(),
            out.as_mut_ptr(),
            out.len(),
        )
    }
}

pub fn write_index(rules: mrd_rules, stream: &[u8], out: &mut [u8]) -> mrd_written {
    // SAFETY: each pointer and length are those of a slice that is borrowed for the call, `out` by it alone.
    unsafe {
        mrd_write_index(
            rules,
            stream.as_ptr(),
            stream.len(),
            out.as_mut_ptr(),
            out.len(),
        )
    }
}

pub fn fill_columns(
    rules: mrd_rules,
    stream: &[u8],
    starts: &mut [u64],
    ids: &mut [u16],
    counters: &mut [u32],
) -> mrd_written {
    // SAFETY: each pointer and length are those of a slice that is borrowed for the call, the columns by it alone.
    unsafe {
        mrd_fill_columns(
            rules,
            stream.as_ptr(),
            stream.len(),
            starts.as_mut_ptr(),
            starts.len(),
            ids.as_mut_ptr(),
            ids.len(),
            counters.as_mut_ptr(),
            counters.len(),
        )
    }
}

pub fn index_matches(rules: mrd_rules, stream: &[u8], file: &[u8]) -> mrd_matched {
    // SAFETY: each pointer and length are those of a slice that is borrowed for the call.
    unsafe {
        mrd_index_matches(
            rules,
            stream.as_ptr(),
            stream.len(),
            file.as_ptr(),
            file.len(),
        )
    }
}

pub fn columns_match(
    rules: mrd_rules,
    stream: &[u8],
    starts: &[u64],
    ids: &[u16],
    counters: &[u32],
) -> mrd_matched {
    // SAFETY: each pointer and length are those of a slice that is borrowed for the call.
    unsafe {
        mrd_columns_match(
            rules,
            stream.as_ptr(),
            stream.len(),
            starts.as_ptr(),
            starts.len(),
            ids.as_ptr(),
            ids.len(),
            counters.as_ptr(),
            counters.len(),
        )
    }
}

/// The seven variable parts in the order of `mrd_write`: name, text, trajectory, samples, attributes, pixels,
/// waveform.
pub fn write(
    rules: mrd_rules,
    id: u16,
    header: &[u8],
    parts: [&[u8]; 7],
    out: &mut [u8],
    position: usize,
) -> mrd_put {
    let [name, text, trajectory, samples, attributes, pixels, waveform] = parts;
    // SAFETY: each pointer and length are those of a slice that is borrowed for the call, `out` by it alone.
    unsafe {
        mrd_write(
            rules,
            id,
            header.as_ptr(),
            header.len(),
            name.as_ptr(),
            name.len(),
            text.as_ptr(),
            text.len(),
            trajectory.as_ptr(),
            trajectory.len(),
            samples.as_ptr(),
            samples.len(),
            attributes.as_ptr(),
            attributes.len(),
            pixels.as_ptr(),
            pixels.len(),
            waveform.as_ptr(),
            waveform.len(),
            out.as_mut_ptr(),
            out.len(),
            position,
        )
    }
}

pub fn salvage(rules: mrd_rules, stream: &[u8], out: &mut [u8]) -> mrd_salvaged {
    // SAFETY: each pointer and length are those of a slice that is borrowed for the call, `out` by it alone.
    unsafe {
        mrd_salvage(
            rules,
            stream.as_ptr(),
            stream.len(),
            out.as_mut_ptr(),
            out.len(),
        )
    }
}

pub fn salvage_report(rules: mrd_rules, stream: &[u8]) -> mrd_salvaged {
    // SAFETY: the pointer and length are those of a slice that is borrowed for the call.
    unsafe { mrd_salvage_report(rules, stream.as_ptr(), stream.len()) }
}
