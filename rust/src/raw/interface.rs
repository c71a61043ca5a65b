//! Holds the declarations of raw.rs to the Rattle sources when it is compiled: offset and type of every member of
//! every struct, and the type of every function.
//! Written by tests/names from the functions marked #[unsafe(no_mangle)]: change those, not this file.

use super::*;
use std::mem::{offset_of, size_of};

const _: () = assert!(size_of::<mrd_question>() == 72);
const _: () = assert!(offset_of!(mrd_question, what) == 0);
const _: fn(mrd_question) -> u32 = |of| of.what;
const _: () = assert!(offset_of!(mrd_question, part) == 4);
const _: fn(mrd_question) -> u32 = |of| of.part;
const _: () = assert!(offset_of!(mrd_question, number) == 8);
const _: fn(mrd_question) -> usize = |of| of.number;
const _: () = assert!(offset_of!(mrd_question, channel) == 16);
const _: fn(mrd_question) -> usize = |of| of.channel;
const _: () = assert!(offset_of!(mrd_question, offset) == 24);
const _: fn(mrd_question) -> usize = |of| of.offset;
const _: () = assert!(offset_of!(mrd_question, counters) == 32);
const _: fn(mrd_question) -> [u16; 17] = |of| of.counters;

const _: () = assert!(size_of::<mrd_placed>() == 88);
const _: () = assert!(offset_of!(mrd_placed, refusal) == 0);
const _: fn(mrd_placed) -> u32 = |of| of.refusal;
const _: () = assert!(offset_of!(mrd_placed, record) == 8);
const _: fn(mrd_placed) -> usize = |of| of.record;
const _: () = assert!(offset_of!(mrd_placed, byte) == 16);
const _: fn(mrd_placed) -> usize = |of| of.byte;
const _: () = assert!(offset_of!(mrd_placed, number) == 24);
const _: fn(mrd_placed) -> usize = |of| of.number;
const _: () = assert!(offset_of!(mrd_placed, start) == 32);
const _: fn(mrd_placed) -> usize = |of| of.start;
const _: () = assert!(offset_of!(mrd_placed, size) == 40);
const _: fn(mrd_placed) -> usize = |of| of.size;
const _: () = assert!(offset_of!(mrd_placed, length) == 48);
const _: fn(mrd_placed) -> usize = |of| of.length;
const _: () = assert!(offset_of!(mrd_placed, attribute_length) == 56);
const _: fn(mrd_placed) -> u64 = |of| of.attribute_length;
const _: () = assert!(offset_of!(mrd_placed, id) == 64);
const _: fn(mrd_placed) -> u16 = |of| of.id;
const _: () = assert!(offset_of!(mrd_placed, number_of_samples) == 66);
const _: fn(mrd_placed) -> u16 = |of| of.number_of_samples;
const _: () = assert!(offset_of!(mrd_placed, channels) == 68);
const _: fn(mrd_placed) -> u16 = |of| of.channels;
const _: () = assert!(offset_of!(mrd_placed, trajectory_dimensions) == 70);
const _: fn(mrd_placed) -> u16 = |of| of.trajectory_dimensions;
const _: () = assert!(offset_of!(mrd_placed, matrix_size_x) == 72);
const _: fn(mrd_placed) -> u16 = |of| of.matrix_size_x;
const _: () = assert!(offset_of!(mrd_placed, matrix_size_y) == 74);
const _: fn(mrd_placed) -> u16 = |of| of.matrix_size_y;
const _: () = assert!(offset_of!(mrd_placed, matrix_size_z) == 76);
const _: fn(mrd_placed) -> u16 = |of| of.matrix_size_z;
const _: () = assert!(offset_of!(mrd_placed, data_type) == 78);
const _: fn(mrd_placed) -> u16 = |of| of.data_type;
const _: () = assert!(offset_of!(mrd_placed, mask) == 80);
const _: fn(mrd_placed) -> u16 = |of| of.mask;
const _: () = assert!(offset_of!(mrd_placed, mask_ones) == 82);
const _: fn(mrd_placed) -> u16 = |of| of.mask_ones;

const _: () = assert!(size_of::<mrd_part_answer>() == 160);
const _: () = assert!(offset_of!(mrd_part_answer, refusal) == 0);
const _: fn(mrd_part_answer) -> u32 = |of| of.refusal;
const _: () = assert!(offset_of!(mrd_part_answer, record) == 8);
const _: fn(mrd_part_answer) -> usize = |of| of.record;
const _: () = assert!(offset_of!(mrd_part_answer, byte) == 16);
const _: fn(mrd_part_answer) -> usize = |of| of.byte;
const _: () = assert!(offset_of!(mrd_part_answer, place) == 24);
const _: fn(mrd_part_answer) -> mrd_placed = |of| of.place;
const _: () = assert!(offset_of!(mrd_part_answer, part) == 112);
const _: fn(mrd_part_answer) -> u32 = |of| of.part;
const _: () = assert!(offset_of!(mrd_part_answer, channel) == 120);
const _: fn(mrd_part_answer) -> usize = |of| of.channel;
const _: () = assert!(offset_of!(mrd_part_answer, start) == 128);
const _: fn(mrd_part_answer) -> usize = |of| of.start;
const _: () = assert!(offset_of!(mrd_part_answer, length) == 136);
const _: fn(mrd_part_answer) -> usize = |of| of.length;
const _: () = assert!(offset_of!(mrd_part_answer, element_offset) == 144);
const _: fn(mrd_part_answer) -> usize = |of| of.element_offset;
const _: () = assert!(offset_of!(mrd_part_answer, element_size) == 152);
const _: fn(mrd_part_answer) -> usize = |of| of.element_size;

const _: () = assert!(size_of::<mrd_field_answer>() == 48);
const _: () = assert!(offset_of!(mrd_field_answer, refusal) == 0);
const _: fn(mrd_field_answer) -> u32 = |of| of.refusal;
const _: () = assert!(offset_of!(mrd_field_answer, record) == 8);
const _: fn(mrd_field_answer) -> usize = |of| of.record;
const _: () = assert!(offset_of!(mrd_field_answer, byte) == 16);
const _: fn(mrd_field_answer) -> usize = |of| of.byte;
const _: () = assert!(offset_of!(mrd_field_answer, value_type) == 24);
const _: fn(mrd_field_answer) -> u32 = |of| of.value_type;
const _: () = assert!(offset_of!(mrd_field_answer, whole) == 32);
const _: fn(mrd_field_answer) -> u64 = |of| of.whole;
const _: () = assert!(offset_of!(mrd_field_answer, integer) == 40);
const _: fn(mrd_field_answer) -> i32 = |of| of.integer;
const _: () = assert!(offset_of!(mrd_field_answer, float_bits) == 44);
const _: fn(mrd_field_answer) -> u32 = |of| of.float_bits;

const _: () = assert!(size_of::<mrd_found>() == 32);
const _: () = assert!(offset_of!(mrd_found, refusal) == 0);
const _: fn(mrd_found) -> u32 = |of| of.refusal;
const _: () = assert!(offset_of!(mrd_found, record) == 8);
const _: fn(mrd_found) -> usize = |of| of.record;
const _: () = assert!(offset_of!(mrd_found, byte) == 16);
const _: fn(mrd_found) -> usize = |of| of.byte;
const _: () = assert!(offset_of!(mrd_found, number) == 24);
const _: fn(mrd_found) -> usize = |of| of.number;

const _: () = assert!(size_of::<mrd_view_place>() == 40);
const _: () = assert!(offset_of!(mrd_view_place, refusal) == 0);
const _: fn(mrd_view_place) -> u32 = |of| of.refusal;
const _: () = assert!(offset_of!(mrd_view_place, record) == 8);
const _: fn(mrd_view_place) -> usize = |of| of.record;
const _: () = assert!(offset_of!(mrd_view_place, byte) == 16);
const _: fn(mrd_view_place) -> usize = |of| of.byte;
const _: () = assert!(offset_of!(mrd_view_place, start) == 24);
const _: fn(mrd_view_place) -> usize = |of| of.start;
const _: () = assert!(offset_of!(mrd_view_place, length) == 32);
const _: fn(mrd_view_place) -> usize = |of| of.length;

const _: () = assert!(size_of::<mrd_reply>() == 232);
const _: () = assert!(offset_of!(mrd_reply, refusal) == 0);
const _: fn(mrd_reply) -> u32 = |of| of.refusal;
const _: () = assert!(offset_of!(mrd_reply, record) == 8);
const _: fn(mrd_reply) -> usize = |of| of.record;
const _: () = assert!(offset_of!(mrd_reply, byte) == 16);
const _: fn(mrd_reply) -> usize = |of| of.byte;
const _: () = assert!(offset_of!(mrd_reply, place) == 24);
const _: fn(mrd_reply) -> mrd_placed = |of| of.place;
const _: () = assert!(offset_of!(mrd_reply, view) == 112);
const _: fn(mrd_reply) -> mrd_view_place = |of| of.view;
const _: () = assert!(offset_of!(mrd_reply, field) == 152);
const _: fn(mrd_reply) -> mrd_field_answer = |of| of.field;
const _: () = assert!(offset_of!(mrd_reply, found) == 200);
const _: fn(mrd_reply) -> mrd_found = |of| of.found;

const _: () = assert!(size_of::<mrd_rules>() == 2);
const _: () = assert!(offset_of!(mrd_rules, aligned_waveforms) == 0);
const _: fn(mrd_rules) -> bool = |of| of.aligned_waveforms;
const _: () = assert!(offset_of!(mrd_rules, strict_text) == 1);
const _: fn(mrd_rules) -> bool = |of| of.strict_text;

const _: () = assert!(size_of::<mrd_salvaged>() == 40);
const _: () = assert!(offset_of!(mrd_salvaged, refusal) == 0);
const _: fn(mrd_salvaged) -> u32 = |of| of.refusal;
const _: () = assert!(offset_of!(mrd_salvaged, messages_kept) == 8);
const _: fn(mrd_salvaged) -> usize = |of| of.messages_kept;
const _: () = assert!(offset_of!(mrd_salvaged, bytes_not_kept) == 16);
const _: fn(mrd_salvaged) -> usize = |of| of.bytes_not_kept;
const _: () = assert!(offset_of!(mrd_salvaged, length) == 24);
const _: fn(mrd_salvaged) -> usize = |of| of.length;
const _: () = assert!(offset_of!(mrd_salvaged, close_added) == 32);
const _: fn(mrd_salvaged) -> bool = |of| of.close_added;

const _: () = assert!(size_of::<mrd_checked>() == 32);
const _: () = assert!(offset_of!(mrd_checked, refusal) == 0);
const _: fn(mrd_checked) -> u32 = |of| of.refusal;
const _: () = assert!(offset_of!(mrd_checked, record) == 8);
const _: fn(mrd_checked) -> usize = |of| of.record;
const _: () = assert!(offset_of!(mrd_checked, byte) == 16);
const _: fn(mrd_checked) -> usize = |of| of.byte;
const _: () = assert!(offset_of!(mrd_checked, count) == 24);
const _: fn(mrd_checked) -> usize = |of| of.count;

const _: () = assert!(size_of::<mrd_cursor>() == 24);
const _: () = assert!(offset_of!(mrd_cursor, number) == 0);
const _: fn(mrd_cursor) -> usize = |of| of.number;
const _: () = assert!(offset_of!(mrd_cursor, start) == 8);
const _: fn(mrd_cursor) -> usize = |of| of.start;
const _: () = assert!(offset_of!(mrd_cursor, phase) == 16);
const _: fn(mrd_cursor) -> u32 = |of| of.phase;

const _: () = assert!(size_of::<mrd_cursor_answer>() == 32);
const _: () = assert!(offset_of!(mrd_cursor_answer, refusal) == 0);
const _: fn(mrd_cursor_answer) -> u32 = |of| of.refusal;
const _: () = assert!(offset_of!(mrd_cursor_answer, cursor) == 8);
const _: fn(mrd_cursor_answer) -> mrd_cursor = |of| of.cursor;

const _: () = assert!(size_of::<mrd_step>() == 152);
const _: () = assert!(offset_of!(mrd_step, ended) == 0);
const _: fn(mrd_step) -> bool = |of| of.ended;
const _: () = assert!(offset_of!(mrd_step, here) == 8);
const _: fn(mrd_step) -> mrd_placed = |of| of.here;
const _: () = assert!(offset_of!(mrd_step, next) == 96);
const _: fn(mrd_step) -> mrd_cursor = |of| of.next;
const _: () = assert!(offset_of!(mrd_step, answer) == 120);
const _: fn(mrd_step) -> mrd_checked = |of| of.answer;

const _: () = assert!(size_of::<mrd_matched>() == 24);
const _: () = assert!(offset_of!(mrd_matched, refusal) == 0);
const _: fn(mrd_matched) -> u32 = |of| of.refusal;
const _: () = assert!(offset_of!(mrd_matched, record) == 8);
const _: fn(mrd_matched) -> usize = |of| of.record;
const _: () = assert!(offset_of!(mrd_matched, byte) == 16);
const _: fn(mrd_matched) -> usize = |of| of.byte;

const _: () = assert!(size_of::<mrd_put>() == 16);
const _: () = assert!(offset_of!(mrd_put, refusal) == 0);
const _: fn(mrd_put) -> u32 = |of| of.refusal;
const _: () = assert!(offset_of!(mrd_put, position) == 8);
const _: fn(mrd_put) -> usize = |of| of.position;

const _: () = assert!(size_of::<mrd_written>() == 32);
const _: () = assert!(offset_of!(mrd_written, refusal) == 0);
const _: fn(mrd_written) -> u32 = |of| of.refusal;
const _: () = assert!(offset_of!(mrd_written, record) == 8);
const _: fn(mrd_written) -> usize = |of| of.record;
const _: () = assert!(offset_of!(mrd_written, byte) == 16);
const _: fn(mrd_written) -> usize = |of| of.byte;
const _: () = assert!(offset_of!(mrd_written, length) == 24);
const _: fn(mrd_written) -> usize = |of| of.length;

const _: unsafe extern "C" fn(
    mrd_rules,
    *const u8,
    usize,
    mrd_question,
    *const u64,
    usize,
    *const u16,
    usize,
    *const u32,
    usize,
) -> mrd_reply = mrd_ask_with_columns;
const _: unsafe extern "C" fn(
    mrd_rules,
    *const u8,
    usize,
    mrd_question,
    *const u8,
    usize,
) -> mrd_reply = mrd_ask_with_file;
const _: unsafe extern "C" fn() -> mrd_cursor = mrd_beginning;
const _: unsafe extern "C" fn(mrd_rules, *const u8, usize) -> mrd_checked = mrd_check;
const _: unsafe extern "C" fn(mrd_rules, *const u8, usize, mrd_cursor) -> mrd_checked =
    mrd_check_from;
const _: unsafe extern "C" fn(
    mrd_rules,
    *const u8,
    usize,
    *const u64,
    usize,
    *const u16,
    usize,
    *const u32,
    usize,
) -> mrd_matched = mrd_columns_match;
const _: unsafe extern "C" fn(u32, u32) -> i32 = mrd_counter_step;
const _: unsafe extern "C" fn(
    mrd_rules,
    *const u64,
    usize,
    *const u16,
    usize,
    usize,
) -> mrd_cursor_answer = mrd_cursor_for;
const _: unsafe extern "C" fn(mrd_rules, *const u8, usize, usize, usize) -> mrd_field_answer =
    mrd_field;
const _: unsafe extern "C" fn(mrd_rules, *const u8, usize, mrd_cursor, usize) -> mrd_field_answer =
    mrd_field_at;
const _: unsafe extern "C" fn(
    mrd_rules,
    *const u8,
    usize,
    *mut u64,
    usize,
    *mut u16,
    usize,
    *mut u32,
    usize,
) -> mrd_written = mrd_fill_columns;
const _: unsafe extern "C" fn(mrd_rules, *const u8, usize, usize, *const u16) -> mrd_found =
    mrd_find;
const _: unsafe extern "C" fn(u64, u32) -> u64 = mrd_flag_clear;
const _: unsafe extern "C" fn(u64, u32) -> u64 = mrd_flag_set;
const _: unsafe extern "C" fn(u64, u32) -> bool = mrd_flag_test;
const _: unsafe extern "C" fn(mrd_rules, *const u8, usize, *const u8, usize) -> mrd_matched =
    mrd_index_matches;
const _: unsafe extern "C" fn(mrd_rules, *const u8, usize, mrd_cursor) -> mrd_step = mrd_next;
const _: unsafe extern "C" fn(mrd_rules, *const u8, usize, *mut u8, usize) -> mrd_written =
    mrd_normal_form;
const _: unsafe extern "C" fn(mrd_rules, *const u8, usize, usize) -> mrd_part_answer = mrd_part_at;
const _: unsafe extern "C" fn(mrd_rules, *const u8, usize, usize) -> mrd_placed = mrd_place;
const _: unsafe extern "C" fn(mrd_rules, *const u8, usize, *mut u8, usize) -> mrd_salvaged =
    mrd_salvage;
const _: unsafe extern "C" fn(mrd_rules, *const u8, usize) -> mrd_salvaged = mrd_salvage_report;
const _: unsafe extern "C" fn(mrd_rules, *const u8, usize, usize, u32, usize) -> mrd_view_place =
    mrd_view;
const _: unsafe extern "C" fn(
    mrd_rules,
    *const u8,
    usize,
    mrd_cursor,
    u32,
    usize,
) -> mrd_view_place = mrd_view_at;
const _: unsafe extern "C" fn(
    mrd_rules,
    u16,
    *const u8,
    usize,
    *const u8,
    usize,
    *const u8,
    usize,
    *const u8,
    usize,
    *const u8,
    usize,
    *const u8,
    usize,
    *const u8,
    usize,
    *const u8,
    usize,
    *mut u8,
    usize,
    usize,
) -> mrd_put = mrd_write;
const _: unsafe extern "C" fn(mrd_rules, *const u8, usize, *mut u8, usize) -> mrd_written =
    mrd_write_index;
