/* Holds include/cotterleaf.h to the Rattle sources when it is compiled: offset and type of every member of every
 * struct, and the type of every function, which are declared here once more.
 * Written by tests/names from the functions marked #[unsafe(no_mangle)]: change those, not this file. */
#include "cotterleaf.h"

#define AT(of, member, offset) \
    _Static_assert(offsetof(of, member) == (offset), #of "." #member ": another offset")
#define TYPE(value, type) _Static_assert(_Generic(value, type: 1, default: 0), #value ": not of type " #type)
#define MEMBER(of, member, offset, type) \
    AT(of, member, offset);              \
    TYPE(((of){0}).member, type)
#define ARRAY(of, member, offset, type, size) \
    AT(of, member, offset);                   \
    TYPE(((of){0}).member[0], type);          \
    _Static_assert(sizeof((of){0}.member) == (size), #of "." #member ": another size")

_Static_assert(sizeof(mrd_question) == 72, "mrd_question: another size");
MEMBER(mrd_question, what, 0, uint32_t);
MEMBER(mrd_question, part, 4, uint32_t);
MEMBER(mrd_question, number, 8, size_t);
MEMBER(mrd_question, channel, 16, size_t);
MEMBER(mrd_question, offset, 24, size_t);
ARRAY(mrd_question, counters, 32, uint16_t, 34);

_Static_assert(sizeof(mrd_placed) == 88, "mrd_placed: another size");
MEMBER(mrd_placed, refusal, 0, uint32_t);
MEMBER(mrd_placed, record, 8, size_t);
MEMBER(mrd_placed, byte, 16, size_t);
MEMBER(mrd_placed, number, 24, size_t);
MEMBER(mrd_placed, start, 32, size_t);
MEMBER(mrd_placed, size, 40, size_t);
MEMBER(mrd_placed, length, 48, size_t);
MEMBER(mrd_placed, attribute_length, 56, uint64_t);
MEMBER(mrd_placed, id, 64, uint16_t);
MEMBER(mrd_placed, number_of_samples, 66, uint16_t);
MEMBER(mrd_placed, channels, 68, uint16_t);
MEMBER(mrd_placed, trajectory_dimensions, 70, uint16_t);
MEMBER(mrd_placed, matrix_size_x, 72, uint16_t);
MEMBER(mrd_placed, matrix_size_y, 74, uint16_t);
MEMBER(mrd_placed, matrix_size_z, 76, uint16_t);
MEMBER(mrd_placed, data_type, 78, uint16_t);
MEMBER(mrd_placed, mask, 80, uint16_t);
MEMBER(mrd_placed, mask_ones, 82, uint16_t);

_Static_assert(sizeof(mrd_part_answer) == 160, "mrd_part_answer: another size");
MEMBER(mrd_part_answer, refusal, 0, uint32_t);
MEMBER(mrd_part_answer, record, 8, size_t);
MEMBER(mrd_part_answer, byte, 16, size_t);
MEMBER(mrd_part_answer, place, 24, mrd_placed);
MEMBER(mrd_part_answer, part, 112, uint32_t);
MEMBER(mrd_part_answer, channel, 120, size_t);
MEMBER(mrd_part_answer, start, 128, size_t);
MEMBER(mrd_part_answer, length, 136, size_t);
MEMBER(mrd_part_answer, element_offset, 144, size_t);
MEMBER(mrd_part_answer, element_size, 152, size_t);

_Static_assert(sizeof(mrd_field_answer) == 48, "mrd_field_answer: another size");
MEMBER(mrd_field_answer, refusal, 0, uint32_t);
MEMBER(mrd_field_answer, record, 8, size_t);
MEMBER(mrd_field_answer, byte, 16, size_t);
MEMBER(mrd_field_answer, value_type, 24, uint32_t);
MEMBER(mrd_field_answer, whole, 32, uint64_t);
MEMBER(mrd_field_answer, integer, 40, int32_t);
MEMBER(mrd_field_answer, float_bits, 44, uint32_t);

_Static_assert(sizeof(mrd_found) == 32, "mrd_found: another size");
MEMBER(mrd_found, refusal, 0, uint32_t);
MEMBER(mrd_found, record, 8, size_t);
MEMBER(mrd_found, byte, 16, size_t);
MEMBER(mrd_found, number, 24, size_t);

_Static_assert(sizeof(mrd_view_place) == 40, "mrd_view_place: another size");
MEMBER(mrd_view_place, refusal, 0, uint32_t);
MEMBER(mrd_view_place, record, 8, size_t);
MEMBER(mrd_view_place, byte, 16, size_t);
MEMBER(mrd_view_place, start, 24, size_t);
MEMBER(mrd_view_place, length, 32, size_t);

_Static_assert(sizeof(mrd_reply) == 232, "mrd_reply: another size");
MEMBER(mrd_reply, refusal, 0, uint32_t);
MEMBER(mrd_reply, record, 8, size_t);
MEMBER(mrd_reply, byte, 16, size_t);
MEMBER(mrd_reply, place, 24, mrd_placed);
MEMBER(mrd_reply, view, 112, mrd_view_place);
MEMBER(mrd_reply, field, 152, mrd_field_answer);
MEMBER(mrd_reply, found, 200, mrd_found);

_Static_assert(sizeof(mrd_rules) == 2, "mrd_rules: another size");
MEMBER(mrd_rules, aligned_waveforms, 0, bool);
MEMBER(mrd_rules, strict_text, 1, bool);

_Static_assert(sizeof(mrd_salvaged) == 40, "mrd_salvaged: another size");
MEMBER(mrd_salvaged, refusal, 0, uint32_t);
MEMBER(mrd_salvaged, messages_kept, 8, size_t);
MEMBER(mrd_salvaged, bytes_not_kept, 16, size_t);
MEMBER(mrd_salvaged, length, 24, size_t);
MEMBER(mrd_salvaged, close_added, 32, bool);

_Static_assert(sizeof(mrd_checked) == 32, "mrd_checked: another size");
MEMBER(mrd_checked, refusal, 0, uint32_t);
MEMBER(mrd_checked, record, 8, size_t);
MEMBER(mrd_checked, byte, 16, size_t);
MEMBER(mrd_checked, count, 24, size_t);

_Static_assert(sizeof(mrd_cursor) == 24, "mrd_cursor: another size");
MEMBER(mrd_cursor, number, 0, size_t);
MEMBER(mrd_cursor, start, 8, size_t);
MEMBER(mrd_cursor, phase, 16, uint32_t);

_Static_assert(sizeof(mrd_cursor_answer) == 32, "mrd_cursor_answer: another size");
MEMBER(mrd_cursor_answer, refusal, 0, uint32_t);
MEMBER(mrd_cursor_answer, cursor, 8, mrd_cursor);

_Static_assert(sizeof(mrd_step) == 152, "mrd_step: another size");
MEMBER(mrd_step, ended, 0, bool);
MEMBER(mrd_step, here, 8, mrd_placed);
MEMBER(mrd_step, next, 96, mrd_cursor);
MEMBER(mrd_step, answer, 120, mrd_checked);

_Static_assert(sizeof(mrd_matched) == 24, "mrd_matched: another size");
MEMBER(mrd_matched, refusal, 0, uint32_t);
MEMBER(mrd_matched, record, 8, size_t);
MEMBER(mrd_matched, byte, 16, size_t);

_Static_assert(sizeof(mrd_put) == 16, "mrd_put: another size");
MEMBER(mrd_put, refusal, 0, uint32_t);
MEMBER(mrd_put, position, 8, size_t);

_Static_assert(sizeof(mrd_written) == 32, "mrd_written: another size");
MEMBER(mrd_written, refusal, 0, uint32_t);
MEMBER(mrd_written, record, 8, size_t);
MEMBER(mrd_written, byte, 16, size_t);
MEMBER(mrd_written, length, 24, size_t);

mrd_reply mrd_ask_with_columns(mrd_rules, const uint8_t *, size_t, mrd_question, const uint64_t *, size_t, const uint16_t *, size_t, const uint32_t *, size_t);
mrd_reply mrd_ask_with_file(mrd_rules, const uint8_t *, size_t, mrd_question, const uint8_t *, size_t);
mrd_cursor mrd_beginning(void);
mrd_checked mrd_check(mrd_rules, const uint8_t *, size_t);
mrd_checked mrd_check_from(mrd_rules, const uint8_t *, size_t, mrd_cursor);
mrd_matched mrd_columns_match(mrd_rules, const uint8_t *, size_t, const uint64_t *, size_t, const uint16_t *, size_t, const uint32_t *, size_t);
int32_t mrd_counter_step(uint32_t, uint32_t);
mrd_cursor_answer mrd_cursor_for(mrd_rules, const uint64_t *, size_t, const uint16_t *, size_t, size_t);
mrd_field_answer mrd_field(mrd_rules, const uint8_t *, size_t, size_t, size_t);
mrd_field_answer mrd_field_at(mrd_rules, const uint8_t *, size_t, mrd_cursor, size_t);
mrd_written mrd_fill_columns(mrd_rules, const uint8_t *, size_t, uint64_t *, size_t, uint16_t *, size_t, uint32_t *, size_t);
mrd_found mrd_find(mrd_rules, const uint8_t *, size_t, size_t, const uint16_t[17]);
uint64_t mrd_flag_clear(uint64_t, uint32_t);
uint64_t mrd_flag_set(uint64_t, uint32_t);
bool mrd_flag_test(uint64_t, uint32_t);
mrd_matched mrd_index_matches(mrd_rules, const uint8_t *, size_t, const uint8_t *, size_t);
mrd_step mrd_next(mrd_rules, const uint8_t *, size_t, mrd_cursor);
mrd_written mrd_normal_form(mrd_rules, const uint8_t *, size_t, uint8_t *, size_t);
mrd_part_answer mrd_part_at(mrd_rules, const uint8_t *, size_t, size_t);
mrd_placed mrd_place(mrd_rules, const uint8_t *, size_t, size_t);
mrd_salvaged mrd_salvage(mrd_rules, const uint8_t *, size_t, uint8_t *, size_t);
mrd_salvaged mrd_salvage_report(mrd_rules, const uint8_t *, size_t);
mrd_view_place mrd_view(mrd_rules, const uint8_t *, size_t, size_t, uint32_t, size_t);
mrd_view_place mrd_view_at(mrd_rules, const uint8_t *, size_t, mrd_cursor, uint32_t, size_t);
mrd_put mrd_write(mrd_rules, uint16_t, const uint8_t *, size_t, const uint8_t *, size_t, const uint8_t *, size_t, const uint8_t *, size_t, const uint8_t *, size_t, const uint8_t *, size_t, const uint8_t *, size_t, const uint8_t *, size_t, uint8_t *, size_t, size_t);
mrd_written mrd_write_index(mrd_rules, const uint8_t *, size_t, uint8_t *, size_t);

int main(void)
{
    return 0;
}
