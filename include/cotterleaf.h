/* Cotterleaf: MRD message streams, read, checked, indexed and written.
 *
 * Link with libcotterleaf: `pkg-config --cflags --libs cotterleaf` where it is installed, else
 * target/staticlib/libcotterleaf.a of the repository. docs/FORMAT.md describes the stream and every refusal.
 *
 * Every function takes any bytes and any numbers and ends with an answer; none asks its caller to check first,
 * allocates, or keeps what it is given. Each answer is a struct whose `refusal` is 0 (MRD_OK) or the number of
 * refusal; mrd_refusal_text says what is wrong and what to do. `record` and `byte` say where a stream is refused
 * (refusals 1 to 13, 19 and 21) and are 0 otherwise; what an answer lacks is 0. Only the outputs `out`, `starts`,
 * `ids` and `counters` of the writing functions are written to, and a refusal writes none.
 *
 * What is assumed of a caller. A slice is a pointer and the number of its elements: so many can be read there (of
 * an output: written), and the pointer is aligned for their type; an empty slice may have any pointer, NULL too.
 * An array of counters has 17. An output overlaps nothing else that is given with it: mrd_normal_form with its
 * output inside its input answers 0 with wrong bytes, and what is to be saved where it stands is saved by
 * mrd_salvage_report. No other thread changes what is given during a call.
 *
 * Threads: there is no state between calls, so any calls may run at the same time, each with outputs of its own.
 *
 * Samples are little-endian pairs of floats, real part first, 8 bytes each; trajectories, float pixels and waveform
 * data are little-endian too. A view starts at any byte, so it may not be aligned: a cast to float * is undefined.
 * mrd_load_complex and mrd_load_float read from any address.
 *
 * Cost: a question by record number (mrd_place, mrd_view, mrd_field, mrd_find) or by a byte's (mrd_part_at) first
 * walks the whole stream, and an index that is given is compared with all of it: it shows that stream and index belong
 * together, and makes no question faster. For many records walk once: mrd_next, mrd_view_at and mrd_field_at take time
 * that does not grow with the stream. For many records in any order have mrd_columns_match compare columns once;
 * mrd_cursor_for then makes the cursor of each. mrd_salvage is one walk and one copy, mrd_salvage_report that walk
 * alone. In the strict profile each message that is walked, or stood at, has its text or attributes read whole, and a
 * name; in the plain one no text and no attributes are read.
 *
 * The library is for x86-64 and its usual calling convention (System V) alone. */
#ifndef COTTERLEAF_H
#define COTTERLEAF_H

#include <stdbool.h>
#include <stddef.h>
#include <stdint.h>
#include <string.h>

#include "cotterleaf_names.h"

#ifdef __cplusplus
extern "C" {
#endif

/* ---- What the caller says of a stream ---- */

/* The rules by which a stream is read or written, the same for the whole of it. Nothing in a stream tells them: the
 * caller knows the layout from where the stream comes, and the profile from where it goes. `{0}`, or `{false}`, is
 * packed and plain.
 *
 * The layout. Where `aligned_waveforms` is false, waveform headers are packed, 32 bytes, and their fields adjoin
 * (MRD_WAVEFORM_..). Where it is true they are aligned, 40 bytes (MRD_ALIGNED_WAVEFORM_..), of which bytes 2 to 7, 38
 * and 39 are filler: reading does not look at them, no field starts there, they are no part of the record, and the
 * normal form and the writer make them zero. A stream may be accepted under both layouts, with other records; a cursor,
 * an index and a normal form belong to a stream under one of them.
 *
 * The profile. Where `strict_text` is false, the plain profile, a text may have any bytes. Where it is true, the strict
 * one, names (the bytes before the zero), configuration texts, header texts, texts and the attributes of images must
 * each be well-formed UTF-8 by RFC 3629: 21 where one is not and nothing else is wrong with its message. A stream that
 * the strict profile accepts is accepted by the plain one too, with the same records, index and normal form. */
typedef struct {
    bool aligned_waveforms;
    bool strict_text;
} mrd_rules;

/* ---- Is it a stream, and where are its records? ---- */

/* A stream's answer: with refusal 0 it is accepted and has `count` records. */
typedef struct {
    mrd_refusal refusal;
    size_t record, byte;
    size_t count;
} mrd_checked;

mrd_checked mrd_check(mrd_rules rules, const uint8_t *stream, size_t stream_length);

/* What an acquisition's channel mask says of its active channels. Only how many bits are set is looked at, not
 * which. A mask that differs is no fault: after a coil compression, say, it may still name the coils from before. */
enum {
    MRD_MASK_NOT_STATED = 1, /* all zero */
    MRD_MASK_AGREES = 2,     /* as many ones as active channels */
    MRD_MASK_DIFFERS = 3     /* another count of ones */
};

/* A record: its number from 0, first byte, size with the id, id, and the numbers of its kind. */
typedef struct {
    mrd_refusal refusal;
    size_t record, byte;
    size_t number, start, size;
    size_t length;              /* of a name or text */
    uint64_t attribute_length;  /* of an image */
    uint16_t id;
    uint16_t number_of_samples; /* of an acquisition or waveform */
    uint16_t channels;          /* active, of an acquisition; of an image or waveform */
    uint16_t trajectory_dimensions; /* of an acquisition */
    uint16_t matrix_size_x, matrix_size_y, matrix_size_z, data_type; /* of an image */
    uint16_t mask;              /* of an acquisition: MRD_MASK_NOT_STATED, MRD_MASK_AGREES or MRD_MASK_DIFFERS */
    uint16_t mask_ones;         /* counted in an acquisition's mask */
} mrd_placed;

mrd_placed mrd_place(mrd_rules rules, const uint8_t *stream, size_t stream_length, size_t n);

/* A walk: from mrd_beginning() on, each mrd_next yields one record and the cursor of what follows,
 * at a cost that does not grow with the stream; at the end it yields the stream's answer. Any cursor
 * gets an answer; a phase over 3 is taken as 3. */
typedef struct {
    size_t number, start;
    uint32_t phase; /* 0 texts at most, 1 after a configuration, 2 after the header, 3 after the close */
} mrd_cursor;

typedef struct {
    bool ended;         /* false: `here` and `next`; true: `answer` */
    mrd_placed here;
    mrd_cursor next;
    mrd_checked answer;
} mrd_step;

mrd_cursor mrd_beginning(void);
mrd_step mrd_next(mrd_rules rules, const uint8_t *stream, size_t stream_length, mrd_cursor cursor);

/* The answer of the rest of a stream, from a cursor on. `count` has the records before the cursor too. */
mrd_checked mrd_check_from(mrd_rules rules, const uint8_t *stream, size_t stream_length, mrd_cursor cursor);

/* ---- What does a record hold? ---- */

/* A part of a record that a view shows. In a question any other number is a part that no record has. */
enum {
    MRD_PART_NAME = 1,
    MRD_PART_TEXT = 2,
    MRD_PART_ATTRIBUTES = 3,
    MRD_PART_TRAJECTORY = 4,
    MRD_PART_CHANNEL = 5, /* one channel's samples, by its number from 0 */
    MRD_PART_PIXELS = 6,
    MRD_PART_WAVEFORM = 7
};

/* Where a part lies in the stream: the view is stream + start, `length` bytes. `channel` is looked at for
 * MRD_PART_CHANNEL alone. */
typedef struct {
    mrd_refusal refusal;
    size_t record, byte;
    size_t start, length;
} mrd_view_place;

mrd_view_place mrd_view(mrd_rules rules, const uint8_t *stream, size_t stream_length, size_t n, uint32_t part,
                        size_t channel);

/* The header element that starts at an offset: its type, and its value in the member for that type. */
enum { MRD_WHOLE = 1, MRD_SIGNED = 2, MRD_FLOAT = 3 };

typedef struct {
    mrd_refusal refusal;
    size_t record, byte;
    uint32_t value_type;
    uint64_t whole;
    int32_t integer;
    uint32_t float_bits; /* kept by its bits, a NaN's too: mrd_float_of gives the float */
} mrd_field_answer;

mrd_field_answer mrd_field(mrd_rules rules, const uint8_t *stream, size_t stream_length, size_t n, size_t offset);

/* The number of the first acquisition from record n on with these seventeen counters; else 16. */
typedef struct {
    mrd_refusal refusal;
    size_t record, byte;
    size_t number;
} mrd_found;

mrd_found mrd_find(mrd_rules rules, const uint8_t *stream, size_t stream_length, size_t n,
                   const uint16_t counters[17]);

/* The same for the record that is due at a cursor of a walk, at a cost that does not grow with the stream: take
 * the cursor with which mrd_next yields the record. The stream's refusal where its message is refused, 16
 * where none is left. */
mrd_view_place mrd_view_at(mrd_rules rules, const uint8_t *stream, size_t stream_length, mrd_cursor cursor,
                           uint32_t part, size_t channel);
mrd_field_answer mrd_field_at(mrd_rules rules, const uint8_t *stream, size_t stream_length, mrd_cursor cursor,
                              size_t offset);

/* The cursor at record n, made from two columns of an index (mrd_fill_columns), at a bounded cost; 16 where one of
 * them has no place n. The columns are believed: have mrd_columns_match compare them with the stream once. Then
 * mrd_view_at and mrd_field_at answer there what mrd_view and mrd_field do by number. Its phase is 0 for a
 * configuration or header and 2 for all else, so a walk may go on from it, but not from a text before the header. */
typedef struct {
    mrd_refusal refusal;
    mrd_cursor cursor;
} mrd_cursor_answer;

mrd_cursor_answer mrd_cursor_for(mrd_rules rules, const uint64_t *starts, size_t starts_length,
                                 const uint16_t *ids, size_t ids_length, size_t n);

/* ---- Which record and part does a byte belong to? ---- */

/* The parts that no view shows. With those of a view they are all: every byte of an accepted stream belongs to exactly
 * one part of exactly one record. An empty part holds no byte. */
enum {
    MRD_PART_ID = 8,
    MRD_PART_LENGTH = 9,    /* a text's length, or the 8-byte length of an image's attributes */
    MRD_PART_HEADER = 10,   /* whole, its own attribute length and filler included */
    MRD_PART_NAME_REST = 11 /* what follows a name in its 1,024 bytes, from its zero on */
};

/* The record and the part that a byte belongs to, by its number from 0 in the stream; 16 where the stream has no such
 * byte. On a refusal `place` carries the same refusal, record and byte. mrd_element_name has the name of an element. */
typedef struct {
    mrd_refusal refusal;
    size_t record, byte;
    mrd_placed place;      /* the record */
    uint32_t part;         /* MRD_PART_.., of a view or not */
    size_t channel;        /* of MRD_PART_CHANNEL */
    size_t start, length;  /* the part is stream + start, `length` bytes */
    size_t element_offset; /* of MRD_PART_HEADER: the element that has the byte, by its offset as mrd_field takes it, */
    size_t element_size;   /* and its size; both 0 where the byte is filler */
} mrd_part_answer;

mrd_part_answer mrd_part_at(mrd_rules rules, const uint8_t *stream, size_t stream_length, size_t byte);

/* ---- The same questions with an index given: 15 where it is not the stream's own ---- */

/* What is asked. Any other number asks for a part that no record has. */
enum {
    MRD_ASK_PLACE = 1, /* as mrd_place */
    MRD_ASK_VIEW = 2,  /* as mrd_view */
    MRD_ASK_FIELD = 3, /* as mrd_field */
    MRD_ASK_FIND = 4   /* as mrd_find */
};

/* A question, about record `number`. Members that it does not need are not looked at. */
typedef struct {
    uint32_t what;
    uint32_t part;         /* of a view */
    size_t number;
    size_t channel;        /* of a view of a channel */
    size_t offset;         /* of a field */
    uint16_t counters[17]; /* to be found */
} mrd_question;

/* A question with all that it may need 0, and the four that there are. */
static inline mrd_question mrd_question_about(uint32_t what, size_t n)
{
    mrd_question q;
    memset(&q, 0, sizeof q);
    q.what = what;
    q.number = n;
    return q;
}

static inline mrd_question mrd_question_place(size_t n)
{
    return mrd_question_about(MRD_ASK_PLACE, n);
}

static inline mrd_question mrd_question_view(size_t n, uint32_t part, size_t channel)
{
    mrd_question q = mrd_question_about(MRD_ASK_VIEW, n);
    q.part = part;
    q.channel = channel;
    return q;
}

static inline mrd_question mrd_question_field(size_t n, size_t offset)
{
    mrd_question q = mrd_question_about(MRD_ASK_FIELD, n);
    q.offset = offset;
    return q;
}

static inline mrd_question mrd_question_find(size_t n, const uint16_t counters[17])
{
    mrd_question q = mrd_question_about(MRD_ASK_FIND, n);
    memcpy(q.counters, counters, sizeof q.counters);
    return q;
}

/* What is replied: the answer in the member for what was asked, as the function without an index gives it.
 * Every member carries the reply's refusal, record and byte; those that were not asked for have no more. */
typedef struct {
    mrd_refusal refusal;
    size_t record, byte;
    mrd_placed place;
    mrd_view_place view;
    mrd_field_answer field;
    mrd_found found;
} mrd_reply;

mrd_reply mrd_ask_with_file(mrd_rules rules, const uint8_t *stream, size_t stream_length, mrd_question question,
                            const uint8_t *file, size_t file_length);
mrd_reply mrd_ask_with_columns(mrd_rules rules, const uint8_t *stream, size_t stream_length,
                               mrd_question question, const uint64_t *starts, size_t starts_length,
                               const uint16_t *ids, size_t ids_length, const uint32_t *counters,
                               size_t counters_length);

/* ---- Flags and scan counters ---- */

/* Flag n, 1 to 64, is bit n - 1. Any other n is false, and gives the flags back. */
bool mrd_flag_test(uint64_t flags, uint32_t n);
uint64_t mrd_flag_set(uint64_t flags, uint32_t n);
uint64_t mrd_flag_clear(uint64_t flags, uint32_t n);

/* Later minus earlier around the 32-bit wrap: 1 next, above 1 a gap of one less, 0 a repeat, below 0 back. */
int32_t mrd_counter_step(uint32_t earlier, uint32_t later);

/* ---- Writing ---- */

/* How much the front of the output now has: so many bytes, or, of columns, so many places. */
typedef struct {
    mrd_refusal refusal;
    size_t record, byte;
    size_t length;
} mrd_written;

/* The normal form: two streams with the same records, under one choice of rules, have the same. */
mrd_written mrd_normal_form(mrd_rules rules, const uint8_t *stream, size_t stream_length, uint8_t *out,
                            size_t out_length);

/* The index of a stream, as a file: 23 bytes, and 17 for each record. */
mrd_written mrd_write_index(mrd_rules rules, const uint8_t *stream, size_t stream_length, uint8_t *out,
                            size_t out_length);

/* The same index as three columns, one place for each record. */
mrd_written mrd_fill_columns(mrd_rules rules, const uint8_t *stream, size_t stream_length, uint64_t *starts,
                             size_t starts_length, uint16_t *ids, size_t ids_length, uint32_t *counters,
                             size_t counters_length);

/* Whether an index is the stream's own: refusal 0, else 15, or the stream's refusal first. */
typedef struct {
    mrd_refusal refusal;
    size_t record, byte;
} mrd_matched;

mrd_matched mrd_index_matches(mrd_rules rules, const uint8_t *stream, size_t stream_length,
                              const uint8_t *file, size_t file_length);
mrd_matched mrd_columns_match(mrd_rules rules, const uint8_t *stream, size_t stream_length,
                              const uint64_t *starts, size_t starts_length, const uint16_t *ids,
                              size_t ids_length, const uint32_t *counters, size_t counters_length);

/* Writes one message into `out` from `position` on, and answers the position after it. The header is that
 * of the kind, 340, 198 or 32 bytes (of an aligned waveform 40), or empty; parts that the kind lacks are empty.
 * An image's header is written with the length of its attributes, whatever it holds there, and filler as zero.
 * In the strict profile name, text and attributes must be UTF-8: 21, after 18 and before 14.
 * Order and count are not judged: mrd_check judges the whole stream. */
typedef struct {
    mrd_refusal refusal;
    size_t position;
} mrd_put;

mrd_put mrd_write(mrd_rules rules, uint16_t id, const uint8_t *header, size_t header_length,
                  const uint8_t *name, size_t name_length, const uint8_t *text, size_t text_length,
                  const uint8_t *trajectory, size_t trajectory_length, const uint8_t *samples,
                  size_t samples_length, const uint8_t *attributes, size_t attributes_length,
                  const uint8_t *pixels, size_t pixels_length, const uint8_t *waveform,
                  size_t waveform_length, uint8_t *out, size_t out_length, size_t position);

/* The same with the parts in one struct: set what the kind has and leave the rest {0}. */
typedef struct {
    const uint8_t *header;
    size_t header_length;
    const uint8_t *name;
    size_t name_length;
    const uint8_t *text;
    size_t text_length;
    const uint8_t *trajectory;
    size_t trajectory_length;
    const uint8_t *samples;
    size_t samples_length;
    const uint8_t *attributes;
    size_t attributes_length;
    const uint8_t *pixels;
    size_t pixels_length;
    const uint8_t *waveform;
    size_t waveform_length;
} mrd_parts;

static inline mrd_put mrd_write_parts(mrd_rules rules, uint16_t id, const mrd_parts *p, uint8_t *out,
                                      size_t out_length, size_t position)
{
    return mrd_write(rules, id, p->header, p->header_length, p->name, p->name_length, p->text,
                     p->text_length, p->trajectory, p->trajectory_length, p->samples, p->samples_length,
                     p->attributes, p->attributes_length, p->pixels, p->pixels_length, p->waveform,
                     p->waveform_length, out, out_length, position);
}

/* ---- Saving a torn recording ---- */

/* What is saved of a stream: every message before the first faulty one, unchanged, and then a close (04 00). Where the
 * messages before the fault have their close already, or nothing is refused, none is added. With an added close at most
 * 999,999 messages are kept, so that the result has no more than 1,000,000. The result is always accepted, under the
 * same rules; an accepted stream comes back byte for byte. */
typedef struct {
    mrd_refusal refusal;   /* 0, or 14 where the output is too short; then all else is 0 */
    size_t messages_kept;  /* of the stream's messages; an added close is not counted */
    size_t bytes_not_kept; /* of the stream's bytes: those from the first message that is not kept on */
    size_t length;         /* of the saved stream: the bytes kept, and 2 more where a close was added */
    bool close_added;
} mrd_salvaged;

/* Writes the saved stream to the front of `out`, which needs at most the stream's length and 2 bytes more. Refuses with
 * 14 alone: a refused stream is what it is for. */
mrd_salvaged mrd_salvage(mrd_rules rules, const uint8_t *stream, size_t stream_length, uint8_t *out,
                         size_t out_length);

/* The same answer with nothing written, and so never refused: how much room mrd_salvage needs. A file can be saved
 * where it stands: cut off its last `bytes_not_kept` bytes, and append 04 00 where `close_added`. */
mrd_salvaged mrd_salvage_report(mrd_rules rules, const uint8_t *stream, size_t stream_length);

/* The float with these bits. */
static inline float mrd_float_of(uint32_t bits)
{
    float f;
    memcpy(&f, &bits, sizeof f);
    return f;
}

/* The little-endian float at any address, aligned or not. */
static inline float mrd_load_float(const uint8_t *bytes)
{
    return mrd_float_of((uint32_t)bytes[0] | (uint32_t)bytes[1] << 8 | (uint32_t)bytes[2] << 16 |
                        (uint32_t)bytes[3] << 24);
}

/* Sample i of a channel's view: the view has mrd_placed's `number_of_samples` of them. */
typedef struct {
    float re, im;
} mrd_complex;

static inline mrd_complex mrd_load_complex(const uint8_t *view, size_t i)
{
    mrd_complex sample;
    sample.re = mrd_load_float(view + 8 * i);
    sample.im = mrd_load_float(view + 8 * i + 4);
    return sample;
}

#ifdef __cplusplus
}
#endif

#endif
