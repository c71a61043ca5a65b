/* The worked examples of document 01 and what is saved of them, each call of the library once for each layout of
 * waveform headers and each profile of texts, what a mask says, and an image header that says 0 of its attributes, from
 * C. */
#include "cotterleaf.h"

#include <stdio.h>
#include <string.h>

static const mrd_rules PACKED = {false}, ALIGNED = {.aligned_waveforms = true}, STRICT = {.strict_text = true},
                       STRICT_ALIGNED = {true, true};

static int checks, failures;

/* Goes on after a failure, so that one run shows all of them. */
#define CHECK(condition)                                                     \
    do {                                                                     \
        checks++;                                                            \
        if (!(condition)) {                                                  \
            failures++;                                                      \
            printf("line %d of paper.c fails: %s\n", __LINE__, #condition); \
        }                                                                    \
    } while (0)

static void put(uint8_t *bytes, size_t at, int width, uint64_t number)
{
    for (int i = 0; i < width; i++)
        bytes[at + (size_t)i] = (uint8_t)(number >> (8 * i));
}

/* Whether a salvage of `length` bytes, and its report, keep so many messages and bytes and add a close or none. */
static bool is_saved(mrd_rules rules, const uint8_t *bytes, size_t length, size_t messages, size_t kept, bool added)
{
    static uint8_t out[2100];
    size_t saved = kept + (added ? 2 : 0);
    mrd_salvaged report = mrd_salvage_report(rules, bytes, length);
    memset(out, 0xEE, sizeof out);
    mrd_salvaged answer = mrd_salvage(rules, bytes, length, out, saved);
    bool same = answer.refusal == MRD_OK && report.refusal == MRD_OK && answer.length == saved &&
                report.length == saved && answer.messages_kept == messages && report.messages_kept == messages &&
                answer.bytes_not_kept == length - kept && report.bytes_not_kept == length - kept &&
                answer.close_added == added && report.close_added == added;
    bool written = memcmp(out, bytes, kept) == 0 && (!added || (out[kept] == 4 && out[kept + 1] == 0)) &&
                   out[saved] == 0xEE;
    return same && written && mrd_check(rules, out, saved).count == messages + added &&
           mrd_salvage(rules, bytes, length, out, saved - 1).refusal == MRD_REFUSED_OUTPUT_SHORT;
}

/* P1 to P9, and what is saved of each: so many messages and bytes, and an added close or none. */
static void answers(void)
{
    static const struct {
        uint8_t bytes[8];
        size_t length;
        mrd_checked answer;
        size_t messages, kept;
        bool added;
    } rows[] = {
        {{4, 0}, 2, {0, 0, 0, 1}, 1, 2, false},
        {{0}, 0, {MRD_REFUSED_NO_CLOSE, 0, 0, 0}, 0, 0, true},
        {{4}, 1, {MRD_REFUSED_ID_CUT, 0, 0, 0}, 0, 0, true},
        {{4, 0, 0}, 3, {MRD_REFUSED_ORDER, 1, 2, 0}, 1, 2, false},
        {{6, 0}, 2, {MRD_REFUSED_UNKNOWN_ID, 0, 0, 0}, 0, 0, true},
        {{3, 0, 0, 0, 0}, 5, {MRD_REFUSED_FIXED_PART_CUT, 0, 0, 0}, 0, 0, true},
        {{3, 0, 1, 0, 0, 0}, 6, {MRD_REFUSED_MESSAGE_CUT, 0, 0, 0}, 0, 0, true},
        {{5, 0, 0, 0, 0, 0}, 6, {MRD_REFUSED_NO_CLOSE, 1, 6, 0}, 1, 6, true},
        {{0xF0, 3}, 2, {MRD_REFUSED_ORDER, 0, 0, 0}, 0, 0, true},
    };
    for (size_t i = 0; i < sizeof rows / sizeof rows[0]; i++) {
        mrd_checked answer = mrd_check(PACKED, rows[i].bytes, rows[i].length);
        CHECK(answer.refusal == rows[i].answer.refusal);
        CHECK(answer.record == rows[i].answer.record);
        CHECK(answer.byte == rows[i].answer.byte);
        CHECK(answer.count == rows[i].answer.count);
        CHECK(is_saved(PACKED, rows[i].bytes, rows[i].length, rows[i].messages, rows[i].kept, rows[i].added));
    }
    CHECK(mrd_check(PACKED, NULL, 0).refusal == MRD_REFUSED_NO_CLOSE); /* an empty slice may have any pointer */
}

enum { SAMPLES = 256, CHANNELS = 2, DATA = SAMPLES * CHANNELS * 8, TRAJECTORY = SAMPLES * 2 * 4 };

/* An acquisition header of 256 samples, 2 of 2 channels. */
static void set_acquisition(uint8_t header[340], uint16_t dimensions)
{
    memset(header, 0, 340);
    put(header, 0, 2, 1);
    put(header, 14, 4, 77);
    put(header, 34, 2, SAMPLES);
    put(header, 36, 2, CHANNELS);
    put(header, 38, 2, CHANNELS);
    put(header, 176, 2, dimensions);
    put(header, 178, 4, 0x7F800001); /* a signalling NaN as sample time */
    put(header, 242, 2, 5);
    put(header, 276, 4, 0xFFFFFFFE);
}

static uint8_t written[12000], samples[DATA], trajectory[TRAJECTORY];

/* A header text, an acquisition without and one with a trajectory, and the close, written one after another.
 * Answers the length of the stream, and where the second acquisition starts. P10 is both acquisitions' size. */
static size_t write_stream(size_t *second)
{
    uint8_t header[340];
    mrd_parts text = {.text = (const uint8_t *)"<xml/>", .text_length = 6};
    mrd_put end = mrd_write_parts(PACKED, MRD_ID_HEADER_TEXT, &text, written, sizeof written, 0);
    CHECK(end.refusal == 0 && end.position == 12);

    set_acquisition(header, 0);
    mrd_parts parts = {.header = header, .header_length = 340, .samples = samples, .samples_length = DATA};
    end = mrd_write_parts(PACKED, MRD_ID_ACQUISITION, &parts, written, sizeof written, end.position);
    CHECK(end.refusal == 0 && end.position == 12 + 4438);
    *second = end.position;

    set_acquisition(header, 2);
    parts.trajectory = trajectory;
    parts.trajectory_length = TRAJECTORY;
    end = mrd_write_parts(PACKED, MRD_ID_ACQUISITION, &parts, written, sizeof written, end.position);
    CHECK(end.refusal == 0 && end.position == *second + 6486);
    end = mrd_write_parts(PACKED, MRD_ID_CLOSE, &(mrd_parts){0}, written, sizeof written, end.position);
    CHECK(end.refusal == 0 && end.position == *second + 6486 + 2);
    return end.position;
}

/* P10, and a stream that is written message after message and reads back. */
static void written_reads_back(void)
{
    size_t second = 0;
    for (size_t i = 0; i < sizeof samples; i++)
        samples[i] = (uint8_t)(i * 7);
    memset(trajectory, 0x5A, sizeof trajectory);
    memset(written, 0xEE, sizeof written);
    size_t length = write_stream(&second);
    CHECK(written[length] == 0xEE);

    CHECK(mrd_check(PACKED, written, length).count == 4);
    CHECK(mrd_place(PACKED, written, length, 1).size == 4438);
    mrd_placed placed = mrd_place(PACKED, written, length, 2);
    CHECK(placed.size == 6486 && placed.start == second && placed.id == MRD_ID_ACQUISITION);
    CHECK(placed.number_of_samples == SAMPLES && placed.channels == CHANNELS && placed.trajectory_dimensions == 2);
    mrd_view_place channel = mrd_view(PACKED, written, length, 2, MRD_PART_CHANNEL, 1);
    CHECK(channel.refusal == 0 && channel.length == SAMPLES * 8);
    CHECK(channel.start == second + 342 + TRAJECTORY + SAMPLES * 8);
    CHECK(memcmp(written + channel.start, samples + SAMPLES * 8, SAMPLES * 8) == 0);
    mrd_view_place empty = mrd_view(PACKED, written, length, 1, MRD_PART_TRAJECTORY, 0);
    CHECK(empty.refusal == 0 && empty.length == 0 && empty.start == 12 + 342);
}

/* What the writer refuses leaves the output as it was. */
static void writer_refuses(void)
{
    uint8_t out[8], kept[8];
    memset(out, 0xEE, sizeof out);
    memcpy(kept, out, sizeof out);
    mrd_parts none = {0};
    mrd_parts text = {.text = kept, .text_length = 3};
    CHECK(mrd_write_parts(PACKED, 6, &none, out, sizeof out, 0).refusal == MRD_REFUSED_UNKNOWN_ID);
    CHECK(mrd_write_parts(PACKED, MRD_ID_IMAGE, &none, out, sizeof out, 0).refusal == MRD_REFUSED_FIXED_PART_CUT);
    CHECK(mrd_write_parts(PACKED, MRD_ID_CLOSE, &text, out, sizeof out, 0).refusal == MRD_REFUSED_BODY_LENGTH);
    CHECK(mrd_write_parts(PACKED, MRD_ID_TEXT, &text, out, sizeof out, 0).refusal == MRD_REFUSED_OUTPUT_SHORT);
    CHECK(mrd_write_parts(PACKED, MRD_ID_CLOSE, &none, out, sizeof out, 7).refusal == MRD_REFUSED_OUTPUT_SHORT);
    CHECK(mrd_write_parts(PACKED, MRD_ID_CLOSE, &none, out, sizeof out, SIZE_MAX).refusal == MRD_REFUSED_OUTPUT_SHORT);
    CHECK(memcmp(out, kept, sizeof out) == 0);
    CHECK(mrd_write_parts(PACKED, MRD_ID_CLOSE, &none, out, sizeof out, 6).position == 8);
}

/* P11 and P12. */
static void flags_and_counters(void)
{
    CHECK(mrd_flag_set(0, 7) == 64);
    CHECK(mrd_flag_test(64, 7) && !mrd_flag_test(64, 6) && !mrd_flag_test(UINT64_MAX, 0));
    CHECK(mrd_flag_clear(65, 7) == 1 && mrd_flag_clear(64, 65) == 64 && mrd_flag_set(64, 65) == 64);
    CHECK(mrd_flag_set(0, 64) == UINT64_C(1) << 63);
    CHECK(mrd_counter_step(4294967295u, 0) == 1);
    CHECK(mrd_counter_step(0, 2147483648u) == INT32_MIN);
}

static const uint8_t TWO_RECORDS[8] = {3, 0, 0, 0, 0, 0, 4, 0};

static const uint8_t INDEX[57] = {
    0x01, 0x02, 0x00, 0x01, 0x00,
    0x02, 0x08, 0x00, 0x08, 0x00, 0x00, 0x00, 0x00, 0x00, 0x00, 0x00,
    0x03, 0x0E, 0x00, 0x00, 0x00, 0x00, 0x00, 0x00, 0x00, 0x00, 0x00, 0x03, 0x00, 0x00, 0x00, 0x00, 0x00,
    0x03, 0x0E, 0x00, 0x06, 0x00, 0x00, 0x00, 0x00, 0x00, 0x00, 0x00, 0x04, 0x00, 0x00, 0x00, 0x00, 0x00,
    0x04, 0x04, 0x00, 0x02, 0x00, 0x00, 0x00,
};

static mrd_reply with_file(mrd_question question, const uint8_t *file, size_t length)
{
    return mrd_ask_with_file(PACKED, TWO_RECORDS, 8, question, file, length);
}

/* The 57 bytes, written and given: believed as they are, 15 with any one of them changed. */
static void index_file(void)
{
    uint8_t out[60];
    memset(out, 0xEE, sizeof out);
    CHECK(mrd_write_index(PACKED, TWO_RECORDS, 8, out, 56).refusal == MRD_REFUSED_OUTPUT_SHORT);
    CHECK(out[0] == 0xEE);
    CHECK(mrd_write_index(PACKED, TWO_RECORDS, 8, out, sizeof out).length == 57);
    CHECK(memcmp(out, INDEX, 57) == 0);
    CHECK(out[57] == 0xEE && out[58] == 0xEE && out[59] == 0xEE);

    CHECK(mrd_index_matches(PACKED, TWO_RECORDS, 8, INDEX, 57).refusal == 0);
    CHECK(mrd_index_matches(PACKED, TWO_RECORDS, 8, out, 58).refusal == MRD_REFUSED_INDEX_DIFFERS);
    CHECK(mrd_index_matches(PACKED, TWO_RECORDS, 8, NULL, 0).refusal == MRD_REFUSED_INDEX_DIFFERS);
    mrd_matched before = mrd_index_matches(PACKED, TWO_RECORDS, 6, INDEX, 57);
    CHECK(before.refusal == MRD_REFUSED_NO_CLOSE && before.record == 1 && before.byte == 6);
    CHECK(with_file(mrd_question_place(1), INDEX, 57).place.start == 6);
    CHECK(with_file(mrd_question_about(0, 1), INDEX, 57).refusal == MRD_REFUSED_NO_PART);
    CHECK(with_file(mrd_question_about(5, 2), INDEX, 57).refusal == MRD_REFUSED_NO_RECORD);
    CHECK(with_file(mrd_question_about(5, 2), INDEX, 56).refusal == MRD_REFUSED_INDEX_DIFFERS);
    mrd_reply refused = mrd_ask_with_file(PACKED, TWO_RECORDS, 6, mrd_question_place(0), INDEX, 57);
    CHECK(refused.refusal == MRD_REFUSED_NO_CLOSE && refused.record == 1 && refused.byte == 6);
    CHECK(refused.place.refusal == MRD_REFUSED_NO_CLOSE && refused.view.byte == 6 && refused.found.record == 1);
    CHECK(with_file(mrd_question_place(2), INDEX, 57).place.refusal == MRD_REFUSED_NO_RECORD);
    CHECK(with_file(mrd_question_view(0, MRD_PART_TEXT, 0), INDEX, 57).view.start == 6);
    CHECK(with_file(mrd_question_field(0, 0), INDEX, 57).field.refusal == MRD_REFUSED_NO_FIELD);
    uint16_t asked[17] = {0};
    CHECK(with_file(mrd_question_find(0, asked), INDEX, 57).found.refusal == MRD_REFUSED_NO_RECORD);
    for (size_t i = 0; i < 57; i++) {
        out[i] ^= 1;
        CHECK(mrd_index_matches(PACKED, TWO_RECORDS, 8, out, 57).refusal == MRD_REFUSED_INDEX_DIFFERS);
        CHECK(with_file(mrd_question_place(9), out, 57).place.refusal == MRD_REFUSED_INDEX_DIFFERS);
        out[i] ^= 1;
    }
    CHECK(with_file(mrd_question_view(0, 2, 0), out, 56).view.refusal == MRD_REFUSED_INDEX_DIFFERS);
    CHECK(with_file(mrd_question_field(0, 0), out, 56).field.refusal == MRD_REFUSED_INDEX_DIFFERS);
    CHECK(with_file(mrd_question_find(0, asked), out, 56).found.refusal == MRD_REFUSED_INDEX_DIFFERS);
}

/* Columns filled and believed, and 15 with one number changed. */
static void index_columns(void)
{
    uint64_t starts[3] = {91, 92, 93};
    uint16_t ids[3] = {94, 95, 96};
    uint32_t counters[3] = {97, 98, 99};
    CHECK(mrd_fill_columns(PACKED, TWO_RECORDS, 8, starts, 3, ids, 1, counters, 3).refusal == MRD_REFUSED_OUTPUT_SHORT);
    CHECK(starts[0] == 91 && ids[0] == 94 && counters[0] == 97);
    CHECK(mrd_fill_columns(PACKED, TWO_RECORDS, 8, starts, 3, ids, 2, counters, 3).length == 2);
    CHECK(starts[0] == 0 && starts[1] == 6 && starts[2] == 93);
    CHECK(ids[0] == 3 && ids[1] == 4 && ids[2] == 96);
    CHECK(counters[0] == 0 && counters[1] == 0 && counters[2] == 99);

#define WITH_COLUMNS(question) mrd_ask_with_columns(PACKED, TWO_RECORDS, 8, question, starts, 3, ids, 3, counters, 2)
    uint16_t asked[17] = {0};
    CHECK(mrd_columns_match(PACKED, TWO_RECORDS, 8, starts, 3, ids, 3, counters, 2).refusal == 0);
    CHECK(WITH_COLUMNS(mrd_question_place(1)).place.start == 6);
    CHECK(WITH_COLUMNS(mrd_question_view(0, 2, 0)).view.start == 6);
    CHECK(WITH_COLUMNS(mrd_question_field(0, 0)).field.refusal == 20);
    CHECK(WITH_COLUMNS(mrd_question_find(0, asked)).found.refusal == 16);
    CHECK(mrd_columns_match(PACKED, TWO_RECORDS, 8, starts, 1, ids, 3, counters, 2).refusal == 15);
    ids[1] = 5;
    CHECK(mrd_columns_match(PACKED, TWO_RECORDS, 8, starts, 3, ids, 3, counters, 2).refusal == 15);
    CHECK(WITH_COLUMNS(mrd_question_place(1)).place.refusal == 15);
    CHECK(WITH_COLUMNS(mrd_question_view(0, 2, 0)).view.refusal == 15);
    CHECK(WITH_COLUMNS(mrd_question_field(0, 0)).field.refusal == 15);
    CHECK(WITH_COLUMNS(mrd_question_find(0, asked)).found.refusal == 15);
}

/* A refused view is the empty part at the stream's front; its place says why. */
static void refused_views(void)
{
    mrd_view_place wrong = mrd_view(PACKED, TWO_RECORDS, 8, 1, MRD_PART_TEXT, 0);
    CHECK(wrong.refusal == MRD_REFUSED_NO_PART && wrong.start == 0 && wrong.length == 0);
    CHECK(mrd_view(PACKED, TWO_RECORDS, 8, 0, 99, 0).refusal == MRD_REFUSED_NO_PART);
    CHECK(mrd_view(PACKED, TWO_RECORDS, 8, SIZE_MAX, MRD_PART_TEXT, 0).refusal == MRD_REFUSED_NO_RECORD);
    mrd_view_place of_refused = mrd_view(PACKED, TWO_RECORDS, 7, 0, MRD_PART_TEXT, 0);
    CHECK(of_refused.refusal == MRD_REFUSED_ID_CUT && of_refused.record == 1 && of_refused.byte == 6);
    CHECK(of_refused.start == 0 && of_refused.length == 0);
    mrd_view_place empty_text = mrd_view(PACKED, TWO_RECORDS, 8, 0, MRD_PART_TEXT, 7);
    CHECK(empty_text.refusal == 0 && empty_text.start == 6 && empty_text.length == 0);
}

/* Two names that differ in what follows their zero have one normal form. */
static void one_normal_form(void)
{
    static uint8_t one[1028], other[1028], normal_one[1030], normal_other[1030];
    memset(one + 2, 0x11, 1024);
    memset(other + 2, 0x22, 1024);
    put(one, 0, 2, MRD_ID_CONFIGURATION_NAME);
    put(other, 0, 2, MRD_ID_CONFIGURATION_NAME);
    memcpy(one + 2, "radial", 7);
    memcpy(other + 2, "radial", 7);
    put(one, 1026, 2, MRD_ID_CLOSE);
    put(other, 1026, 2, MRD_ID_CLOSE);
    memset(normal_one, 0xEE, sizeof normal_one);
    memset(normal_other, 0xEE, sizeof normal_other);
    CHECK(memcmp(one, other, sizeof one) != 0);
    CHECK(mrd_normal_form(PACKED, one, 1028, normal_one, 1027).refusal == MRD_REFUSED_OUTPUT_SHORT);
    CHECK(normal_one[0] == 0xEE);
    CHECK(mrd_normal_form(PACKED, one, 1028, normal_one, 1030).length == 1028);
    CHECK(mrd_normal_form(PACKED, other, 1028, normal_other, 1030).length == 1028);
    CHECK(memcmp(normal_one, normal_other, 1030) == 0);
    CHECK(normal_one[8] == 0 && normal_one[1025] == 0 && normal_one[1026] == 4 && normal_one[1028] == 0xEE);
    mrd_view_place name = mrd_view(PACKED, one, 1028, 0, MRD_PART_NAME, 0);
    CHECK(name.start == 2 && name.length == 6);
}

/* Fields of each type, and find, in a stream of one acquisition without samples. */
static void fields_and_find(void)
{
    uint8_t stream[6 + 342 + 2] = {3, 0};
    uint8_t header[340];
    set_acquisition(header, 2);
    put(header, 34, 2, 0);
    put(stream, 6, 2, MRD_ID_ACQUISITION);
    memcpy(stream + 8, header, 340);
    put(stream, 348, 2, MRD_ID_CLOSE);
    mrd_field_answer counter = mrd_field(PACKED, stream, sizeof stream, 1, 14);
    CHECK(counter.refusal == 0 && counter.value_type == MRD_WHOLE && counter.whole == 77);
    mrd_field_answer integer = mrd_field(PACKED, stream, sizeof stream, 1, 276);
    CHECK(integer.value_type == MRD_SIGNED && integer.integer == -2);
    mrd_field_answer nan = mrd_field(PACKED, stream, sizeof stream, 1, 178);
    CHECK(nan.value_type == MRD_FLOAT && nan.float_bits == 0x7F800001);
    CHECK(mrd_float_of(0x3F800000) == 1.0f);
    CHECK(mrd_field(PACKED, stream, sizeof stream, 1, 15).refusal == MRD_REFUSED_NO_FIELD);
    CHECK(mrd_field(PACKED, stream, sizeof stream, 0, 0).refusal == MRD_REFUSED_NO_FIELD);
    CHECK(mrd_field(PACKED, stream, sizeof stream, 3, 15).refusal == MRD_REFUSED_NO_RECORD);
    uint16_t asked[17] = {5};
    CHECK(mrd_find(PACKED, stream, sizeof stream, 0, asked).number == 1);
    CHECK(mrd_find(PACKED, stream, sizeof stream, 2, asked).refusal == MRD_REFUSED_NO_RECORD);
    asked[16] = 1;
    CHECK(mrd_find(PACKED, stream, sizeof stream, 0, asked).refusal == MRD_REFUSED_NO_RECORD);
}

/* What a mask says, at every place where a kind is handed out: by number, in a walk, and with an index of either form. */
static void masks(void)
{
    static const struct {
        uint16_t active;
        uint64_t first, last; /* words of the mask */
        uint16_t mask, ones;
    } rows[] = {
        {3, 0, 0, MRD_MASK_NOT_STATED, 0},
        {3, 5, 1, MRD_MASK_AGREES, 3},
        {3, 7, UINT64_C(1) << 63, MRD_MASK_DIFFERS, 4},
        {3, 3, 0, MRD_MASK_DIFFERS, 2},
        {0, 0, 0, MRD_MASK_NOT_STATED, 0},
        {0, 1, 0, MRD_MASK_DIFFERS, 1},
    };
    for (size_t i = 0; i < sizeof rows / sizeof rows[0]; i++) {
        uint8_t stream[6 + 342 + 2] = {3, 0}, file[74];
        uint64_t starts[3];
        uint16_t ids[3];
        uint32_t counters[3];
        put(stream, 6, 2, MRD_ID_ACQUISITION);
        put(stream, 8, 2, 1);
        put(stream, 8 + MRD_ACQUISITION_AVAILABLE_CHANNELS, 2, 3);
        put(stream, 8 + MRD_ACQUISITION_ACTIVE_CHANNELS, 2, rows[i].active);
        put(stream, 8 + MRD_ACQUISITION_CHANNEL_MASK, 8, rows[i].first);
        put(stream, 8 + MRD_ACQUISITION_CHANNEL_MASK + 120, 8, rows[i].last);
        put(stream, 348, 2, MRD_ID_CLOSE);
        CHECK(mrd_check(PACKED, stream, sizeof stream).count == 3);
        CHECK(mrd_write_index(PACKED, stream, sizeof stream, file, sizeof file).length == sizeof file);
        CHECK(mrd_fill_columns(PACKED, stream, sizeof stream, starts, 3, ids, 3, counters, 3).length == 3);
        mrd_step header = mrd_next(PACKED, stream, sizeof stream, mrd_beginning());
        mrd_question question = mrd_question_place(1);
        mrd_placed placed[] = {
            mrd_place(PACKED, stream, sizeof stream, 1),
            mrd_next(PACKED, stream, sizeof stream, header.next).here,
            mrd_ask_with_file(PACKED, stream, sizeof stream, question, file, sizeof file).place,
            mrd_ask_with_columns(PACKED, stream, sizeof stream, question, starts, 3, ids, 3, counters, 3).place,
        };
        for (size_t k = 0; k < sizeof placed / sizeof placed[0]; k++)
            CHECK(placed[k].refusal == 0 && placed[k].channels == rows[i].active && placed[k].mask == rows[i].mask &&
                  placed[k].mask_ones == rows[i].ones);
        CHECK(header.here.mask == 0 && header.here.mask_ones == 0); /* a text has no mask */
        put(stream, 8 + MRD_ACQUISITION_ACTIVE_CHANNELS, 2, 4); /* of 3 available */
        CHECK(mrd_check(PACKED, stream, sizeof stream).refusal == MRD_REFUSED_CHANNELS);
        CHECK(mrd_place(PACKED, stream, sizeof stream, 1).mask == 0);
    }
}

enum { IMAGE = 6, ATTRIBUTES = IMAGE + 208, PIXELS = ATTRIBUTES + 3 };

/* A stream of one image of 2 pixels with the attributes "abc", whose header says `stated` of their length. */
typedef struct {
    uint8_t bytes[PIXELS + 4 + 2];
} image_stream;

static image_stream image_saying(uint32_t stated)
{
    image_stream stream = {{3, 0}};
    uint8_t *header = stream.bytes + IMAGE + 2;
    put(stream.bytes, IMAGE, 2, MRD_ID_IMAGE);
    put(header, MRD_IMAGE_VERSION, 2, 1);
    put(header, MRD_IMAGE_DATA_TYPE, 2, 1);
    put(header, MRD_IMAGE_MATRIX_SIZE, 2, 2);
    put(header, MRD_IMAGE_MATRIX_SIZE + 2, 2, 1);
    put(header, MRD_IMAGE_MATRIX_SIZE + 4, 2, 1);
    put(header, MRD_IMAGE_CHANNELS, 2, 1);
    put(header, MRD_IMAGE_ATTRIBUTE_STRING_LEN, 4, stated);
    put(header, 198, 8, 3);
    memcpy(stream.bytes + ATTRIBUTES, "abc", 3);
    memset(stream.bytes + PIXELS, 0x5A, 4);
    put(stream.bytes, PIXELS + 4, 2, MRD_ID_CLOSE);
    return stream;
}

/* An image header says the attribute length or 0: the 8 bytes after it decide, the field is what is stored, and the
 * normal form has the length. Any other number is 9. */
static void stated_lengths(void)
{
    image_stream normal = image_saying(3), out;
    const size_t length = sizeof out.bytes;
    for (uint32_t stated = 0; stated <= 3; stated += 3) {
        image_stream stream = image_saying(stated);
        const uint8_t *bytes = stream.bytes;
        CHECK(mrd_check(PACKED, bytes, length).count == 3);
        mrd_step text = mrd_next(PACKED, bytes, length, mrd_beginning());
        mrd_placed placed[] = {mrd_place(PACKED, bytes, length, 1), mrd_next(PACKED, bytes, length, text.next).here};
        for (size_t i = 0; i < 2; i++)
            CHECK(placed[i].id == MRD_ID_IMAGE && placed[i].attribute_length == 3 && placed[i].size == 208 + 3 + 4);
        mrd_field_answer fields[] = {mrd_field(PACKED, bytes, length, 1, MRD_IMAGE_ATTRIBUTE_STRING_LEN),
                                     mrd_field_at(PACKED, bytes, length, text.next, MRD_IMAGE_ATTRIBUTE_STRING_LEN)};
        for (size_t i = 0; i < 2; i++)
            CHECK(fields[i].refusal == 0 && fields[i].value_type == MRD_WHOLE && fields[i].whole == stated);
        mrd_view_place attributes = mrd_view(PACKED, bytes, length, 1, MRD_PART_ATTRIBUTES, 0);
        CHECK(attributes.refusal == 0 && attributes.start == ATTRIBUTES && attributes.length == 3);
        CHECK(mrd_view(PACKED, bytes, length, 1, MRD_PART_PIXELS, 0).start == PIXELS);
        memset(&out, 0xEE, sizeof out);
        CHECK(mrd_normal_form(PACKED, bytes, length, out.bytes, length).length == length);
        CHECK(memcmp(out.bytes, normal.bytes, length) == 0);
    }
    static const uint32_t others[] = {1, 2, 4, 3 << 8, UINT32_MAX};
    for (size_t i = 0; i < sizeof others / sizeof others[0]; i++) {
        image_stream stream = image_saying(others[i]);
        mrd_checked refused = mrd_check(PACKED, stream.bytes, length);
        CHECK(refused.refusal == MRD_REFUSED_ATTRIBUTE_LENGTH && refused.record == 1 && refused.byte == IMAGE);
    }
}

/* An 8-byte length of 2^32 or more: over the limit where the header says 0, and its low word is another number. */
static void lengths_past_32_bits(void)
{
    static const struct {
        uint32_t stated;
        uint64_t length;
        uint32_t refusal;
    } rows[] = {
        {0, (UINT64_C(1) << 32) + 5, MRD_REFUSED_TOO_LARGE},
        {5, (UINT64_C(1) << 32) + 5, MRD_REFUSED_ATTRIBUTE_LENGTH},
        {1, (UINT64_C(1) << 32) + 5, MRD_REFUSED_ATTRIBUTE_LENGTH},
        {0, UINT64_C(1) << 32, MRD_REFUSED_TOO_LARGE},
        {0, UINT64_MAX, MRD_REFUSED_TOO_LARGE},
    };
    for (size_t i = 0; i < sizeof rows / sizeof rows[0]; i++) {
        image_stream stream = image_saying(rows[i].stated);
        put(stream.bytes, IMAGE + 200, 8, rows[i].length);
        CHECK(mrd_check(PACKED, stream.bytes, sizeof stream.bytes).refusal == rows[i].refusal);
    }
}

/* The writer does not look at the number and puts the true one. */
static void stated_lengths_written(void)
{
    static const uint32_t given[] = {0, 1, 3, 4, 0xDEADBEEF};
    image_stream normal = image_saying(3);
    for (size_t i = 0; i < sizeof given / sizeof given[0]; i++) {
        image_stream stream = image_saying(given[i]);
        uint8_t out[208 + 3 + 4];
        memset(out, 0xEE, sizeof out);
        mrd_parts parts = {.header = stream.bytes + IMAGE + 2, .header_length = 198,
                           .attributes = (const uint8_t *)"abc", .attributes_length = 3,
                           .pixels = stream.bytes + PIXELS, .pixels_length = 4};
        mrd_put end = mrd_write_parts(PACKED, MRD_ID_IMAGE, &parts, out, sizeof out, 0);
        CHECK(end.refusal == 0 && end.position == sizeof out);
        CHECK(memcmp(out, normal.bytes + IMAGE, sizeof out) == 0);
    }
}

enum {
    WAVEFORM = 6,
    WAVEFORM_HEADER = WAVEFORM + 2,
    WAVEFORM_DATA = WAVEFORM_HEADER + MRD_ALIGNED_WAVEFORM_HEADER_SIZE,
    WAVEFORM_END = WAVEFORM_DATA + 2 * 2 * 4
};

/* A header text, an aligned waveform of 2 samples and 2 channels whose filler has this byte, and the close. Packed, the
 * same bytes are a waveform of 6 samples and 1 channel: 42 + 16 bytes, and 34 + 24. */
typedef struct {
    uint8_t bytes[WAVEFORM_END + 2];
} waveform_stream;

static waveform_stream waveform_filled(uint8_t filler)
{
    waveform_stream stream = {{3, 0}};
    uint8_t *header = stream.bytes + WAVEFORM_HEADER;
    put(stream.bytes, WAVEFORM, 2, MRD_ID_WAVEFORM);
    memset(header, filler, MRD_ALIGNED_WAVEFORM_HEADER_SIZE);
    put(header, MRD_ALIGNED_WAVEFORM_VERSION, 2, 1);
    put(header, MRD_ALIGNED_WAVEFORM_FLAGS, 8, UINT64_C(0x8877665544332211));
    put(header, MRD_ALIGNED_WAVEFORM_MEASUREMENT_UID, 4, 0x89ABCDEF);
    put(header, MRD_ALIGNED_WAVEFORM_SCAN_COUNTER, 4, 6 << 16 | 77); /* packed, its upper half are the samples */
    put(header, MRD_ALIGNED_WAVEFORM_TIME_STAMP, 4, 5 << 16 | 1);    /* and its lower half here the channels */
    put(header, MRD_ALIGNED_WAVEFORM_NUMBER_OF_SAMPLES, 2, 2);
    put(header, MRD_ALIGNED_WAVEFORM_CHANNELS, 2, 2);
    put(header, MRD_ALIGNED_WAVEFORM_SAMPLE_TIME_US, 4, 0x7F800001); /* a signalling NaN */
    put(header, MRD_ALIGNED_WAVEFORM_WAVEFORM_ID, 2, 0x4321);
    memset(stream.bytes + WAVEFORM_DATA, 0x5A, WAVEFORM_END - WAVEFORM_DATA);
    put(stream.bytes, WAVEFORM_END, 2, MRD_ID_CLOSE);
    return stream;
}

/* The elements of that header. At any other offset there is none. */
static const struct {
    size_t offset;
    uint32_t value_type;
    uint64_t whole;
    uint32_t float_bits;
} aligned_elements[] = {
    {MRD_ALIGNED_WAVEFORM_VERSION, MRD_WHOLE, 1, 0},
    {MRD_ALIGNED_WAVEFORM_FLAGS, MRD_WHOLE, UINT64_C(0x8877665544332211), 0},
    {MRD_ALIGNED_WAVEFORM_MEASUREMENT_UID, MRD_WHOLE, 0x89ABCDEF, 0},
    {MRD_ALIGNED_WAVEFORM_SCAN_COUNTER, MRD_WHOLE, 6 << 16 | 77, 0},
    {MRD_ALIGNED_WAVEFORM_TIME_STAMP, MRD_WHOLE, 5 << 16 | 1, 0},
    {MRD_ALIGNED_WAVEFORM_NUMBER_OF_SAMPLES, MRD_WHOLE, 2, 0},
    {MRD_ALIGNED_WAVEFORM_CHANNELS, MRD_WHOLE, 2, 0},
    {MRD_ALIGNED_WAVEFORM_SAMPLE_TIME_US, MRD_FLOAT, 0, 0x7F800001},
    {MRD_ALIGNED_WAVEFORM_WAVEFORM_ID, MRD_WHOLE, 0x4321, 0},
};

/* An aligned stream with its index in both forms, and the rules by which all is asked: aligned, of either profile. */
typedef struct {
    mrd_rules rules;
    waveform_stream stream;
    uint8_t file[23 + 3 * 17];
    uint64_t starts[3];
    uint16_t ids[3];
    uint32_t counters[3];
} aligned_indexed;

#define STREAM_OF(of) (of)->stream.bytes, sizeof(of)->stream.bytes
#define COLUMNS_OF(of) (of)->starts, 3, (of)->ids, 3, (of)->counters, 3

/* The index and what compares it: it has the scan counter of the layout that it was made under, and is no index of the
 * same bytes under the other one. */
static void aligned_index(aligned_indexed *of)
{
    CHECK(mrd_write_index(of->rules, STREAM_OF(of), of->file, sizeof of->file).length == sizeof of->file);
    CHECK(mrd_fill_columns(of->rules, STREAM_OF(of), COLUMNS_OF(of)).length == 3);
    CHECK(of->starts[1] == WAVEFORM && of->ids[1] == MRD_ID_WAVEFORM && of->counters[1] == (6 << 16 | 77));
    CHECK(mrd_index_matches(of->rules, STREAM_OF(of), of->file, sizeof of->file).refusal == MRD_OK);
    CHECK(mrd_columns_match(of->rules, STREAM_OF(of), COLUMNS_OF(of)).refusal == MRD_OK);
    CHECK(mrd_index_matches(PACKED, STREAM_OF(of), of->file, sizeof of->file).refusal == MRD_REFUSED_INDEX_DIFFERS);
    CHECK(mrd_columns_match(PACKED, STREAM_OF(of), COLUMNS_OF(of)).refusal == MRD_REFUSED_INDEX_DIFFERS);
}

static mrd_reply ask_aligned(const aligned_indexed *of, mrd_question question, bool by_file)
{
    return by_file ? mrd_ask_with_file(of->rules, STREAM_OF(of), question, of->file, sizeof of->file)
                   : mrd_ask_with_columns(of->rules, STREAM_OF(of), question, COLUMNS_OF(of));
}

/* Every element at its offset, and 20 at every other, filler and packed offsets among them: by number, at a cursor, and
 * with an index of either form. */
static void aligned_fields(const aligned_indexed *of, mrd_cursor cursor)
{
    enum { ELEMENTS = sizeof aligned_elements / sizeof aligned_elements[0] };
    for (size_t offset = 0; offset < 50; offset++) {
        size_t e = 0;
        while (e < ELEMENTS && aligned_elements[e].offset != offset)
            e++;
        mrd_question question = mrd_question_field(1, offset);
        mrd_field_answer fields[] = {
            mrd_field(of->rules, STREAM_OF(of), 1, offset),
            mrd_field_at(of->rules, STREAM_OF(of), cursor, offset),
            ask_aligned(of, question, true).field,
            ask_aligned(of, question, false).field,
        };
        for (size_t i = 0; i < sizeof fields / sizeof fields[0]; i++) {
            CHECK(fields[i].refusal == (e < ELEMENTS ? MRD_OK : MRD_REFUSED_NO_FIELD));
            if (e < ELEMENTS)
                CHECK(fields[i].value_type == aligned_elements[e].value_type &&
                      fields[i].whole == aligned_elements[e].whole &&
                      fields[i].float_bits == aligned_elements[e].float_bits);
        }
    }
}

/* Place and data: by number, at a cursor of a walk and of the columns, and with an index of either form. */
static void aligned_places(const aligned_indexed *of, mrd_cursor cursor)
{
    static const uint16_t asked[17] = {0};
    mrd_cursor_answer made = mrd_cursor_for(of->rules, of->starts, 3, of->ids, 3, 1);
    CHECK(made.refusal == MRD_OK && made.cursor.start == cursor.start && made.cursor.number == cursor.number);
    mrd_placed placed[] = {
        mrd_place(of->rules, STREAM_OF(of), 1),
        mrd_next(of->rules, STREAM_OF(of), cursor).here,
        ask_aligned(of, mrd_question_place(1), true).place,
        ask_aligned(of, mrd_question_place(1), false).place,
    };
    for (size_t i = 0; i < sizeof placed / sizeof placed[0]; i++)
        CHECK(placed[i].refusal == MRD_OK && placed[i].id == MRD_ID_WAVEFORM && placed[i].start == WAVEFORM &&
              placed[i].size == WAVEFORM_END - WAVEFORM && placed[i].number_of_samples == 2 &&
              placed[i].channels == 2);
    mrd_view_place views[] = {
        mrd_view(of->rules, STREAM_OF(of), 1, MRD_PART_WAVEFORM, 0),
        mrd_view_at(of->rules, STREAM_OF(of), cursor, MRD_PART_WAVEFORM, 0),
        mrd_view_at(of->rules, STREAM_OF(of), made.cursor, MRD_PART_WAVEFORM, 0),
        ask_aligned(of, mrd_question_view(1, MRD_PART_WAVEFORM, 0), true).view,
        ask_aligned(of, mrd_question_view(1, MRD_PART_WAVEFORM, 0), false).view,
    };
    for (size_t i = 0; i < sizeof views / sizeof views[0]; i++)
        CHECK(views[i].refusal == MRD_OK && views[i].start == WAVEFORM_DATA &&
              views[i].length == WAVEFORM_END - WAVEFORM_DATA);
    CHECK(mrd_find(of->rules, STREAM_OF(of), 0, asked).refusal == MRD_REFUSED_NO_RECORD);
    CHECK(mrd_part_at(of->rules, STREAM_OF(of), WAVEFORM_DATA).part == MRD_PART_WAVEFORM);
    CHECK(mrd_part_at(of->rules, STREAM_OF(of), WAVEFORM_DATA - 1).element_size == 0); /* filler */
}

/* Each call once with aligned waveform headers. What filler holds is no part of any answer, and the normal form has it
 * zero. */
static void aligned_waveforms(mrd_rules rules)
{
    for (int filler = 0; filler < 256; filler += 85) {
        aligned_indexed of = {.rules = rules, .stream = waveform_filled((uint8_t)filler)};
        waveform_stream normal = waveform_filled(0), out;
        CHECK(mrd_check(rules, STREAM_OF(&of)).count == 3);
        mrd_step text = mrd_next(rules, STREAM_OF(&of), mrd_beginning());
        CHECK(mrd_check_from(rules, STREAM_OF(&of), text.next).count == 3);
        aligned_index(&of);
        aligned_fields(&of, text.next);
        aligned_places(&of, text.next);
        memset(&out, 0xEE, sizeof out);
        CHECK(mrd_normal_form(rules, STREAM_OF(&of), out.bytes, sizeof out.bytes).length == sizeof out.bytes);
        CHECK(memcmp(&out, &normal, sizeof out) == 0);
        /* A salvage keeps filler as it is. */
        CHECK(is_saved(rules, STREAM_OF(&of), 3, sizeof of.stream.bytes, false));
        CHECK(is_saved(rules, of.stream.bytes, WAVEFORM_END, 2, WAVEFORM_END, true));
        CHECK(is_saved(rules, of.stream.bytes, WAVEFORM_END - 1, 1, WAVEFORM, true));
    }
}

/* The same bytes under both layouts: accepted twice, with other records. Packed, no byte of the header is filler. */
static void one_stream_two_layouts(void)
{
    waveform_stream stream = waveform_filled(0xA5), out;
    const size_t length = sizeof stream.bytes;
    CHECK(mrd_check(PACKED, stream.bytes, length).count == 3 && mrd_check(ALIGNED, stream.bytes, length).count == 3);
    mrd_placed packed = mrd_place(PACKED, stream.bytes, length, 1);
    CHECK(packed.size == WAVEFORM_END - WAVEFORM && packed.number_of_samples == 6 && packed.channels == 1);
    mrd_view_place data = mrd_view(PACKED, stream.bytes, length, 1, MRD_PART_WAVEFORM, 0);
    CHECK(data.start == WAVEFORM_HEADER + MRD_WAVEFORM_HEADER_SIZE && data.length == 24);
    CHECK(mrd_field(PACKED, stream.bytes, length, 1, MRD_WAVEFORM_FLAGS).whole == UINT64_C(0x2211A5A5A5A5A5A5));
    CHECK(mrd_part_at(PACKED, stream.bytes, length, WAVEFORM_DATA - 1).part == MRD_PART_WAVEFORM);
    CHECK(mrd_part_at(PACKED, stream.bytes, length, WAVEFORM_HEADER + 7).element_offset == MRD_WAVEFORM_FLAGS);
    CHECK(mrd_normal_form(PACKED, stream.bytes, length, out.bytes, length).length == length);
    CHECK(memcmp(&out, &stream, sizeof out) == 0);
    CHECK(is_saved(PACKED, stream.bytes, length, 3, length, false));
    CHECK(is_saved(PACKED, stream.bytes, length - 2, 2, length - 2, true));
}

/* A stream of the aligned layout alone: packed, its waveform has one sample more than there are bytes for. */
static void one_layout_alone(void)
{
    static const uint16_t asked[17] = {0};
    waveform_stream stream = waveform_filled(0xA5);
    const size_t length = sizeof stream.bytes;
    put(stream.bytes, WAVEFORM_HEADER + MRD_WAVEFORM_NUMBER_OF_SAMPLES, 2, 7);
    mrd_cursor second = mrd_next(ALIGNED, stream.bytes, length, mrd_beginning()).next;
    CHECK(mrd_check(ALIGNED, stream.bytes, length).count == 3);
    CHECK(mrd_check(PACKED, stream.bytes, length).refusal == MRD_REFUSED_MESSAGE_CUT);
    CHECK(mrd_check_from(ALIGNED, stream.bytes, length, second).count == 3);
    CHECK(mrd_check_from(PACKED, stream.bytes, length, second).refusal == MRD_REFUSED_MESSAGE_CUT);
    CHECK(mrd_find(ALIGNED, stream.bytes, length, 0, asked).refusal == MRD_REFUSED_NO_RECORD);
    CHECK(mrd_find(PACKED, stream.bytes, length, 0, asked).refusal == MRD_REFUSED_MESSAGE_CUT);
    CHECK(is_saved(ALIGNED, stream.bytes, length, 3, length, false));
    CHECK(is_saved(PACKED, stream.bytes, length, 1, WAVEFORM, true));
}

/* An aligned header has 40 bytes before there is anything to judge in it. */
static void aligned_refusals(void)
{
    waveform_stream stream = waveform_filled(0xA5);
    mrd_checked cut = mrd_check(ALIGNED, stream.bytes, WAVEFORM_HEADER + 39);
    CHECK(cut.refusal == MRD_REFUSED_FIXED_PART_CUT && cut.record == 1 && cut.byte == WAVEFORM);
    CHECK(mrd_check(PACKED, stream.bytes, WAVEFORM_HEADER + 39).refusal == MRD_REFUSED_MESSAGE_CUT);
    CHECK(mrd_check(ALIGNED, stream.bytes, WAVEFORM_HEADER + 40).refusal == MRD_REFUSED_MESSAGE_CUT);
    put(stream.bytes, WAVEFORM_HEADER + MRD_ALIGNED_WAVEFORM_VERSION, 2, 2);
    CHECK(mrd_check(ALIGNED, stream.bytes, WAVEFORM_HEADER + 40).refusal == MRD_REFUSED_VERSION);
}

/* The writer takes a header of 40 bytes and makes its filler zero; one of the other layout's size is 3. */
static void aligned_written(void)
{
    waveform_stream given = waveform_filled(0xA5), normal = waveform_filled(0);
    uint8_t out[WAVEFORM_END - WAVEFORM], kept[sizeof out];
    memset(out, 0xEE, sizeof out);
    memcpy(kept, out, sizeof out);
    mrd_parts parts = {.header = given.bytes + WAVEFORM_HEADER, .header_length = 32,
                       .waveform = given.bytes + WAVEFORM_DATA, .waveform_length = 16};
    CHECK(mrd_write_parts(ALIGNED, MRD_ID_WAVEFORM, &parts, out, sizeof out, 0).refusal == MRD_REFUSED_FIXED_PART_CUT);
    parts.header_length = 40;
    CHECK(mrd_write_parts(PACKED, MRD_ID_WAVEFORM, &parts, out, sizeof out, 0).refusal == MRD_REFUSED_FIXED_PART_CUT);
    CHECK(memcmp(out, kept, sizeof out) == 0);
    CHECK(mrd_write_parts(ALIGNED, MRD_ID_WAVEFORM, &parts, out, sizeof out, 0).position == sizeof out);
    CHECK(memcmp(out, normal.bytes + WAVEFORM, sizeof out) == 0);
}

/* ---- The strict profile ---- */

/* A text by its bytes, which may have a zero among them. */
typedef struct {
    const char *bytes;
    size_t length;
} text_bytes;

#define TEXT(literal) {literal, sizeof literal - 1}

/* Well formed by RFC 3629: the first and the last character of each length and of each row of its table, U+FEFF, and a
 * noncharacter. */
static const text_bytes WELL_FORMED[] = {
    TEXT(""),
    TEXT("radial"),
    TEXT("\x7F"),
    TEXT("\xC2\x80"),
    TEXT("\xDF\xBF"),
    TEXT("\xE0\xA0\x80"),
    TEXT("\xE1\x80\x80"),
    TEXT("\xED\x9F\xBF"),
    TEXT("\xEE\x80\x80"),
    TEXT("\xEF\xBB\xBF"),
    TEXT("\xEF\xBF\xBF"),
    TEXT("\xF0\x90\x80\x80"),
    TEXT("\xF1\x80\x80\x80"),
    TEXT("\xF4\x8F\xBF\xBF"),
    TEXT("m\xC3\xA9t\xC3\xA9o \xE2\x82\xAC \xF0\x9F\xA7\xB2"),
};

/* Not well formed: a byte that begins no character, overlong forms, surrogates, numbers above U+10FFFF, characters cut
 * short by the end or by another one, and bytes that no text has. */
static const text_bytes NOT_WELL_FORMED[] = {
    TEXT("\x80"),
    TEXT("a\xBF"),
    TEXT("\xC0\x80"),
    TEXT("\xC1\xBF"),
    TEXT("\xE0\x9F\xBF"),
    TEXT("\xF0\x8F\xBF\xBF"),
    TEXT("\xED\xA0\x80"),
    TEXT("\xED\xBF\xBF"),
    TEXT("\xF4\x90\x80\x80"),
    TEXT("\xF5\x80\x80\x80"),
    TEXT("caf\xE9"),
    TEXT("\xC3"),
    TEXT("\xE2\x82"),
    TEXT("\xF0\x9F\xA7"),
    TEXT("\xC3\xC3\xA9"),
    TEXT("\xE2\x82 "),
    TEXT("\xF0\x9F\xA7z"),
    TEXT("\xC3\xA9\xA9"),
    TEXT("\xFE"),
    TEXT("plain for long enough that a word of eight bytes is read at once\xFF"),
};

enum {
    WELL = sizeof WELL_FORMED / sizeof WELL_FORMED[0],
    NOT_WELL = sizeof NOT_WELL_FORMED / sizeof NOT_WELL_FORMED[0]
};

/* The five kinds that have a text. A stream has one of the first two. */
static const uint16_t TEXT_KINDS[] = {MRD_ID_CONFIGURATION_NAME, MRD_ID_CONFIGURATION_TEXT, MRD_ID_HEADER_TEXT,
                                      MRD_ID_TEXT, MRD_ID_IMAGE};
enum { KINDS = sizeof TEXT_KINDS / sizeof TEXT_KINDS[0], TEXT_RECORDS = 5 };

/* A message of one of these kinds with this text. The image has no pixels. */
static mrd_put write_text(mrd_rules rules, uint16_t id, text_bytes text, uint8_t *out, size_t room, size_t position)
{
    static const uint8_t header[198] = {1, 0, 1};
    const uint8_t *bytes = (const uint8_t *)text.bytes;
    mrd_parts parts = {0};
    if (id == MRD_ID_CONFIGURATION_NAME) {
        parts.name = bytes;
        parts.name_length = text.length;
    } else if (id == MRD_ID_IMAGE) {
        parts.header = header;
        parts.header_length = sizeof header;
        parts.attributes = bytes;
        parts.attributes_length = text.length;
    } else {
        parts.text = bytes;
        parts.text_length = text.length;
    }
    return mrd_write_parts(rules, id, &parts, out, room, position);
}

/* A configuration, a header text, a text, an image and the close, and where each of them starts. */
typedef struct {
    uint8_t bytes[2000];
    size_t length, starts[TEXT_RECORDS];
} text_stream;

/* The stream in which the message of this kind has this text, and every other one `other`; the message's record number
 * is `record`. */
static text_stream text_stream_of(uint16_t kind, text_bytes text, text_bytes other, size_t *record)
{
    text_stream stream = {.length = 0};
    size_t n = 0;
    uint16_t unused = kind == MRD_ID_CONFIGURATION_TEXT ? MRD_ID_CONFIGURATION_NAME : MRD_ID_CONFIGURATION_TEXT;
    for (size_t k = 0; k < KINDS; k++) {
        uint16_t id = TEXT_KINDS[k];
        if (id == unused)
            continue;
        if (id == kind)
            *record = n;
        stream.starts[n++] = stream.length;
        text_bytes its = id == kind ? text : other;
        mrd_put end = write_text(PACKED, id, its, stream.bytes, sizeof stream.bytes, stream.length);
        CHECK(end.refusal == MRD_OK);
        stream.length = end.position;
    }
    stream.starts[n] = stream.length;
    put(stream.bytes, stream.length, 2, MRD_ID_CLOSE);
    stream.length += 2;
    return stream;
}

/* Its index in both forms, made by the plain profile, which has any bytes for a text. */
typedef struct {
    uint8_t file[23 + 17 * TEXT_RECORDS];
    uint64_t starts[TEXT_RECORDS];
    uint16_t ids[TEXT_RECORDS];
    uint32_t counters[TEXT_RECORDS];
} text_index;

#define ALL_COLUMNS(of) (of)->starts, TEXT_RECORDS, (of)->ids, TEXT_RECORDS, (of)->counters, TEXT_RECORDS

static text_index text_index_of(const text_stream *stream)
{
    text_index of;
    const uint8_t *s = stream->bytes;
    size_t n = stream->length;
    CHECK(mrd_check(PACKED, s, n).count == TEXT_RECORDS);
    CHECK(mrd_write_index(PACKED, s, n, of.file, sizeof of.file).length == sizeof of.file);
    CHECK(mrd_fill_columns(PACKED, s, n, ALL_COLUMNS(&of)).length == TEXT_RECORDS);
    return of;
}

/* Where a call refuses a stream: every answer about one has these three. */
#define WHERE(answer) ((mrd_matched){(answer).refusal, (answer).record, (answer).byte})

/* Each call about a stream refuses it with 21 and says where, and none writes anything; but for the salvage. */
static void each_call_refuses(mrd_rules rules, const text_stream *stream, size_t record)
{
    static const uint16_t asked[17] = {0};
    text_index of = text_index_of(stream), out;
    static uint8_t normal[sizeof stream->bytes];
    const uint8_t *s = stream->bytes;
    size_t n = stream->length;
    mrd_cursor at = mrd_cursor_for(rules, of.starts, TEXT_RECORDS, of.ids, TEXT_RECORDS, record).cursor;
    memset(&out, 0xEE, sizeof out);
    memset(normal, 0xEE, sizeof normal);
    text_index kept = out;
    mrd_question place = mrd_question_place(0), view = mrd_question_view(record, MRD_PART_TEXT, 0),
                 field = mrd_question_field(9, 0), find = mrd_question_find(0, asked);
    mrd_matched answers[] = {
        WHERE(mrd_check(rules, s, n)),
        WHERE(mrd_check_from(rules, s, n, mrd_beginning())),
        WHERE(mrd_check_from(rules, s, n, at)),
        WHERE(mrd_next(rules, s, n, at).answer),
        WHERE(mrd_place(rules, s, n, 0)),
        WHERE(mrd_view(rules, s, n, record, MRD_PART_TEXT, 0)),
        WHERE(mrd_view_at(rules, s, n, at, MRD_PART_TEXT, 0)),
        WHERE(mrd_field(rules, s, n, 9, 0)),
        WHERE(mrd_field_at(rules, s, n, at, 0)),
        WHERE(mrd_find(rules, s, n, 0, asked)),
        WHERE(mrd_part_at(rules, s, n, 0)),
        WHERE(mrd_part_at(rules, s, n, n)),
        WHERE(mrd_ask_with_file(rules, s, n, place, of.file, sizeof of.file)),
        WHERE(mrd_ask_with_file(rules, s, n, view, of.file, sizeof of.file)),
        WHERE(mrd_ask_with_file(rules, s, n, field, of.file, 0)),
        WHERE(mrd_ask_with_file(rules, s, n, find, of.file, 0)),
        WHERE(mrd_ask_with_columns(rules, s, n, place, ALL_COLUMNS(&of))),
        WHERE(mrd_ask_with_columns(rules, s, n, view, ALL_COLUMNS(&of))),
        WHERE(mrd_ask_with_columns(rules, s, n, field, ALL_COLUMNS(&kept))),
        WHERE(mrd_ask_with_columns(rules, s, n, find, ALL_COLUMNS(&kept))),
        WHERE(mrd_index_matches(rules, s, n, of.file, sizeof of.file)),
        WHERE(mrd_columns_match(rules, s, n, ALL_COLUMNS(&of))),
        WHERE(mrd_normal_form(rules, s, n, normal, sizeof normal)),
        WHERE(mrd_write_index(rules, s, n, out.file, sizeof out.file)),
        WHERE(mrd_fill_columns(rules, s, n, ALL_COLUMNS(&out))),
    };
    for (size_t i = 0; i < sizeof answers / sizeof answers[0]; i++)
        CHECK(answers[i].refusal == MRD_REFUSED_TEXT_NOT_UTF8 && answers[i].record == record &&
              answers[i].byte == stream->starts[record]);
    CHECK(memcmp(out.file, kept.file, sizeof out.file) == 0 && memcmp(out.starts, kept.starts, sizeof out.starts) == 0);
    CHECK(memcmp(out.ids, kept.ids, sizeof out.ids) == 0 &&
          memcmp(out.counters, kept.counters, sizeof out.counters) == 0);
    CHECK(normal[0] == 0xEE && normal[n - 1] == 0xEE);
    /* What stands before it can be saved. */
    CHECK(is_saved(rules, s, n, record, stream->starts[record], true));
}

/* The record's id, its text, which the view shows, and the byte past the end. */
static void bytes_have_parts(mrd_rules rules, const text_stream *stream, size_t record, uint32_t part,
                             mrd_view_place view)
{
    const uint8_t *s = stream->bytes;
    size_t n = stream->length;
    CHECK(mrd_part_at(rules, s, n, stream->starts[record]).place.number == record);
    CHECK(mrd_part_at(rules, s, n, stream->starts[record] + 1).part == MRD_PART_ID);
    CHECK(view.length == 0 || mrd_part_at(rules, s, n, view.start).part == part);
    CHECK(mrd_part_at(rules, s, n, n).refusal == MRD_REFUSED_NO_RECORD);
}

/* Each call about a stream whose texts are UTF-8 answers what it does by the plain profile. */
static void each_call_accepts(mrd_rules rules, const text_stream *stream, size_t record)
{
    static const uint16_t asked[17] = {0};
    text_index of = text_index_of(stream), out;
    static uint8_t normal[sizeof stream->bytes];
    const uint8_t *s = stream->bytes;
    size_t n = stream->length;
    uint32_t part = of.ids[record] == MRD_ID_CONFIGURATION_NAME ? MRD_PART_NAME
                    : of.ids[record] == MRD_ID_IMAGE            ? MRD_PART_ATTRIBUTES
                                                                : MRD_PART_TEXT;
    mrd_view_place plain = mrd_view(PACKED, s, n, record, part, 0);
    mrd_cursor at = mrd_cursor_for(rules, of.starts, TEXT_RECORDS, of.ids, TEXT_RECORDS, record).cursor;
    CHECK(mrd_check(rules, s, n).count == TEXT_RECORDS);
    CHECK(mrd_check_from(rules, s, n, at).count == TEXT_RECORDS);
    CHECK(mrd_next(rules, s, n, at).here.start == stream->starts[record]);
    CHECK(mrd_place(rules, s, n, record).start == stream->starts[record]);
    mrd_question view = mrd_question_view(record, part, 0);
    mrd_view_place views[] = {
        mrd_view(rules, s, n, record, part, 0),
        mrd_view_at(rules, s, n, at, part, 0),
        mrd_ask_with_file(rules, s, n, view, of.file, sizeof of.file).view,
        mrd_ask_with_columns(rules, s, n, view, ALL_COLUMNS(&of)).view,
    };
    for (size_t i = 0; i < sizeof views / sizeof views[0]; i++)
        CHECK(views[i].refusal == MRD_OK && views[i].start == plain.start && views[i].length == plain.length);
    CHECK(mrd_field(rules, s, n, 3, MRD_IMAGE_VERSION).whole == 1);
    CHECK(mrd_field_at(rules, s, n, at, MRD_IMAGE_VERSION).refusal ==
          (part == MRD_PART_ATTRIBUTES ? MRD_OK : MRD_REFUSED_NO_FIELD));
    CHECK(mrd_find(rules, s, n, 0, asked).refusal == MRD_REFUSED_NO_RECORD);
    bytes_have_parts(rules, stream, record, part, plain);
    CHECK(mrd_index_matches(rules, s, n, of.file, sizeof of.file).refusal == MRD_OK);
    CHECK(mrd_columns_match(rules, s, n, ALL_COLUMNS(&of)).refusal == MRD_OK);
    CHECK(mrd_normal_form(rules, s, n, normal, sizeof normal).length == n && memcmp(normal, s, n) == 0);
    CHECK(mrd_write_index(rules, s, n, out.file, sizeof out.file).length == sizeof out.file);
    CHECK(memcmp(out.file, of.file, sizeof out.file) == 0);
    CHECK(mrd_fill_columns(rules, s, n, ALL_COLUMNS(&out)).length == TEXT_RECORDS);
    CHECK(memcmp(out.starts, of.starts, sizeof out.starts) == 0);
    CHECK(is_saved(rules, s, n, TEXT_RECORDS, n, false));
    CHECK(is_saved(rules, s, n - 1, TEXT_RECORDS - 1, n - 2, true));
}

/* Every text in every kind that has one, by both profiles and both layouts. */
static void strict_texts(void)
{
    static const text_bytes other = TEXT("\xC3\xA9"), latin1 = TEXT("caf\xE9");
    for (size_t k = 0; k < KINDS; k++) {
        size_t record = 0;
        for (size_t i = 0; i < WELL; i++) {
            text_stream stream = text_stream_of(TEXT_KINDS[k], WELL_FORMED[i], other, &record);
            each_call_accepts(STRICT, &stream, record);
            each_call_accepts(STRICT_ALIGNED, &stream, record);
        }
        for (size_t i = 0; i < NOT_WELL; i++) {
            text_stream stream = text_stream_of(TEXT_KINDS[k], NOT_WELL_FORMED[i], other, &record);
            each_call_accepts(PACKED, &stream, record);
            each_call_accepts(ALIGNED, &stream, record);
            each_call_refuses(STRICT, &stream, record);
            each_call_refuses(STRICT_ALIGNED, &stream, record);
        }
        /* The first text that is not UTF-8 decides. */
        text_stream stream = text_stream_of(TEXT_KINDS[k], other, latin1, &record);
        mrd_checked first = mrd_check(STRICT, stream.bytes, stream.length);
        CHECK(first.refusal == MRD_REFUSED_TEXT_NOT_UTF8 && first.record == (record == 0 ? 1 : 0));
    }
}

/* What follows a name's zero is no text; what comes before it is, to its last byte. A text may hold a zero. */
static void zeros_in_texts(void)
{
    static const text_bytes zeros = {"a\0b\0", 4}, name = TEXT("radial");
    size_t record = 0;
    text_stream stream = text_stream_of(MRD_ID_CONFIGURATION_NAME, name, zeros, &record);
    CHECK(mrd_check(STRICT, stream.bytes, stream.length).count == TEXT_RECORDS);
    memset(stream.bytes + 2 + 7, 0xFF, 1024 - 7);
    CHECK(mrd_check(STRICT, stream.bytes, stream.length).count == TEXT_RECORDS);
    /* U+00E9 with the zero in its middle. */
    memcpy(stream.bytes + 2 + 5, "\xC3\0\xA9", 3);
    CHECK(mrd_check(PACKED, stream.bytes, stream.length).count == TEXT_RECORDS);
    CHECK(mrd_check(STRICT, stream.bytes, stream.length).refusal == MRD_REFUSED_TEXT_NOT_UTF8);
}

/* 21 comes after all else about its message, and before anything about a later one. */
static void strict_order(void)
{
    static const uint8_t bad[] = {5, 0, 2, 0, 0, 0, 0xFF, 'a', 6, 0};
    CHECK(mrd_check(STRICT, bad, 7).refusal == MRD_REFUSED_MESSAGE_CUT);
    CHECK(mrd_check(STRICT, bad, 8).refusal == MRD_REFUSED_TEXT_NOT_UTF8);
    CHECK(mrd_check(STRICT, bad, 9).refusal == MRD_REFUSED_TEXT_NOT_UTF8);
    mrd_checked plain = mrd_check(PACKED, bad, 10);
    CHECK(plain.refusal == MRD_REFUSED_UNKNOWN_ID && plain.record == 1 && plain.byte == 8);
    /* A character does not run from one message into the next. */
    static const uint8_t split[] = {5, 0, 1, 0, 0, 0, 0xC3, 5, 0, 1, 0, 0, 0, 0xA9, 4, 0};
    CHECK(mrd_check(PACKED, split, sizeof split).count == 3);
    mrd_checked first = mrd_check(STRICT, split, sizeof split);
    CHECK(first.refusal == MRD_REFUSED_TEXT_NOT_UTF8 && first.record == 0 && first.byte == 0);
    mrd_cursor second = mrd_next(PACKED, split, sizeof split, mrd_beginning()).next;
    mrd_checked then = mrd_check_from(STRICT, split, sizeof split, second);
    CHECK(then.refusal == MRD_REFUSED_TEXT_NOT_UTF8 && then.record == 1 && then.byte == 7);
}

/* The writer's 21: each text in each kind, with room and without. What it refuses leaves the output as it was. */
static void strict_written(void)
{
    uint8_t out[1100], kept[sizeof out], plain[sizeof out];
    for (size_t k = 0; k < KINDS; k++) {
        for (size_t i = 0; i < WELL; i++) {
            memset(out, 0xEE, sizeof out);
            memset(plain, 0xEE, sizeof plain);
            mrd_put end = write_text(STRICT, TEXT_KINDS[k], WELL_FORMED[i], out, sizeof out, 3);
            CHECK(end.refusal == MRD_OK);
            CHECK(end.position == write_text(PACKED, TEXT_KINDS[k], WELL_FORMED[i], plain, sizeof plain, 3).position);
            CHECK(memcmp(out, plain, sizeof out) == 0);
            CHECK(write_text(STRICT, TEXT_KINDS[k], WELL_FORMED[i], out, 5, 0).refusal == MRD_REFUSED_OUTPUT_SHORT);
        }
        for (size_t i = 0; i < NOT_WELL; i++) {
            memset(out, 0xEE, sizeof out);
            memset(kept, 0xEE, sizeof kept);
            text_bytes text = NOT_WELL_FORMED[i];
            CHECK(write_text(STRICT, TEXT_KINDS[k], text, out, sizeof out, 3).refusal == MRD_REFUSED_TEXT_NOT_UTF8);
            CHECK(write_text(STRICT_ALIGNED, TEXT_KINDS[k], text, out, 5, SIZE_MAX).refusal ==
                  MRD_REFUSED_TEXT_NOT_UTF8);
            CHECK(memcmp(out, kept, sizeof out) == 0);
            CHECK(write_text(PACKED, TEXT_KINDS[k], text, out, 5, 0).refusal == MRD_REFUSED_OUTPUT_SHORT);
            CHECK(write_text(PACKED, TEXT_KINDS[k], text, out, sizeof out, 3).refusal == MRD_OK);
        }
    }
}

/* 5 and 18 come before 21, and 21 before 14; what is no text may have any bytes. */
static void strict_written_order(void)
{
    static const uint8_t bad[] = {0xFF, 0xFF, 0xFF, 0xFF};
    uint8_t out[400], header[340] = {1};
    mrd_parts parts = {.text = bad, .text_length = 4};
    CHECK(mrd_write_parts(STRICT, MRD_ID_TEXT, &parts, out, 0, 0).refusal == MRD_REFUSED_TEXT_NOT_UTF8);
    CHECK(mrd_write_parts(PACKED, MRD_ID_TEXT, &parts, out, 0, 0).refusal == MRD_REFUSED_OUTPUT_SHORT);
    CHECK(mrd_write_parts(STRICT, MRD_ID_CLOSE, &parts, out, 0, 0).refusal == MRD_REFUSED_BODY_LENGTH);
    parts.waveform = bad;
    parts.waveform_length = 4;
    CHECK(mrd_write_parts(STRICT, MRD_ID_TEXT, &parts, out, 0, 0).refusal == MRD_REFUSED_BODY_LENGTH);
    static const uint8_t holds_zero[] = {0xFF, 0};
    mrd_parts name = {.name = holds_zero, .name_length = 2};
    CHECK(mrd_write_parts(STRICT, MRD_ID_CONFIGURATION_NAME, &name, out, 0, 0).refusal == MRD_REFUSED_NAME);
    put(header, MRD_WAVEFORM_NUMBER_OF_SAMPLES, 2, 1);
    put(header, MRD_WAVEFORM_CHANNELS, 2, 1);
    mrd_parts data = {.header = header, .header_length = MRD_WAVEFORM_HEADER_SIZE, .waveform = bad,
                      .waveform_length = 4};
    CHECK(mrd_write_parts(STRICT, MRD_ID_WAVEFORM, &data, out, sizeof out, 0).position == 2 + 32 + 4);
}

/* A walk hands out each record once and then the answer; from any cursor there is one. */
static void walk(void)
{
    mrd_step first = mrd_next(PACKED, TWO_RECORDS, 8, mrd_beginning());
    CHECK(!first.ended && first.here.id == 3 && first.here.size == 6 && first.next.phase == 2);
    mrd_step second = mrd_next(PACKED, TWO_RECORDS, 8, first.next);
    CHECK(!second.ended && second.here.id == 4 && second.here.start == 6 && second.next.phase == 3);
    mrd_step end = mrd_next(PACKED, TWO_RECORDS, 8, second.next);
    CHECK(end.ended && end.answer.refusal == 0 && end.answer.count == 2);
    CHECK(mrd_check_from(PACKED, TWO_RECORDS, 8, first.next).count == 2);
    mrd_cursor over = {7, 6, 400};
    mrd_checked answer = mrd_check_from(PACKED, TWO_RECORDS, 8, over);
    CHECK(answer.refusal == MRD_REFUSED_ORDER && answer.record == 7 && answer.byte == 6);
    mrd_cursor past = {1000000, SIZE_MAX, 0};
    CHECK(mrd_next(PACKED, TWO_RECORDS, 8, past).answer.refusal == MRD_REFUSED_NO_CLOSE);
}

/* Where a walk stands, views and fields are those by number. */
static void where_a_walk_stands(void)
{
    mrd_cursor first = mrd_beginning();
    mrd_cursor second = mrd_next(PACKED, TWO_RECORDS, 8, first).next;
    mrd_cursor end = mrd_next(PACKED, TWO_RECORDS, 8, second).next;
    mrd_view_place text = mrd_view_at(PACKED, TWO_RECORDS, 8, first, MRD_PART_TEXT, 0);
    CHECK(text.refusal == 0 && text.start == 6 && text.length == 0);
    CHECK(mrd_view_at(PACKED, TWO_RECORDS, 8, second, MRD_PART_TEXT, 0).refusal == MRD_REFUSED_NO_PART);
    CHECK(mrd_view_at(PACKED, TWO_RECORDS, 8, end, MRD_PART_TEXT, 0).refusal == MRD_REFUSED_NO_RECORD);
    CHECK(mrd_field_at(PACKED, TWO_RECORDS, 8, first, 0).refusal == MRD_REFUSED_NO_FIELD);
    mrd_field_answer cut = mrd_field_at(PACKED, TWO_RECORDS, 7, second, 0);
    CHECK(cut.refusal == MRD_REFUSED_ID_CUT && cut.record == 1 && cut.byte == 6);
}

/* A cursor made from the stream's columns: there too views and fields are those by number; 16 past a column. */
static void where_the_columns_say(void)
{
    uint64_t starts[2];
    uint16_t ids[2];
    uint32_t counters[2];
    CHECK(mrd_fill_columns(PACKED, TWO_RECORDS, 8, starts, 2, ids, 2, counters, 2).length == 2);
    mrd_cursor_answer first = mrd_cursor_for(PACKED, starts, 2, ids, 2, 0);
    CHECK(first.refusal == 0 && first.cursor.number == 0 && first.cursor.start == 0 && first.cursor.phase == 0);
    CHECK(mrd_view_at(PACKED, TWO_RECORDS, 8, first.cursor, MRD_PART_TEXT, 0).start == 6);
    mrd_cursor_answer second = mrd_cursor_for(PACKED, starts, 2, ids, 2, 1);
    CHECK(second.refusal == 0 && second.cursor.number == 1 && second.cursor.start == 6 && second.cursor.phase == 2);
    CHECK(mrd_field_at(PACKED, TWO_RECORDS, 8, second.cursor, 0).refusal == MRD_REFUSED_NO_FIELD);
    CHECK(mrd_cursor_for(PACKED, starts, 1, ids, 2, 1).refusal == MRD_REFUSED_NO_RECORD);
    CHECK(mrd_cursor_for(PACKED, starts, 2, ids, 1, 1).refusal == MRD_REFUSED_NO_RECORD);
    CHECK(mrd_cursor_for(PACKED, NULL, 0, NULL, 0, SIZE_MAX).cursor.start == 0);
}

int main(void)
{
    answers();
    written_reads_back();
    writer_refuses();
    flags_and_counters();
    index_file();
    index_columns();
    refused_views();
    one_normal_form();
    fields_and_find();
    masks();
    stated_lengths();
    lengths_past_32_bits();
    stated_lengths_written();
    aligned_waveforms(ALIGNED);
    aligned_waveforms(STRICT_ALIGNED);
    one_stream_two_layouts();
    one_layout_alone();
    aligned_refusals();
    aligned_written();
    strict_texts();
    zeros_in_texts();
    strict_order();
    strict_written();
    strict_written_order();
    walk();
    where_a_walk_stands();
    where_the_columns_say();
    if (failures == 0)
        printf("paper.c: ok, %d checks\n", checks);
    else
        printf("paper.c: %d of %d checks failed\n", failures, checks);
    return failures != 0;
}
