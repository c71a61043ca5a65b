/* Which record and part each byte belongs to: every byte of a stream with all kinds, under both layouts of waveform
 * headers and both profiles of texts, beside answers worked by hand from documents 01 and 02; the views, each of which
 * is its part; refused streams, and bytes past the end. */
#include "cotterleaf.h"

#include <stdio.h>
#include <string.h>

static int checks, failures;

/* Goes on after a failure, so that one run shows several of them. */
#define CHECK(condition)                                                           \
    do {                                                                           \
        checks++;                                                                  \
        if (!(condition) && failures++ < 20)                                       \
            printf("line %d of part_at.c fails: %s\n", __LINE__, #condition);      \
    } while (0)

/* A part of the stream below as it lies with packed waveform headers. */
typedef struct {
    size_t record;
    uint32_t part;
    size_t channel, start, length;
} part_row;

/* The parts that hold bytes, in their order, as the paper's table of kinds has them. Neither the empty text of record 2
 * nor the empty trajectories of records 4 and 5 are here, nor the 0 samples of record 5's three channels, nor what the
 * image 7 and the waveform 9 have none of. */
static const part_row PARTS[] = {
    {0, MRD_PART_ID, 0, 0, 2},              /* a text */
    {0, MRD_PART_LENGTH, 0, 2, 4},
    {0, MRD_PART_TEXT, 0, 6, 2},            /* "hi" */
    {1, MRD_PART_ID, 0, 8, 2},              /* a configuration name */
    {1, MRD_PART_NAME, 0, 10, 6},           /* "radial" */
    {1, MRD_PART_NAME_REST, 0, 16, 1018},   /* 1,024 - 6, its zero included */
    {2, MRD_PART_ID, 0, 1034, 2},           /* a header text */
    {2, MRD_PART_LENGTH, 0, 1036, 4},       /* 0 */
    {3, MRD_PART_ID, 0, 1040, 2},           /* an acquisition of 3 samples, 2 channels, 1 dimension */
    {3, MRD_PART_HEADER, 0, 1042, 340},
    {3, MRD_PART_TRAJECTORY, 0, 1382, 12},  /* 3 x 1 x 4 */
    {3, MRD_PART_CHANNEL, 0, 1394, 24},     /* 3 x 8 */
    {3, MRD_PART_CHANNEL, 1, 1418, 24},     /* 3 x 8 */
    {4, MRD_PART_ID, 0, 1442, 2},           /* one of 2 samples, 1 channel, 0 dimensions */
    {4, MRD_PART_HEADER, 0, 1444, 340},
    {4, MRD_PART_CHANNEL, 0, 1784, 16},     /* 2 x 8 */
    {5, MRD_PART_ID, 0, 1800, 2},           /* one of 0 samples, 3 channels, 2 dimensions */
    {5, MRD_PART_HEADER, 0, 1802, 340},
    {6, MRD_PART_ID, 0, 2142, 2},           /* an image of 2 x 1 x 1 pixels of type 1 and 1 channel */
    {6, MRD_PART_HEADER, 0, 2144, 198},
    {6, MRD_PART_LENGTH, 0, 2342, 8},       /* 3 */
    {6, MRD_PART_ATTRIBUTES, 0, 2350, 3},   /* "abc" */
    {6, MRD_PART_PIXELS, 0, 2353, 4},       /* 2 x 2 */
    {7, MRD_PART_ID, 0, 2357, 2},           /* an image without attributes and pixels */
    {7, MRD_PART_HEADER, 0, 2359, 198},
    {7, MRD_PART_LENGTH, 0, 2557, 8},       /* 0 */
    {8, MRD_PART_ID, 0, 2565, 2},           /* a waveform of 2 samples and 2 channels */
    {8, MRD_PART_HEADER, 0, 2567, 32},      /* aligned 40 */
    {8, MRD_PART_WAVEFORM, 0, 2599, 16},    /* 2 x 2 x 4 */
    {9, MRD_PART_ID, 0, 2615, 2},           /* a waveform without data */
    {9, MRD_PART_HEADER, 0, 2617, 32},      /* aligned 40 */
    {10, MRD_PART_ID, 0, 2649, 2},          /* the close */
};

enum { ROWS = sizeof PARTS / sizeof PARTS[0], RECORDS = 11, LENGTH = 2651, ALIGNED_LENGTH = LENGTH + 2 * 8 };

/* The parts as the layout has them: an aligned waveform header is 8 bytes longer, and what follows lies further on. */
static void lay_out(bool aligned, part_row parts[ROWS])
{
    size_t further = 0;
    for (size_t i = 0; i < ROWS; i++) {
        parts[i] = PARTS[i];
        parts[i].start += further;
        if (aligned && parts[i].part == MRD_PART_HEADER && parts[i].record >= 8) {
            parts[i].length += 8;
            further += 8;
        }
    }
}

/* Elements of one size that adjoin. */
typedef struct {
    size_t offset, count, size;
} run;

static const run ACQUISITION[] = {{0, 1, 2},   {2, 1, 8},    {10, 6, 4},   {34, 3, 2},  {40, 16, 8},
                                  {168, 5, 2}, {178, 16, 4}, {242, 17, 2}, {276, 16, 4}, {0, 0, 0}};
static const run IMAGE[] = {{0, 2, 2},  {4, 1, 8},  {12, 1, 4},  {16, 3, 2},  {22, 3, 4},   {34, 1, 2},
                            {36, 15, 4}, {96, 6, 2}, {108, 4, 4}, {124, 3, 2}, {130, 17, 4}, {0, 0, 0}};
static const run PACKED_WAVEFORM[] = {{0, 1, 2},  {2, 1, 8},  {10, 3, 4}, {22, 2, 2},
                                      {26, 1, 4}, {30, 1, 2}, {0, 0, 0}};
static const run ALIGNED_WAVEFORM[] = {{0, 1, 2},  {8, 1, 8},  {16, 3, 4}, {28, 2, 2},
                                       {32, 1, 4}, {36, 1, 2}, {0, 0, 0}};

/* The elements of a record's header. */
static const run *runs_of(size_t record, bool aligned)
{
    if (record < 6)
        return ACQUISITION;
    if (record < 8)
        return IMAGE;
    return aligned ? ALIGNED_WAVEFORM : PACKED_WAVEFORM;
}

/* The element that has this byte of a header: where it starts and its size, both 0 where the byte is filler. */
static run element_at(const run *runs, size_t at)
{
    for (; runs->count != 0; runs++) {
        size_t end = runs->offset + runs->count * runs->size;
        if (runs->offset <= at && at < end)
            return (run){at - (at - runs->offset) % runs->size, 1, runs->size};
    }
    return (run){0, 0, 0};
}

static uint8_t stream[ALIGNED_LENGTH + 1];
static size_t length;

static void append(const void *bytes, size_t count)
{
    memcpy(stream + length, bytes, count);
    length += count;
}

static void put(uint8_t *bytes, size_t at, int width, uint64_t number)
{
    for (int i = 0; i < width; i++)
        bytes[at + (size_t)i] = (uint8_t)(number >> (8 * i));
}

static void append_number(int width, uint64_t number)
{
    uint8_t bytes[8];
    put(bytes, 0, width, number);
    append(bytes, (size_t)width);
}

/* So many bytes of data; no text is here. */
static void append_data(size_t count)
{
    memset(stream + length, 0xD7, count);
    length += count;
}

static void append_text(uint16_t id, const char *text)
{
    append_number(2, id);
    append_number(4, strlen(text));
    append(text, strlen(text));
}

/* A name of 6 bytes; what follows its zero is any bytes. */
static void append_name(void)
{
    append_number(2, MRD_ID_CONFIGURATION_NAME);
    append("radial", 7);
    append_data(1024 - 7);
}

static void append_acquisition(uint16_t samples, uint16_t channels, uint16_t dimensions)
{
    uint8_t header[MRD_ACQUISITION_HEADER_SIZE] = {1};
    put(header, MRD_ACQUISITION_NUMBER_OF_SAMPLES, 2, samples);
    put(header, MRD_ACQUISITION_AVAILABLE_CHANNELS, 2, channels);
    put(header, MRD_ACQUISITION_ACTIVE_CHANNELS, 2, channels);
    put(header, MRD_ACQUISITION_TRAJECTORY_DIMENSIONS, 2, dimensions);
    append_number(2, MRD_ID_ACQUISITION);
    append(header, sizeof header);
    append_data((size_t)samples * dimensions * 4 + (size_t)samples * channels * 8);
}

/* An image of so many pixels of two bytes in a row. Its header says 0 of the attributes. */
static void append_image(const char *attributes, uint16_t pixels)
{
    uint8_t header[MRD_IMAGE_HEADER_SIZE] = {1, 0, MRD_DATA_TYPE_USHORT};
    put(header, MRD_IMAGE_MATRIX_SIZE, 2, pixels);
    put(header, MRD_IMAGE_MATRIX_SIZE + 2, 2, 1);
    put(header, MRD_IMAGE_MATRIX_SIZE + 4, 2, 1);
    put(header, MRD_IMAGE_CHANNELS, 2, 1);
    append_number(2, MRD_ID_IMAGE);
    append(header, sizeof header);
    append_number(8, strlen(attributes));
    append(attributes, strlen(attributes));
    append_data((size_t)pixels * 2);
}

/* Filler is any bytes. */
static void append_waveform(bool aligned, uint16_t samples, uint16_t channels)
{
    uint8_t header[MRD_ALIGNED_WAVEFORM_HEADER_SIZE];
    memset(header, aligned ? 0xF1 : 0, sizeof header);
    put(header, MRD_WAVEFORM_VERSION, 2, 1);
    put(header, aligned ? MRD_ALIGNED_WAVEFORM_NUMBER_OF_SAMPLES : MRD_WAVEFORM_NUMBER_OF_SAMPLES, 2, samples);
    put(header, aligned ? MRD_ALIGNED_WAVEFORM_CHANNELS : MRD_WAVEFORM_CHANNELS, 2, channels);
    append_number(2, MRD_ID_WAVEFORM);
    append(header, aligned ? MRD_ALIGNED_WAVEFORM_HEADER_SIZE : MRD_WAVEFORM_HEADER_SIZE);
    append_data((size_t)samples * channels * 4);
}

static void build(bool aligned)
{
    length = 0;
    append_text(MRD_ID_TEXT, "hi");
    append_name();
    append_text(MRD_ID_HEADER_TEXT, "");
    append_acquisition(3, 2, 1);
    append_acquisition(2, 1, 0);
    append_acquisition(0, 3, 2);
    append_image("abc", 2);
    append_image("", 0);
    append_waveform(aligned, 2, 2);
    append_waveform(aligned, 0, 5);
    append_number(2, MRD_ID_CLOSE);
}

/* Every member, as what lies between members may be anything. */
static bool same_place(mrd_placed a, mrd_placed b)
{
    return a.refusal == b.refusal && a.record == b.record && a.byte == b.byte && a.number == b.number &&
           a.start == b.start && a.size == b.size && a.length == b.length &&
           a.attribute_length == b.attribute_length && a.id == b.id && a.number_of_samples == b.number_of_samples &&
           a.channels == b.channels && a.trajectory_dimensions == b.trajectory_dimensions &&
           a.matrix_size_x == b.matrix_size_x && a.matrix_size_y == b.matrix_size_y &&
           a.matrix_size_z == b.matrix_size_z && a.data_type == b.data_type && a.mask == b.mask &&
           a.mask_ones == b.mask_ones;
}

/* The whole answer for a byte of this part. */
static void check_byte(mrd_rules rules, const part_row *row, size_t byte)
{
    mrd_part_answer answer = mrd_part_at(rules, stream, length, byte);
    CHECK(answer.refusal == MRD_OK && answer.record == 0 && answer.byte == 0);
    CHECK(answer.place.number == row->record);
    CHECK(same_place(answer.place, mrd_place(rules, stream, length, row->record)));
    CHECK(answer.part == row->part && answer.channel == row->channel);
    CHECK(answer.start == row->start && answer.length == row->length);
    run element = {0, 0, 0};
    if (row->part == MRD_PART_HEADER)
        element = element_at(runs_of(row->record, rules.aligned_waveforms), byte - row->start);
    CHECK(answer.element_offset == element.offset && answer.element_size == element.size);
}

/* The parts adjoin from the first byte to the last, and each byte belongs to its own. Those that a view shows are what
 * it shows. */
static void check_parts(mrd_rules rules, const part_row parts[ROWS])
{
    size_t end = 0;
    for (size_t i = 0; i < ROWS; i++) {
        const part_row *row = &parts[i];
        CHECK(row->start == end);
        end = row->start + row->length;
        for (size_t byte = row->start; byte < end; byte++)
            check_byte(rules, row, byte);
        mrd_view_place view = mrd_view(rules, stream, length, row->record, row->part, row->channel);
        if (row->part >= MRD_PART_ID)
            CHECK(view.refusal == MRD_REFUSED_NO_PART && view.start == 0 && view.length == 0);
        else
            CHECK(view.refusal == MRD_OK && view.start == row->start && view.length == row->length);
    }
    CHECK(end == length);
}

/* Each view that is not empty has its first and last byte in that part of that record. */
static void check_views(mrd_rules rules)
{
    size_t views = 0;
    for (size_t i = 0; i < RECORDS * 8 * 4; i++) {
        size_t n = i / 32, channel = i % 4;
        uint32_t part = (uint32_t)(i / 4 % 8);
        mrd_view_place view = mrd_view(rules, stream, length, n, part, channel);
        if (view.refusal != MRD_OK || view.length == 0 || (part != MRD_PART_CHANNEL && channel != 0))
            continue;
        views++;
        for (size_t k = 0; k < 2; k++) {
            size_t byte = k == 0 ? view.start : view.start + view.length - 1;
            mrd_part_answer answer = mrd_part_at(rules, stream, length, byte);
            CHECK(answer.place.number == n && answer.part == part && answer.channel == channel);
            CHECK(answer.start == view.start && answer.length == view.length);
        }
    }
    CHECK(views == 9);
}

/* To a view the parts that none shows are parts that no record has, however it is asked. */
static void not_shown(mrd_rules rules)
{
    uint8_t file[23 + 17 * RECORDS];
    CHECK(mrd_write_index(rules, stream, length, file, sizeof file).length == sizeof file);
    mrd_cursor cursor = mrd_beginning();
    for (size_t n = 0; n < RECORDS; n++) {
        for (uint32_t part = MRD_PART_ID; part <= MRD_PART_NAME_REST + 1; part++) {
            mrd_question question = mrd_question_view(n, part, 0);
            mrd_view_place views[] = {
                mrd_view(rules, stream, length, n, part, 0),
                mrd_view_at(rules, stream, length, cursor, part, 0),
                mrd_ask_with_file(rules, stream, length, question, file, sizeof file).view,
            };
            for (size_t i = 0; i < sizeof views / sizeof views[0]; i++)
                CHECK(views[i].refusal == MRD_REFUSED_NO_PART);
        }
        cursor = mrd_next(rules, stream, length, cursor).next;
    }
}

/* A refusal in full: the place carries it too, and all else is 0. */
static void check_refused(mrd_part_answer answer, mrd_refusal refusal, size_t record, size_t byte)
{
    CHECK(answer.refusal == refusal && answer.record == record && answer.byte == byte);
    CHECK(same_place(answer.place, (mrd_placed){.refusal = refusal, .record = record, .byte = byte}));
    CHECK(answer.part == 0 && answer.channel == 0 && answer.start == 0 && answer.length == 0);
    CHECK(answer.element_offset == 0 && answer.element_size == 0);
}

/* 16 from the stream's length on. The stream's own refusal comes before it and before any part: cut short anywhere, or
 * with a byte too many. */
static void refused(mrd_rules rules)
{
    static const size_t past[] = {0, 1, 7, SIZE_MAX / 2};
    for (size_t i = 0; i < sizeof past / sizeof past[0]; i++)
        check_refused(mrd_part_at(rules, stream, length, length + past[i]), MRD_REFUSED_NO_RECORD, 0, 0);
    check_refused(mrd_part_at(rules, stream, length, SIZE_MAX), MRD_REFUSED_NO_RECORD, 0, 0);
    stream[length] = 0;
    for (size_t cut = 0; cut <= length + 1; cut++) {
        mrd_checked checked = mrd_check(rules, stream, cut);
        if (cut == length)
            continue;
        CHECK(checked.refusal != MRD_OK);
        static const size_t asked[] = {0, 1041, SIZE_MAX};
        for (size_t i = 0; i < sizeof asked / sizeof asked[0]; i++)
            check_refused(mrd_part_at(rules, stream, cut, asked[i]), checked.refusal, checked.record, checked.byte);
    }
    check_refused(mrd_part_at(rules, NULL, 0, 0), MRD_REFUSED_NO_CLOSE, 0, 0);
}

/* A text that is not UTF-8 is the strict profile's refusal, and the plain one's text. */
static void not_utf8(mrd_rules rules)
{
    uint8_t *attribute = stream + 2351;
    CHECK(*attribute == 'b');
    *attribute = 0xFF;
    mrd_part_answer answer = mrd_part_at(rules, stream, length, 2351);
    if (rules.strict_text)
        check_refused(answer, MRD_REFUSED_TEXT_NOT_UTF8, 6, 2142);
    else
        CHECK(answer.refusal == MRD_OK && answer.part == MRD_PART_ATTRIBUTES && answer.start == 2350);
    *attribute = 'b';
}

/* The kind that no stream has beside a configuration name, alone: a configuration text of 3 bytes, and the close. */
static void configuration_text(mrd_rules rules)
{
    static const part_row parts[] = {
        {0, MRD_PART_ID, 0, 0, 2},
        {0, MRD_PART_LENGTH, 0, 2, 4},
        {0, MRD_PART_TEXT, 0, 6, 3},
        {1, MRD_PART_ID, 0, 9, 2},
    };
    length = 0;
    append_text(MRD_ID_CONFIGURATION_TEXT, "cfg");
    append_number(2, MRD_ID_CLOSE);
    CHECK(length == 11);
    for (size_t i = 0; i < sizeof parts / sizeof parts[0]; i++)
        for (size_t byte = 0; byte < parts[i].length; byte++)
            check_byte(rules, &parts[i], parts[i].start + byte);
    check_refused(mrd_part_at(rules, stream, length, 11), MRD_REFUSED_NO_RECORD, 0, 0);
}

/* Names whose rest is one byte, their zero, and all 1,024. */
static void longest_and_empty_names(mrd_rules rules)
{
    for (size_t name = 0; name <= 1023; name += 1023) {
        length = 0;
        append_number(2, MRD_ID_CONFIGURATION_NAME);
        memset(stream + length, 'n', name);
        memset(stream + length + name, 0, 1024 - name);
        length += 1024;
        append_number(2, MRD_ID_CLOSE);
        part_row before = {0, MRD_PART_NAME, 0, 2, name}, rest = {0, MRD_PART_NAME_REST, 0, 2 + name, 1024 - name};
        for (size_t byte = 0; byte < 1024; byte++)
            check_byte(rules, byte < name ? &before : &rest, 2 + byte);
    }
}

int main(void)
{
    for (int i = 0; i < 4; i++) {
        mrd_rules rules = {.aligned_waveforms = i % 2 == 1, .strict_text = i / 2 == 1};
        part_row parts[ROWS];
        lay_out(rules.aligned_waveforms, parts);
        build(rules.aligned_waveforms);
        CHECK(length == (rules.aligned_waveforms ? ALIGNED_LENGTH : LENGTH));
        CHECK(mrd_check(rules, stream, length).count == RECORDS);
        check_parts(rules, parts);
        check_views(rules);
        not_shown(rules);
        refused(rules);
        not_utf8(rules);
        configuration_text(rules);
        longest_and_empty_names(rules);
    }
    if (failures == 0)
        printf("part_at.c: ok, %d checks\n", checks);
    else
        printf("part_at.c: %d of %d checks failed\n", failures, checks);
    return failures != 0;
}
