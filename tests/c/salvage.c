/* What is saved of a torn recording: a stream with all kinds, under both layouts of waveform headers and both profiles
 * of texts, torn at every byte, with a fault in each message and with bytes after its close, beside answers worked by
 * hand from where its messages end; the report, and rooms of all sizes around what is saved. */
#include "cotterleaf.h"

#include <stdio.h>
#include <string.h>

static int checks, failures;

/* Goes on after a failure, so that one run shows several of them. */
#define CHECK(condition)                                                            \
    do {                                                                            \
        checks++;                                                                   \
        if (!(condition) && failures++ < 20)                                        \
            printf("line %d of salvage.c fails: %s\n", __LINE__, #condition);       \
    } while (0)

/* Where each message of the stream below ends, with packed waveform headers. */
static const size_t ENDS[] = {
    8,    /* a text: 2 + 4 + 2 */
    1034, /* a configuration name: 2 + 1,024 */
    1040, /* a header text: 2 + 4 */
    1442, /* an acquisition of 3 samples, 2 channels, 1 dimension: 2 + 340 + 12 + 48 */
    1784, /* one without samples: 2 + 340 */
    1999, /* an image of two pixels of two bytes: 2 + 198 + 8 + 3 + 4 */
    2049, /* a waveform of 2 samples and 2 channels: 2 + 32 + 16, aligned 8 more */
    2057, /* a text that ends in the bytes of a close: 2 + 4 + 2 */
    2059, /* the close */
};

enum { MESSAGES = sizeof ENDS / sizeof ENDS[0], WAVEFORM = 6, LENGTH = 2059, AFTER = 40, GUARD = 16 };

/* Room for what may stand after the close. */
static uint8_t stream[LENGTH + 8 + AFTER];
static size_t length, ends[MESSAGES];

static void append(const void *bytes, size_t count)
{
    memcpy(stream + length, bytes, count);
    length += count;
}

static void put(uint8_t *bytes, size_t at, int width, uint64_t number)
{
    for (int i = 0; i < width; i++)
        bytes[at + (size_t)i] = (uint8_t)(number >> (8 * i));
}

static void append_number(int width, uint64_t number)
{
    uint8_t bytes[8];
    put(bytes, 0, width, number);
    append(bytes, (size_t)width);
}

/* So many bytes of data; no text is here. */
static void append_data(size_t count)
{
    memset(stream + length, 0xD7, count);
    length += count;
}

static void append_text(uint16_t id, const char *text, size_t count)
{
    append_number(2, id);
    append_number(4, count);
    append(text, count);
}

static void append_acquisition(uint16_t samples, uint16_t channels, uint16_t dimensions)
{
    uint8_t header[MRD_ACQUISITION_HEADER_SIZE] = {1};
    put(header, MRD_ACQUISITION_NUMBER_OF_SAMPLES, 2, samples);
    put(header, MRD_ACQUISITION_AVAILABLE_CHANNELS, 2, channels);
    put(header, MRD_ACQUISITION_ACTIVE_CHANNELS, 2, channels);
    put(header, MRD_ACQUISITION_TRAJECTORY_DIMENSIONS, 2, dimensions);
    append_number(2, MRD_ID_ACQUISITION);
    append(header, sizeof header);
    append_data((size_t)samples * dimensions * 4 + (size_t)samples * channels * 8);
}

/* Two pixels of two bytes. Its header says 0 of the attributes, which a normal form would change. */
static void append_image(const char *attributes)
{
    uint8_t header[MRD_IMAGE_HEADER_SIZE] = {1, 0, MRD_DATA_TYPE_USHORT};
    put(header, MRD_IMAGE_MATRIX_SIZE, 2, 2);
    put(header, MRD_IMAGE_MATRIX_SIZE + 2, 2, 1);
    put(header, MRD_IMAGE_MATRIX_SIZE + 4, 2, 1);
    put(header, MRD_IMAGE_CHANNELS, 2, 1);
    append_number(2, MRD_ID_IMAGE);
    append(header, sizeof header);
    append_number(8, strlen(attributes));
    append(attributes, strlen(attributes));
    append_data(4);
}

/* Two samples of two channels. Filler is not zero, which a normal form would change too. */
static void append_waveform(bool aligned)
{
    uint8_t header[MRD_ALIGNED_WAVEFORM_HEADER_SIZE];
    memset(header, aligned ? 0xF1 : 0, sizeof header);
    put(header, MRD_WAVEFORM_VERSION, 2, 1);
    put(header, aligned ? MRD_ALIGNED_WAVEFORM_NUMBER_OF_SAMPLES : MRD_WAVEFORM_NUMBER_OF_SAMPLES, 2, 2);
    put(header, aligned ? MRD_ALIGNED_WAVEFORM_CHANNELS : MRD_WAVEFORM_CHANNELS, 2, 2);
    append_number(2, MRD_ID_WAVEFORM);
    append(header, aligned ? MRD_ALIGNED_WAVEFORM_HEADER_SIZE : MRD_WAVEFORM_HEADER_SIZE);
    append_data(16);
}

/* The stream, and where its messages end in this layout. */
static void build(bool aligned)
{
    length = 0;
    append_text(MRD_ID_TEXT, "hi", 2);
    append_number(2, MRD_ID_CONFIGURATION_NAME);
    append("radial", 7);
    append_data(1024 - 7);
    append_text(MRD_ID_HEADER_TEXT, "", 0);
    append_acquisition(3, 2, 1);
    append_acquisition(0, 3, 2);
    append_image("abc");
    append_waveform(aligned);
    append_text(MRD_ID_TEXT, "\4\0", 2);
    append_number(2, MRD_ID_CLOSE);
    for (size_t n = 0; n < MESSAGES; n++)
        ends[n] = ENDS[n] + (aligned && n >= WAVEFORM ? 8 : 0);
    CHECK(length == ends[MESSAGES - 1]);
}

/* What must be saved of the stream's first bytes. */
typedef struct {
    size_t given, messages, kept;
    bool added;
} expected;

/* Every member, as what lies between members may be anything. */
static bool is_saved(mrd_salvaged answer, const expected *of)
{
    return answer.refusal == MRD_OK && answer.messages_kept == of->messages &&
           answer.bytes_not_kept == of->given - of->kept && answer.length == of->kept + (of->added ? 2 : 0) &&
           answer.close_added == of->added;
}

/* 14, and nothing else. */
static bool is_refused(mrd_salvaged answer)
{
    return answer.refusal == MRD_REFUSED_OUTPUT_SHORT && answer.messages_kept == 0 && answer.bytes_not_kept == 0 &&
           answer.length == 0 && !answer.close_added;
}

static uint8_t out[GUARD + sizeof stream + 2 + GUARD];

/* Whether the output has this from one byte on to before another. */
static bool is_filled(size_t from, size_t to, uint8_t byte)
{
    while (from < to && out[from] == byte)
        from++;
    return from >= to;
}

/* Into a room of so many bytes, in the middle of an output that is all `before`: what is saved from the room's first
 * byte on, and all else as it was. */
static void check_room(mrd_rules rules, const expected *of, size_t room, uint8_t before)
{
    size_t saved = of->kept + (of->added ? 2 : 0);
    memset(out, before, sizeof out);
    mrd_salvaged answer = mrd_salvage(rules, stream, of->given, out + GUARD, room);
    if (room < saved) {
        CHECK(is_refused(answer));
        CHECK(is_filled(0, sizeof out, before));
        return;
    }
    CHECK(is_saved(answer, of));
    CHECK(is_filled(0, GUARD, before));
    CHECK(memcmp(out + GUARD, stream, of->kept) == 0);
    CHECK(!of->added || (out[GUARD + of->kept] == 4 && out[GUARD + of->kept + 1] == 0));
    CHECK(is_filled(GUARD + saved, sizeof out, before));
}

/* The report, rooms around what is saved, and that this is accepted and saved again as it is. */
static void check_saved(mrd_rules rules, const expected *of)
{
    size_t saved = of->kept + (of->added ? 2 : 0);
    CHECK(is_saved(mrd_salvage_report(rules, stream, of->given), of));
    check_room(rules, of, 0, 0xEE);
    check_room(rules, of, saved - 1, 0xEE);
    check_room(rules, of, saved + 1, 0xEE);
    check_room(rules, of, of->given + 2, 0x11);
    check_room(rules, of, saved, 0xEE);
    const uint8_t *result = out + GUARD;
    expected again = {saved, of->messages + of->added, saved, false};
    CHECK(mrd_check(rules, result, saved).count == again.messages);
    CHECK(is_saved(mrd_salvage_report(rules, result, saved), &again));
    static uint8_t copy[sizeof stream + 2];
    CHECK(is_saved(mrd_salvage(rules, result, saved, copy, saved), &again));
    CHECK(memcmp(copy, result, saved) == 0);
}

/* The first messages, with a close added. */
static void check_closed(mrd_rules rules, size_t given, size_t messages)
{
    expected of = {given, messages, messages == 0 ? 0 : ends[messages - 1], true};
    check_saved(rules, &of);
}

/* All messages up to the close. */
static void check_whole(mrd_rules rules, size_t given)
{
    expected of = {given, MESSAGES, length, false};
    check_saved(rules, &of);
}

/* Each tear leaves the messages that end at or before it. */
static void torn(mrd_rules rules)
{
    size_t messages = 0;
    for (size_t tear = 0; tear < length; tear++) {
        if (tear == ends[messages])
            messages++;
        check_closed(rules, tear, messages);
    }
    CHECK(messages == MESSAGES - 1);
    check_whole(rules, length);
}

/* What stands after the close is left out and nothing is added, whatever it is. */
static void after_the_close(mrd_rules rules)
{
    for (size_t count = 1; count <= AFTER; count++) {
        memset(stream + length, (int)count, count);
        check_whole(rules, length + count);
        put(stream, length, 2, MRD_ID_CLOSE);
        check_whole(rules, length + count);
    }
    memcpy(stream + length, stream, AFTER);
    check_whole(rules, length + AFTER);
}

/* An id that nobody knows in each message in turn: those before it are saved. With the id of a close there the stream
 * ends, and all behind it is left out. */
static void one_fault(mrd_rules rules)
{
    for (size_t n = 0; n < MESSAGES; n++) {
        uint8_t *id = stream + (n == 0 ? 0 : ends[n - 1]), kept[2] = {id[0], id[1]};
        put(id, 0, 2, 6);
        check_closed(rules, length, n);
        put(id, 0, 2, MRD_ID_CLOSE);
        expected closed = {length, n + 1, (n == 0 ? 0 : ends[n - 1]) + 2, false};
        check_saved(rules, &closed);
        memcpy(id, kept, sizeof kept);
    }
    /* A second header text breaks the order. */
    uint8_t *last_text = stream + ends[MESSAGES - 3];
    put(last_text, 0, 2, MRD_ID_HEADER_TEXT);
    check_closed(rules, length, MESSAGES - 2);
    put(last_text, 0, 2, MRD_ID_TEXT);
    check_whole(rules, length);
}

/* A text that is not UTF-8 is a fault of the strict profile alone. */
static void not_utf8(mrd_rules rules)
{
    uint8_t *attribute = stream + ends[4] + 2 + 198 + 8 + 1;
    CHECK(*attribute == 'b');
    *attribute = 0xFF;
    if (rules.strict_text)
        check_closed(rules, length, 5);
    else
        check_whole(rules, length);
    *attribute = 'b';
}

/* By the other layout the waveform is another. Aligned bytes read packed have 0xF1F1 samples and channels, more than a
 * message holds. Packed bytes read aligned have none of either, so that their header is the whole message and the last
 * 8 bytes of their data are left over, with an id that nobody knows. */
static void other_layout(mrd_rules rules)
{
    expected as_packed = {length, WAVEFORM, ends[WAVEFORM - 1], true};
    expected as_aligned = {length, WAVEFORM + 1, ends[WAVEFORM] - 8, true};
    rules.aligned_waveforms = !rules.aligned_waveforms;
    check_saved(rules, rules.aligned_waveforms ? &as_aligned : &as_packed);
}

/* An empty slice may have any pointer: of nothing a close is saved, where there is room for it. */
static void nothing(mrd_rules rules)
{
    uint8_t room[3] = {9, 9, 9};
    expected of = {0, 0, 0, true};
    CHECK(is_saved(mrd_salvage_report(rules, NULL, 0), &of));
    CHECK(is_refused(mrd_salvage(rules, NULL, 0, NULL, 0)));
    CHECK(is_refused(mrd_salvage(rules, stream, length, NULL, 0)));
    CHECK(is_refused(mrd_salvage(rules, NULL, 0, room, 1)));
    CHECK(room[0] == 9 && room[1] == 9 && room[2] == 9);
    CHECK(is_saved(mrd_salvage(rules, NULL, 0, room, 3), &of));
    CHECK(room[0] == 4 && room[1] == 0 && room[2] == 9);
}

int main(void)
{
    for (int i = 0; i < 4; i++) {
        mrd_rules rules = {.aligned_waveforms = i % 2 == 1, .strict_text = i / 2 == 1};
        static uint8_t kept[sizeof stream];
        build(rules.aligned_waveforms);
        CHECK(mrd_check(rules, stream, length).count == MESSAGES);
        memcpy(kept, stream, length);
        torn(rules);
        after_the_close(rules);
        one_fault(rules);
        not_utf8(rules);
        other_layout(rules);
        nothing(rules);
        CHECK(memcmp(kept, stream, length) == 0);
    }
    if (failures == 0)
        printf("salvage.c: ok, %d checks\n", checks);
    else
        printf("salvage.c: %d of %d checks failed\n", failures, checks);
    return failures != 0;
}
