/* How much stack each family of calls takes on a large stream, for each layout of waveform headers and each profile of
 * texts: below 64 KiB, or this program fails.
 *
 * Each family runs in a thread whose stack is painted before; how deep the paint is gone afterwards is what the
 * thread took, its own start and end included. The line `idle` is a thread that calls nothing. */
#define _POSIX_C_SOURCE 200809L
#include "cotterleaf.h"

#include <pthread.h>
#include <stdio.h>
#include <stdlib.h>

enum { STACK = 512 * 1024, MOST = 64 * 1024, PAINT = 0xA5, ROUNDS = 2000 };

/* The rules that all is read and written by. */
static mrd_rules rules;

/* The stream, and its index in both forms. */
static uint8_t *stream, *out, *file;
static size_t length, room, file_length, count;
static uint64_t *starts;
static uint16_t *ids;
static uint32_t *counters;

/* The record that is asked for: the last acquisition, nearly at the end. */
static size_t last_acquisition;
static const uint16_t asked[17] = {9};

static void *need(size_t bytes)
{
    void *memory = malloc(bytes);
    if (memory == NULL) {
        printf("stack.c: no memory\n");
        exit(EXIT_FAILURE);
    }
    return memory;
}

/* What texts and attributes hold: characters of one to four bytes, so that the strict profile meets all its cases. */
static uint8_t texts[1000];

static void set_texts(void)
{
    static const uint8_t ten[10] = {'a', 0xC3, 0xA9, 0xE2, 0x82, 0xAC, 0xF0, 0x9F, 0xA7, 0xB2};
    for (size_t i = 0; i < sizeof texts; i++)
        texts[i] = ten[i % sizeof ten];
}

static void put(uint8_t *bytes, size_t at, int width, uint64_t number)
{
    for (int i = 0; i < width; i++)
        bytes[at + (size_t)i] = (uint8_t)(number >> (8 * i));
}

static void add(uint16_t id, mrd_parts parts)
{
    mrd_put end = mrd_write_parts(rules, id, &parts, stream, room, length);
    if (end.refusal != 0) {
        printf("stack.c: a message of id %u is refused with %u\n", id, end.refusal);
        exit(EXIT_FAILURE);
    }
    length = end.position;
    count++;
}

/* 64 samples of 4 channels with a trajectory of 2 dimensions. */
static void add_acquisition(const uint8_t *body, uint16_t counter)
{
    uint8_t header[340] = {1};
    put(header, 34, 2, 64);
    put(header, 36, 2, 4);
    put(header, 38, 2, 4);
    put(header, 40, 8, 15);
    put(header, 176, 2, 2);
    put(header, 242, 2, counter);
    last_acquisition = count;
    add(MRD_ID_ACQUISITION,
        (mrd_parts){.header = header, .header_length = 340, .trajectory = body, .trajectory_length = 512,
                    .samples = body, .samples_length = 2048});
}

/* 16 x 16 pixels of 16 bytes, with attributes. */
static void add_image(const uint8_t *body)
{
    uint8_t header[198] = {1, 0, 8};
    for (size_t at = 16; at < 22; at += 2)
        put(header, at, 2, at < 20 ? 16 : 1);
    put(header, 34, 2, 1);
    put(header, 194, 4, 100);
    add(MRD_ID_IMAGE, (mrd_parts){.header = header, .header_length = 198, .attributes = texts,
                                  .attributes_length = 100, .pixels = body, .pixels_length = 4096});
}

/* 100 samples of 2 channels. */
static void add_waveform(const uint8_t *body)
{
    bool aligned = rules.aligned_waveforms;
    uint8_t header[MRD_ALIGNED_WAVEFORM_HEADER_SIZE] = {1};
    put(header, aligned ? MRD_ALIGNED_WAVEFORM_NUMBER_OF_SAMPLES : MRD_WAVEFORM_NUMBER_OF_SAMPLES, 2, 100);
    put(header, aligned ? MRD_ALIGNED_WAVEFORM_CHANNELS : MRD_WAVEFORM_CHANNELS, 2, 2);
    add(MRD_ID_WAVEFORM,
        (mrd_parts){.header = header,
                    .header_length = aligned ? MRD_ALIGNED_WAVEFORM_HEADER_SIZE : MRD_WAVEFORM_HEADER_SIZE,
                    .waveform = body,
                    .waveform_length = 800});
}

/* All kinds, 8,003 records, some 16 MB. */
static void build(void)
{
    static const uint8_t body[4096];
    room = (size_t)ROUNDS * 9000 + 4096;
    length = count = 0;
    stream = need(room);
    add(MRD_ID_CONFIGURATION_NAME, (mrd_parts){.name = (const uint8_t *)"radial", .name_length = 6});
    add(MRD_ID_HEADER_TEXT, (mrd_parts){.text = texts, .text_length = sizeof texts});
    for (int round = 0; round < ROUNDS; round++) {
        add(MRD_ID_TEXT, (mrd_parts){.text = texts, .text_length = 20});
        add_acquisition(body, round == ROUNDS - 1 ? 9 : 0);
        add_image(body);
        add_waveform(body);
    }
    add(MRD_ID_CLOSE, (mrd_parts){0});
    out = need(room);
    file_length = 23 + 17 * count;
    file = need(file_length);
    starts = need(count * sizeof *starts);
    ids = need(count * sizeof *ids);
    counters = need(count * sizeof *counters);
}

static void release(void)
{
    free(stream);
    free(out);
    free(file);
    free(starts);
    free(ids);
    free(counters);
}

/* The families. Each is true where its calls were accepted, so that they walked the whole stream. */
static bool idle(void)
{
    return true;
}

static bool check(void)
{
    return mrd_check(rules, stream, length).count == count;
}

static bool walk(void)
{
    mrd_step step = mrd_next(rules, stream, length, mrd_beginning());
    while (!step.ended)
        step = mrd_next(rules, stream, length, step.next);
    return step.answer.count == count && mrd_check_from(rules, stream, length, mrd_beginning()).count == count;
}

static bool place(void)
{
    return mrd_place(rules, stream, length, last_acquisition).id == MRD_ID_ACQUISITION;
}

static bool view(void)
{
    return mrd_view(rules, stream, length, last_acquisition, MRD_PART_CHANNEL, 3).length == 512;
}

static bool field(void)
{
    return mrd_field(rules, stream, length, last_acquisition, 34).whole == 64;
}

static bool find(void)
{
    return mrd_find(rules, stream, length, 0, asked).number == last_acquisition;
}

/* A byte of the last acquisition's samples, and the close. */
static bool part_at(void)
{
    mrd_view_place channel = mrd_view(rules, stream, length, last_acquisition, MRD_PART_CHANNEL, 3);
    return mrd_part_at(rules, stream, length, channel.start + 511).place.number == last_acquisition
           && mrd_part_at(rules, stream, length, length - 1).place.id == MRD_ID_CLOSE;
}

static bool normal_form(void)
{
    return mrd_normal_form(rules, stream, length, out, room).length == length;
}

/* The stream without the last byte of its close, which makes way for an added one; and the report on it whole. */
static bool salvage(void)
{
    mrd_salvaged torn = mrd_salvage(rules, stream, length - 1, out, room);
    return torn.close_added && torn.messages_kept == count - 1 && torn.length == length
           && mrd_salvage_report(rules, stream, length).messages_kept == count;
}

static bool write_index(void)
{
    return mrd_write_index(rules, stream, length, file, file_length).length == file_length;
}

static bool index_matches(void)
{
    return mrd_index_matches(rules, stream, length, file, file_length).refusal == 0;
}

static bool with_file(void)
{
    size_t n = last_acquisition;
    mrd_question view = mrd_question_view(n, MRD_PART_CHANNEL, 3);
    mrd_question find = mrd_question_find(0, asked);
    return mrd_ask_with_file(rules, stream, length, mrd_question_place(n), file, file_length).refusal == 0
           && mrd_ask_with_file(rules, stream, length, view, file, file_length).view.length == 512
           && mrd_ask_with_file(rules, stream, length, mrd_question_field(n, 34), file, file_length).field.whole == 64
           && mrd_ask_with_file(rules, stream, length, find, file, file_length).found.number == n;
}

#define COLUMNS starts, count, ids, count, counters, count

static bool fill_columns(void)
{
    return mrd_fill_columns(rules, stream, length, COLUMNS).length == count;
}

static bool columns_match(void)
{
    return mrd_columns_match(rules, stream, length, COLUMNS).refusal == 0;
}

static bool with_columns(void)
{
    size_t n = last_acquisition;
    mrd_question view = mrd_question_view(n, MRD_PART_CHANNEL, 3);
    mrd_question find = mrd_question_find(0, asked);
    return mrd_ask_with_columns(rules, stream, length, mrd_question_place(n), COLUMNS).refusal == 0
           && mrd_ask_with_columns(rules, stream, length, view, COLUMNS).view.length == 512
           && mrd_ask_with_columns(rules, stream, length, mrd_question_field(n, 34), COLUMNS).field.whole == 64
           && mrd_ask_with_columns(rules, stream, length, find, COLUMNS).found.number == n;
}

static bool write_message(void)
{
    mrd_placed at = mrd_place(rules, stream, length, last_acquisition);
    const uint8_t *message = stream + at.start;
    mrd_parts parts = {.header = message + 2, .header_length = 340, .trajectory = message + 342,
                       .trajectory_length = 512, .samples = message + 854, .samples_length = 2048};
    return mrd_write_parts(rules, MRD_ID_ACQUISITION, &parts, out, room, 0).position == at.size;
}

/* The longest text that the stream has. */
static bool write_text(void)
{
    mrd_parts parts = {.text = texts, .text_length = sizeof texts};
    return mrd_write_parts(rules, MRD_ID_TEXT, &parts, out, room, 0).position == 6 + sizeof texts;
}

static bool flags(void)
{
    return mrd_flag_test(mrd_flag_set(mrd_flag_clear(0, 1), 7), 7) && mrd_counter_step(1, 2) == 1;
}

struct run {
    bool (*family)(void);
    bool worked;
};

static void *run_in_thread(void *argument)
{
    struct run *run = argument;
    run->worked = run->family();
    return NULL;
}

/* The bytes of stack that a thread takes for this family; 0 where it could not be run or was refused. */
static size_t taken(bool (*family)(void))
{
    uint8_t *stack = aligned_alloc(4096, STACK);
    struct run run = {family, false};
    pthread_attr_t attributes;
    pthread_t thread;
    if (stack == NULL)
        return 0;
    memset(stack, PAINT, STACK);
    bool ran = pthread_attr_init(&attributes) == 0
               && pthread_attr_setstack(&attributes, stack, STACK) == 0
               && pthread_create(&thread, &attributes, run_in_thread, &run) == 0
               && pthread_join(thread, NULL) == 0;
    size_t untouched = 0;
    while (untouched < STACK && stack[untouched] == PAINT)
        untouched++;
    free(stack);
    return ran && run.worked ? STACK - untouched : 0;
}

static const struct {
    const char *name;
    bool (*family)(void);
} families[] = {
    {"idle", idle},
    {"check", check},
    {"walk", walk},
    {"place", place},
    {"view", view},
    {"field", field},
    {"find", find},
    {"part at", part_at},
    {"normal form", normal_form},
    {"salvage", salvage},
    {"write index", write_index},
    {"index matches", index_matches},
    {"with file", with_file},
    {"fill columns", fill_columns},
    {"columns match", columns_match},
    {"with columns", with_columns},
    {"write", write_message},
    {"write text", write_text},
    {"flags", flags},
};

static size_t most;
static const char *who = "";

/* Whether all families were run and took little enough; the most that one took is kept. */
static bool measured(void)
{
    const char *layout = rules.aligned_waveforms ? "aligned" : "packed";
    const char *profile = rules.strict_text ? "strict" : "plain";
    bool passed = true;
    for (size_t i = 0; i < sizeof families / sizeof families[0]; i++) {
        size_t bytes = taken(families[i].family);
        printf("%s, %s, %s: %zu bytes of stack\n", families[i].name, layout, profile, bytes);
        if (bytes == 0 || bytes >= MOST) {
            passed = false;
            printf("%s, %s, %s: %s\n", families[i].name, layout, profile,
                   bytes == 0 ? "refused, or not run" : "64 KiB or more");
        }
        if (bytes > most) {
            most = bytes;
            who = families[i].name;
        }
    }
    return passed;
}

int main(void)
{
    bool passed = true;
    set_texts();
    for (int i = 0; i < 4; i++) {
        rules = (mrd_rules){.aligned_waveforms = i % 2 == 1, .strict_text = i / 2 == 1};
        build();
        passed = measured() && passed;
        release();
    }
    printf("stack.c: %s, at most %zu bytes of stack (%s) on %zu records\n", passed ? "ok" : "FAILED", most, who, count);
    return !passed;
}
