/* A stream that another thread changes during a call: the answer may be wrong, but nothing outside the outputs is
 * written. Each output ends where a page begins that may not be touched, and what lies before it in its own page is
 * looked at in the end.
 *
 * The stream is a configuration name, a header text, an image, a text whose bytes are themselves messages, empty texts
 * and a waveform, and a close. The other thread flips the text's length between all of them and none: 5 records or
 * TEXTS + 6 and more, both accepted. It also flips the byte that ends the name, so that the name has 1 or 1,023 bytes
 * and the normal form as much filler to clear as remains; and the length of the image's attributes, whose bytes are
 * empty texts, between all of them and none: its header says 0, so the normal form puts that length there.
 *
 * The calls take both layouts of waveform headers in turn, and the waveform is one of either. Packed it has 8 samples;
 * aligned it has 6, which are empty texts, or by another flip none, and filler for the normal form to clear.
 *
 * They take both profiles in turn too. The strict one reads what names, texts and attributes hold: one byte of the name
 * and one that is the text's, or the waveform's where the text is empty, are flipped between UTF-8 and what no text in
 * UTF-8 has.
 *
 * What is saved of the stream torn in its close fills its output to the last byte. Torn in its waveform, what stands
 * before the text and a close just fit where the text is not empty, and where it is there is too little room. */
#define _DEFAULT_SOURCE
#include "cotterleaf.h"

#include <pthread.h>
#include <stdio.h>
#include <stdlib.h>
#include <string.h>
#include <sys/mman.h>
#include <unistd.h>

enum {
    TEXTS = 400,
    EMPTY = 6, /* an empty text */
    NAME = 2,  /* the name's first byte, after its id */
    NAME_BYTES = 1024,
    IMAGE = NAME + NAME_BYTES + EMPTY, /* the image's first byte, after the header text */
    STATED = IMAGE + 2 + 194,          /* what its header says of its attributes */
    ATTRIBUTE_LENGTH = IMAGE + 2 + 198,
    ATTRIBUTES = 10 * EMPTY,
    TEXT = ATTRIBUTE_LENGTH + 8 + ATTRIBUTES,   /* the first byte of the text that has the others */
    WAVEFORM = TEXT + EMPTY + TEXTS * EMPTY + 2, /* its header's first byte, after its id */
    FILLER = WAVEFORM + 2,                      /* packed, the first of its flags */
    FILLER_BYTES = 6,
    DATA = WAVEFORM + MRD_ALIGNED_WAVEFORM_HEADER_SIZE,
    DATA_BYTES = 4 * EMPTY,
    LENGTH = DATA + DATA_BYTES + 2,
    SAVED = TEXT + 2, /* what stands before that text, and a close */
    FEW = 5, /* records, with all attributes and the whole text */
    TURNS = 2000000
};

static uint8_t stream[LENGTH];
static volatile int done;

static void *flip(void *unused)
{
    volatile uint8_t *bytes = stream;
    for (unsigned turn = 0; !done; turn++) {
        uint32_t length = turn & 1 ? LENGTH - TEXT - EMPTY - 2 : 0;
        for (int i = 0; i < 4; i++)
            bytes[TEXT + 2 + i] = (uint8_t)(length >> (8 * i));
        bytes[NAME + 1] = turn & 2 ? 'f' : 0;
        bytes[NAME + NAME_BYTES - 2] = turn & 16 ? 'f' : 0xFF;
        bytes[FILLER + FILLER_BYTES - 1] = turn & 32 ? 'f' : 0xFF;
        bytes[ATTRIBUTE_LENGTH] = turn & 4 ? ATTRIBUTES : 0;
        bytes[WAVEFORM + MRD_ALIGNED_WAVEFORM_NUMBER_OF_SAMPLES] = turn & 8 ? DATA_BYTES / 4 : 0;
    }
    return unused;
}

static void set_up(void)
{
    stream[NAME - 2] = 1;
    memset(stream + NAME, 'f', NAME_BYTES - 1);
    stream[IMAGE - EMPTY] = 3;
    stream[IMAGE] = MRD_ID_IMAGE & 255;
    stream[IMAGE + 1] = MRD_ID_IMAGE >> 8;
    stream[IMAGE + 2] = 1; /* version */
    stream[IMAGE + 4] = 1; /* data type; its sizes are 0 */
    for (size_t i = 0; i < ATTRIBUTES; i += EMPTY)
        stream[ATTRIBUTE_LENGTH + 8 + i] = 5;
    for (size_t i = 0; i <= TEXTS; i++)
        stream[TEXT + i * EMPTY] = 5;
    stream[WAVEFORM - 2] = MRD_ID_WAVEFORM & 255;
    stream[WAVEFORM - 1] = MRD_ID_WAVEFORM >> 8;
    stream[WAVEFORM] = 1; /* version */
    memset(stream + FILLER, 'f', FILLER_BYTES);
    stream[WAVEFORM + MRD_WAVEFORM_NUMBER_OF_SAMPLES] = (LENGTH - 2 - WAVEFORM - MRD_WAVEFORM_HEADER_SIZE) / 4;
    stream[WAVEFORM + MRD_WAVEFORM_CHANNELS] = 1;
    stream[WAVEFORM + MRD_ALIGNED_WAVEFORM_CHANNELS] = 1;
    for (size_t i = 0; i < DATA_BYTES; i += EMPTY)
        stream[DATA + i] = 5;
    stream[LENGTH - 2] = 4;
}

/* So many bytes that end where a forbidden page begins; the page before their own is forbidden too. */
static void *guarded(size_t bytes)
{
    size_t page = (size_t)sysconf(_SC_PAGESIZE);
    uint8_t *pages = mmap(NULL, 3 * page, PROT_NONE, MAP_PRIVATE | MAP_ANONYMOUS, -1, 0);
    if (pages == MAP_FAILED || bytes > page || mprotect(pages + page, page, PROT_READ | PROT_WRITE) != 0) {
        perror("changing: no guarded pages");
        exit(EXIT_FAILURE);
    }
    return pages + 2 * page - bytes;
}

/* Whether all is zero that lies before these bytes in their page. */
static int untouched(const void *output, size_t bytes)
{
    size_t before = (size_t)sysconf(_SC_PAGESIZE) - bytes;
    const uint8_t *front = (const uint8_t *)output - before;
    for (size_t i = 0; i < before; i++)
        if (front[i] != 0)
            return 0;
    return 1;
}

/* How often each thing was met by each profile, plain and strict. All are, where the stream changes during the calls. */
static unsigned long filled[2], refused[2], not_utf8[2], cleared[2], kept[2], stated[2], settled[2], left[2], put[2],
    inside[2], between[2], few_saved[2], many_saved[2], front_saved[2], too_short[2];

/* The outputs: columns, an index file, a copy of the stream, and what is saved of its front. */
static uint64_t *starts;
static uint16_t *ids;
static uint32_t *counters;
static uint8_t *file, *copy, *saved;

enum {
    STARTS = FEW * sizeof(uint64_t),
    IDS = FEW * sizeof(uint16_t),
    COUNTERS = FEW * sizeof(uint32_t),
    INDEX = 23 + FEW * 17
};

static void fill(mrd_rules rules)
{
    mrd_written columns = mrd_fill_columns(rules, stream, LENGTH, starts, FEW, ids, FEW, counters, FEW);
    filled[rules.strict_text] += columns.refusal == MRD_OK;
    refused[rules.strict_text] += columns.refusal == MRD_REFUSED_OUTPUT_SHORT;
    not_utf8[rules.strict_text] += columns.refusal == MRD_REFUSED_TEXT_NOT_UTF8;
    mrd_write_index(rules, stream, LENGTH, file, INDEX);
}

static void make_normal(mrd_rules rules)
{
    if (mrd_normal_form(rules, stream, LENGTH, copy, LENGTH).refusal != MRD_OK)
        return;
    bool strict = rules.strict_text;
    cleared[strict] += copy[NAME + NAME_BYTES / 2] == 0;
    kept[strict] += copy[NAME + NAME_BYTES / 2] == 'f';
    stated[strict] += copy[STATED] == ATTRIBUTES;
    settled[strict] += rules.aligned_waveforms && copy[FILLER] == 0;
    left[strict] += !rules.aligned_waveforms && copy[FILLER] == 'f';
}

/* A message with the bytes of that text, which change: it ends where the output does. */
static void write_text(mrd_rules rules)
{
    mrd_parts parts = {.text = stream + TEXT + EMPTY, .text_length = LENGTH - TEXT - EMPTY - 2};
    mrd_put end = mrd_write_parts(rules, MRD_ID_TEXT, &parts, copy, LENGTH, TEXT + 2);
    put[rules.strict_text] += end.refusal == MRD_OK && end.position == LENGTH;
}

/* The first byte of what are messages, or the text's bytes. */
static void look_up(mrd_rules rules)
{
    mrd_part_answer answer = mrd_part_at(rules, stream, LENGTH, TEXT + EMPTY);
    inside[rules.strict_text] += answer.part == MRD_PART_TEXT;
    between[rules.strict_text] += answer.part == MRD_PART_ID;
}

/* Torn in the close, and torn in the waveform. */
static void save(mrd_rules rules)
{
    bool strict = rules.strict_text;
    mrd_salvaged whole = mrd_salvage(rules, stream, LENGTH - 1, copy, LENGTH);
    few_saved[strict] += whole.length == LENGTH && whole.messages_kept < TEXTS;
    many_saved[strict] += whole.length == LENGTH && whole.messages_kept >= TEXTS;
    mrd_salvaged front = mrd_salvage(rules, stream, WAVEFORM, saved, SAVED);
    front_saved[strict] += front.refusal == MRD_OK && front.length == SAVED;
    too_short[strict] += front.refusal == MRD_REFUSED_OUTPUT_SHORT;
    mrd_salvage_report(rules, stream, WAVEFORM);
}

static int was_met(const char *what, const unsigned long of[2])
{
    if (of[0] != 0 && of[1] != 0)
        return 1;
    fprintf(stderr, "changing: the stream did not change during the calls: %s %lu times, strict %lu times\n", what,
            of[0], of[1]);
    return 0;
}

int main(void)
{
    set_up();
    starts = guarded(STARTS);
    ids = guarded(IDS);
    counters = guarded(COUNTERS);
    file = guarded(INDEX);
    copy = guarded(LENGTH);
    saved = guarded(SAVED);
    pthread_t other;
    if (pthread_create(&other, NULL, flip, NULL) != 0) {
        perror("changing: no second thread");
        return EXIT_FAILURE;
    }
    for (long turn = 0; turn < TURNS; turn++) {
        mrd_rules rules = {.aligned_waveforms = turn / 16 % 2 == 1, .strict_text = turn / 32 % 2 == 1};
        fill(rules);
        if (turn % 16 == 0)
            make_normal(rules);
        if (turn % 16 == 1)
            write_text(rules);
        if (turn % 16 == 2)
            look_up(rules);
        if (turn % 16 == 3)
            save(rules);
    }
    done = 1;
    pthread_join(other, NULL);
    if (!was_met("columns filled", filled) || !was_met("columns too short", refused) ||
        !was_met("names cleared", cleared) || !was_met("names kept", kept) || !was_met("lengths put", stated) ||
        !was_met("filler cleared", settled) || !was_met("flags left", left) || !was_met("texts written", put) ||
        !was_met("a byte of the text", inside) || !was_met("a byte of an id", between) ||
        !was_met("few messages saved", few_saved) || !was_met("many messages saved", many_saved) ||
        !was_met("the front saved", front_saved) || !was_met("too little room to save", too_short))
        return EXIT_FAILURE;
    if (not_utf8[0] != 0 || not_utf8[1] == 0) {
        fprintf(stderr, "changing: 21 %lu times by the plain profile, %lu times by the strict one\n", not_utf8[0],
                not_utf8[1]);
        return EXIT_FAILURE;
    }
    if (!untouched(starts, STARTS) || !untouched(ids, IDS) || !untouched(counters, COUNTERS) ||
        !untouched(file, INDEX) || !untouched(copy, LENGTH) || !untouched(saved, SAVED)) {
        fprintf(stderr, "changing: bytes before an output were written\n");
        return EXIT_FAILURE;
    }
    puts("changing: ok");
    return EXIT_SUCCESS;
}
