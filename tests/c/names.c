/* The names of the header at work: every refusal has a sentence, header elements are asked for by name and have one by
 * their offset, and samples are read from a view that is not aligned.
 *
 *     names samples/all_kinds.mrd */
#include <cotterleaf.h>

#include <stdio.h>
#include <string.h>

static const mrd_rules rules = {false};

static unsigned checks;

#define CHECK(test)                                                  \
    do {                                                             \
        checks++;                                                    \
        if (!(test)) {                                               \
            printf("names.c: line %d: %s\n", __LINE__, #test);       \
            return 1;                                                \
        }                                                            \
    } while (0)

/* Compiled with -Werror=switch: a refusal without a case is an error. */
static int of_the_stream(mrd_refusal refusal)
{
    switch (refusal) {
    case MRD_REFUSED_ID_CUT:
    case MRD_REFUSED_UNKNOWN_ID:
    case MRD_REFUSED_FIXED_PART_CUT:
    case MRD_REFUSED_VERSION:
    case MRD_REFUSED_NAME:
    case MRD_REFUSED_CHANNELS:
    case MRD_REFUSED_DISCARD:
    case MRD_REFUSED_DATA_TYPE:
    case MRD_REFUSED_ATTRIBUTE_LENGTH:
    case MRD_REFUSED_TOO_LARGE:
    case MRD_REFUSED_MESSAGE_CUT:
    case MRD_REFUSED_ORDER:
    case MRD_REFUSED_NO_CLOSE:
    case MRD_REFUSED_TOO_MANY:
    case MRD_REFUSED_TEXT_NOT_UTF8:
        return 1;
    case MRD_OK:
    case MRD_REFUSED_OUTPUT_SHORT:
    case MRD_REFUSED_INDEX_DIFFERS:
    case MRD_REFUSED_NO_RECORD:
    case MRD_REFUSED_NO_PART:
    case MRD_REFUSED_BODY_LENGTH:
    case MRD_REFUSED_NO_FIELD:
        return 0;
    }
    return 0;
}

/* Each number has a sentence of its own, that says what to do; any other number has one too. */
static int sentences(void)
{
    for (uint32_t i = 1; i <= 21; i++) {
        CHECK(strchr(mrd_refusal_text(i), ';') != NULL);
        for (uint32_t j = 0; j < i; j++)
            CHECK(strcmp(mrd_refusal_text(i), mrd_refusal_text(j)) != 0);
    }
    CHECK(strcmp(mrd_refusal_text(MRD_OK), "nothing is refused") == 0);
    CHECK(strncmp(mrd_refusal_text(22), "no refusal", 10) == 0);
    CHECK(mrd_refusal_text(22) == mrd_refusal_text(UINT32_MAX));
    CHECK(of_the_stream(MRD_REFUSED_NO_CLOSE) && !of_the_stream(MRD_REFUSED_NO_FIELD));
    CHECK(strcmp(COTTERLEAF_VERSION, "") != 0 && COTTERLEAF_VERSION_MAJOR >= 0);
    return 0;
}

/* Header elements of the sample's acquisition 4, image 6 and waveform 7, by name. */
static int elements(const uint8_t *s, size_t n)
{
    CHECK(mrd_field(rules, s, n, 4, MRD_ACQUISITION_NUMBER_OF_SAMPLES).whole == 32);
    CHECK(mrd_field(rules, s, n, 4, MRD_ACQUISITION_SCAN_COUNTER).whole == 1);
    CHECK(mrd_field(rules, s, n, 4, MRD_ACQUISITION_COUNTERS + 2 * MRD_COUNTER_KSPACE_ENCODE_STEP_1).whole == 1);
    CHECK(mrd_field(rules, s, n, 4, MRD_ACQUISITION_USER_INT).integer == -2);
    CHECK(mrd_float_of(mrd_field(rules, s, n, 4, MRD_ACQUISITION_SAMPLE_TIME_US).float_bits) == 15.0F);
    CHECK(mrd_flag_test(mrd_field(rules, s, n, 3, MRD_ACQUISITION_FLAGS).whole, MRD_FLAG_FIRST_IN_SLICE));
    CHECK(mrd_field(rules, s, n, 6, MRD_IMAGE_DATA_TYPE).whole == MRD_DATA_TYPE_FLOAT);
    CHECK(mrd_field(rules, s, n, 6, MRD_IMAGE_ATTRIBUTE_STRING_LEN).whole == 134);
    CHECK(mrd_field(rules, s, n, 7, MRD_WAVEFORM_NUMBER_OF_SAMPLES).whole == 20);
    CHECK(mrd_field(rules, s, n, 7, MRD_WAVEFORM_HEADER_SIZE).refusal == MRD_REFUSED_NO_FIELD);
    CHECK(MRD_WAVEFORM_HEADER_SIZE == 32 && MRD_ALIGNED_WAVEFORM_HEADER_SIZE == 40);
    return 0;
}

/* What an offset is called in the headers of this kind. */
static bool is_called(uint16_t id, bool aligned, size_t offset, const char *name)
{
    const char *given = mrd_element_name(id, aligned, offset);
    return given != NULL && strcmp(given, name) == 0;
}

/* Elements by example, each of an array by itself; no name inside an element, past a header, and without one. */
static int names_by_offset(void)
{
    CHECK(is_called(MRD_ID_ACQUISITION, false, MRD_ACQUISITION_FLAGS, "flags"));
    CHECK(is_called(MRD_ID_ACQUISITION, true, MRD_ACQUISITION_PHYSIOLOGY_TIME_STAMP + 4, "physiology_time_stamp[1]"));
    CHECK(is_called(MRD_ID_ACQUISITION, false, MRD_ACQUISITION_CHANNEL_MASK + 8 * 15, "channel_mask[15]"));
    CHECK(is_called(MRD_ID_ACQUISITION, false, MRD_ACQUISITION_COUNTERS + 2 * MRD_COUNTER_SLICE, "counters.slice"));
    CHECK(is_called(MRD_ID_ACQUISITION, false, MRD_ACQUISITION_COUNTERS + 2 * MRD_COUNTER_USER_2, "counters.user[2]"));
    CHECK(is_called(MRD_ID_ACQUISITION, false, MRD_ACQUISITION_USER_INT + 4 * 3, "user_int[3]"));
    CHECK(is_called(MRD_ID_IMAGE, false, MRD_IMAGE_ATTRIBUTE_STRING_LEN, "attribute_string_len"));
    CHECK(is_called(MRD_ID_WAVEFORM, false, MRD_WAVEFORM_FLAGS, "flags"));
    CHECK(is_called(MRD_ID_WAVEFORM, true, MRD_ALIGNED_WAVEFORM_FLAGS, "flags"));
    CHECK(mrd_element_name(MRD_ID_WAVEFORM, true, MRD_WAVEFORM_FLAGS) == NULL);
    CHECK(mrd_element_name(MRD_ID_IMAGE, false, MRD_IMAGE_FLAGS + 1) == NULL);
    CHECK(mrd_element_name(MRD_ID_IMAGE, false, MRD_IMAGE_HEADER_SIZE) == NULL);
    CHECK(mrd_element_name(MRD_ID_ACQUISITION, false, SIZE_MAX) == NULL);
    CHECK(mrd_element_name(MRD_ID_TEXT, false, 0) == NULL && mrd_element_name(6, false, 0) == NULL);
    return 0;
}

/* At every offset of every header of a stream, and past it, a name stands exactly where a field starts, and another one
 * at each. */
static int names_where_fields_start(mrd_rules of, const uint8_t *s, size_t n)
{
    mrd_cursor cursor = mrd_beginning();
    for (mrd_step step = mrd_next(of, s, n, cursor); !step.ended; step = mrd_next(of, s, n, cursor)) {
        for (size_t offset = 0; offset < 400; offset++) {
            const char *name = mrd_element_name(step.here.id, of.aligned_waveforms, offset);
            mrd_refusal refusal = mrd_field_at(of, s, n, cursor, offset).refusal;
            CHECK(refusal == (name != NULL ? MRD_OK : MRD_REFUSED_NO_FIELD));
            for (size_t other = 0; name != NULL && other < offset; other++)
                CHECK(!is_called(step.here.id, of.aligned_waveforms, other, name));
        }
        cursor = step.next;
    }
    CHECK(mrd_check(of, s, n).refusal == MRD_OK);
    return 0;
}

static int element_names(const uint8_t *s, size_t n)
{
    /* An empty header text, an aligned waveform without data, and the close. */
    static const mrd_rules aligned = {.aligned_waveforms = true};
    uint8_t waveform[6 + 2 + MRD_ALIGNED_WAVEFORM_HEADER_SIZE + 2] = {3, 0, 0, 0, 0, 0, 2, 4, 1};
    waveform[sizeof waveform - 2] = MRD_ID_CLOSE;
    return names_by_offset() || names_where_fields_start(rules, s, n) ||
           names_where_fields_start(aligned, waveform, sizeof waveform);
}

/* The samples of a channel whose view starts at an odd address. */
static int samples(const uint8_t *s, size_t n)
{
    mrd_view_place place = mrd_view(rules, s, n, 3, MRD_PART_CHANNEL, 1);
    CHECK(place.refusal == MRD_OK && place.length == 32 * 8);
    CHECK((place.start & 1) == 1);
    for (size_t i = 0; i < 32; i++) {
        float pair[2];
        memcpy(pair, s + place.start + 8 * i, sizeof pair);
        mrd_complex sample = mrd_load_complex(s + place.start, i);
        CHECK(sample.re == pair[0] && sample.im == pair[1]);
    }
    return 0;
}

int main(int count, char **arguments)
{
    static uint8_t stream[65536];
    FILE *file = count == 2 ? fopen(arguments[1], "rb") : NULL;
    if (file == NULL) {
        printf("names.c: no stream\n");
        return 1;
    }
    size_t length = fread(stream, 1, sizeof stream, file);
    fclose(file);
    if (sentences() || elements(stream, length) || element_names(stream, length) || samples(stream, length))
        return 1;
    printf("names.c: ok, %u checks\n", checks);
    return 0;
}
