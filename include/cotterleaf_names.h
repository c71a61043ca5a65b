/* Names and numbers of MRD message streams, for C. Included by cotterleaf.h.
 * Written by tests/names from the definitions in crates/: change those, not this file. */
#ifndef COTTERLEAF_NAMES_H
#define COTTERLEAF_NAMES_H

#include <stdbool.h>
#include <stddef.h>
#include <stdint.h>

#define COTTERLEAF_VERSION_MAJOR 0
#define COTTERLEAF_VERSION_MINOR 7
#define COTTERLEAF_VERSION_PATCH 0
#define COTTERLEAF_VERSION "0.7.0"

/* The numbers of refusal, and 0 where nothing is refused. mrd_refusal_text says what to do about each. */
typedef enum mrd_refusal {
    MRD_OK = 0,
    MRD_REFUSED_ID_CUT = 1,           /* One byte remains where an id is due. */
    MRD_REFUSED_UNKNOWN_ID = 2,       /* The id is not in the table of kinds. */
    MRD_REFUSED_FIXED_PART_CUT = 3,   /* The fixed part doesn't fit in what remains; of the writer: the header bytes are not as long as the kind's fixed header. */
    MRD_REFUSED_VERSION = 4,          /* The version is not 1. */
    MRD_REFUSED_NAME = 5,             /* No zero among the name's 1,024 bytes; of the writer: a name over 1,023 bytes or holding a zero. */
    MRD_REFUSED_CHANNELS = 6,         /* Active channels above available. */
    MRD_REFUSED_DISCARD = 7,          /* Discard pre plus discard post above the number of samples. */
    MRD_REFUSED_DATA_TYPE = 8,        /* An image's data type is not 1 to 8. */
    MRD_REFUSED_ATTRIBUTE_LENGTH = 9, /* An image header's attribute length is neither 0 nor the 8-byte length after it. */
    MRD_REFUSED_TOO_LARGE = 10,       /* The whole message, id included, is over 268,435,456 bytes. */
    MRD_REFUSED_MESSAGE_CUT = 11,     /* The whole message doesn't fit in what remains. */
    MRD_REFUSED_ORDER = 12,           /* The order of messages is broken. */
    MRD_REFUSED_NO_CLOSE = 13,        /* The stream ends without a close. */
    MRD_REFUSED_OUTPUT_SHORT = 14,    /* The output is too short, or the start position is past its end. */
    MRD_REFUSED_INDEX_DIFFERS = 15,   /* The index differs from the one the stream yields. */
    MRD_REFUSED_NO_RECORD = 16,       /* There is no such record, or no such byte. */
    MRD_REFUSED_NO_PART = 17,         /* The record has no such part or channel. */
    MRD_REFUSED_BODY_LENGTH = 18,     /* Of the writer: a body's length isn't what its header says, or a part its kind lacks isn't empty. */
    MRD_REFUSED_TOO_MANY = 19,        /* A message begins after 1,000,000 messages. */
    MRD_REFUSED_NO_FIELD = 20,        /* No header element starts at that offset, or the record has no header. */
    MRD_REFUSED_TEXT_NOT_UTF8 = 21    /* In the strict profile: a name, a text or attributes are not UTF-8. */
} mrd_refusal;

/* What is wrong and what to do, as one sentence, for any number: never NULL. */
static inline const char *mrd_refusal_text(uint32_t refusal)
{
    static const char *const texts[] = {
        "nothing is refused",
        "one byte remains where an id is due; have the rest of the recording sent again, or salvage what stands before this byte",
        "the id names no kind of message; check that this is an MRD stream and that nothing was lost before this message",
        "the stream ends inside the fixed part of the message, or a header to be written has another length than its kind's; have the message sent again whole, or salvage what stands before it; to write one, give 340, 198, 32 (of an aligned waveform 40) or no header bytes as the kind asks",
        "the version in the header is not 1; have the sender write version 1 of the header",
        "a configuration name has no zero in its 1,024 bytes, or one to be written is too long or holds a zero; give a name of at most 1,023 bytes without a zero",
        "more channels are active than available; correct the two channel numbers of the acquisition header",
        "discard_pre and discard_post together exceed the number of samples; correct these numbers of the acquisition header",
        "the image data type is not 1 to 8; correct the data type of the image header",
        "the image header's attribute length is neither 0 nor the one in the 8 bytes after it; write in the header the length that those 8 bytes have, or 0",
        "the message has over 268,435,456 bytes; check the sizes in its header, or send the data in several messages",
        "the stream ends inside the message; have the message sent again whole, or salvage what stands before it",
        "the order of messages is broken; send at most one configuration, then one header text, then the data, and nothing after the close",
        "the stream ends without a close; wait for the rest, or salvage the stream if the recording is over: that adds the close (04 00)",
        "the output is too short, or the position is past its end; give a longer output",
        "the index that was given is not the one that this stream yields; write the index again, or ask without one",
        "there is no such record, or no such byte; ask for a record number below the count, for counters that an acquisition has, or for a byte below the stream's length",
        "the record has no such part or channel; ask for a part of the record's kind, or a channel below its number of active channels",
        "a part to be written has another length than its header says, or its kind lacks it; give the kind's own parts in their lengths, and leave the others empty",
        "a message begins after 1,000,000 messages; close the stream before it, and begin another",
        "no header element starts at that offset, or the record has no header; take an offset from the table of the record's header",
        "a name, a text or the attributes of an image are not UTF-8, as the strict profile demands; have the sender write its texts in UTF-8, or choose the plain profile"
    };
    if (refusal >= sizeof texts / sizeof texts[0])
        return "no refusal has this number; the library and its header may be of different versions";
    return texts[refusal];
}

/* The limits of a stream. */
enum {
    MRD_MAX_MESSAGE_SIZE = 268435456, /* bytes of one message, its id included */
    MRD_MAX_MESSAGES = 1000000        /* messages of one stream */
};

/* The kinds of message, by id. */
enum {
    MRD_ID_CONFIGURATION_NAME = 1,
    MRD_ID_CONFIGURATION_TEXT = 2,
    MRD_ID_HEADER_TEXT = 3,
    MRD_ID_CLOSE = 4,
    MRD_ID_TEXT = 5,
    MRD_ID_ACQUISITION = 1008,
    MRD_ID_IMAGE = 1022,
    MRD_ID_WAVEFORM = 1026
};

/* Where each element of the acquisition header (id 1008) starts, counted from the header's first byte.
 * Element i of an array lies i times its type's size further. */
enum {
    MRD_ACQUISITION_VERSION = 0,                  /* uint16_t */
    MRD_ACQUISITION_FLAGS = 2,                    /* uint64_t */
    MRD_ACQUISITION_MEASUREMENT_UID = 10,         /* uint32_t */
    MRD_ACQUISITION_SCAN_COUNTER = 14,            /* uint32_t */
    MRD_ACQUISITION_ACQUISITION_TIME_STAMP = 18,  /* uint32_t */
    MRD_ACQUISITION_PHYSIOLOGY_TIME_STAMP = 22,   /* uint32_t[3] */
    MRD_ACQUISITION_NUMBER_OF_SAMPLES = 34,       /* uint16_t */
    MRD_ACQUISITION_AVAILABLE_CHANNELS = 36,      /* uint16_t */
    MRD_ACQUISITION_ACTIVE_CHANNELS = 38,         /* uint16_t */
    MRD_ACQUISITION_CHANNEL_MASK = 40,            /* uint64_t[16] */
    MRD_ACQUISITION_DISCARD_PRE = 168,            /* uint16_t */
    MRD_ACQUISITION_DISCARD_POST = 170,           /* uint16_t */
    MRD_ACQUISITION_CENTER_SAMPLE = 172,          /* uint16_t */
    MRD_ACQUISITION_ENCODING_SPACE_REF = 174,     /* uint16_t */
    MRD_ACQUISITION_TRAJECTORY_DIMENSIONS = 176,  /* uint16_t */
    MRD_ACQUISITION_SAMPLE_TIME_US = 178,         /* float */
    MRD_ACQUISITION_POSITION = 182,               /* float[3] */
    MRD_ACQUISITION_READ_DIR = 194,               /* float[3] */
    MRD_ACQUISITION_PHASE_DIR = 206,              /* float[3] */
    MRD_ACQUISITION_SLICE_DIR = 218,              /* float[3] */
    MRD_ACQUISITION_PATIENT_TABLE_POSITION = 230, /* float[3] */
    MRD_ACQUISITION_COUNTERS = 242,               /* uint16_t[17] */
    MRD_ACQUISITION_USER_INT = 276,               /* int32_t[8] */
    MRD_ACQUISITION_USER_FLOAT = 308,             /* float[8] */
    MRD_ACQUISITION_HEADER_SIZE = 340             /* bytes */
};

/* Where each element of the image header (id 1022) starts, counted from the header's first byte.
 * Element i of an array lies i times its type's size further. */
enum {
    MRD_IMAGE_VERSION = 0,                  /* uint16_t */
    MRD_IMAGE_DATA_TYPE = 2,                /* uint16_t */
    MRD_IMAGE_FLAGS = 4,                    /* uint64_t */
    MRD_IMAGE_MEASUREMENT_UID = 12,         /* uint32_t */
    MRD_IMAGE_MATRIX_SIZE = 16,             /* uint16_t[3] */
    MRD_IMAGE_FIELD_OF_VIEW = 22,           /* float[3] */
    MRD_IMAGE_CHANNELS = 34,                /* uint16_t */
    MRD_IMAGE_POSITION = 36,                /* float[3] */
    MRD_IMAGE_READ_DIR = 48,                /* float[3] */
    MRD_IMAGE_PHASE_DIR = 60,               /* float[3] */
    MRD_IMAGE_SLICE_DIR = 72,               /* float[3] */
    MRD_IMAGE_PATIENT_TABLE_POSITION = 84,  /* float[3] */
    MRD_IMAGE_AVERAGE = 96,                 /* uint16_t */
    MRD_IMAGE_SLICE = 98,                   /* uint16_t */
    MRD_IMAGE_CONTRAST = 100,               /* uint16_t */
    MRD_IMAGE_PHASE = 102,                  /* uint16_t */
    MRD_IMAGE_REPETITION = 104,             /* uint16_t */
    MRD_IMAGE_SET = 106,                    /* uint16_t */
    MRD_IMAGE_ACQUISITION_TIME_STAMP = 108, /* uint32_t */
    MRD_IMAGE_PHYSIOLOGY_TIME_STAMP = 112,  /* uint32_t[3] */
    MRD_IMAGE_IMAGE_TYPE = 124,             /* uint16_t */
    MRD_IMAGE_IMAGE_INDEX = 126,            /* uint16_t */
    MRD_IMAGE_IMAGE_SERIES_INDEX = 128,     /* uint16_t */
    MRD_IMAGE_USER_INT = 130,               /* int32_t[8] */
    MRD_IMAGE_USER_FLOAT = 162,             /* float[8] */
    MRD_IMAGE_ATTRIBUTE_STRING_LEN = 194,   /* uint32_t */
    MRD_IMAGE_HEADER_SIZE = 198             /* bytes */
};

/* Where each element of the waveform header (id 1026) starts, counted from the header's first byte.
 * Element i of an array lies i times its type's size further. */
enum {
    MRD_WAVEFORM_VERSION = 0,            /* uint16_t */
    MRD_WAVEFORM_FLAGS = 2,              /* uint64_t */
    MRD_WAVEFORM_MEASUREMENT_UID = 10,   /* uint32_t */
    MRD_WAVEFORM_SCAN_COUNTER = 14,      /* uint32_t */
    MRD_WAVEFORM_TIME_STAMP = 18,        /* uint32_t */
    MRD_WAVEFORM_NUMBER_OF_SAMPLES = 22, /* uint16_t */
    MRD_WAVEFORM_CHANNELS = 24,          /* uint16_t */
    MRD_WAVEFORM_SAMPLE_TIME_US = 26,    /* float */
    MRD_WAVEFORM_WAVEFORM_ID = 30,       /* uint16_t */
    MRD_WAVEFORM_HEADER_SIZE = 32        /* bytes */
};

/* Where each element of the aligned waveform header (id 1026) starts, counted from the header's first byte.
 * Bytes 2 to 7, 38 and 39 are filler, where none starts. */
enum {
    MRD_ALIGNED_WAVEFORM_VERSION = 0,            /* uint16_t */
    MRD_ALIGNED_WAVEFORM_FLAGS = 8,              /* uint64_t */
    MRD_ALIGNED_WAVEFORM_MEASUREMENT_UID = 16,   /* uint32_t */
    MRD_ALIGNED_WAVEFORM_SCAN_COUNTER = 20,      /* uint32_t */
    MRD_ALIGNED_WAVEFORM_TIME_STAMP = 24,        /* uint32_t */
    MRD_ALIGNED_WAVEFORM_NUMBER_OF_SAMPLES = 28, /* uint16_t */
    MRD_ALIGNED_WAVEFORM_CHANNELS = 30,          /* uint16_t */
    MRD_ALIGNED_WAVEFORM_SAMPLE_TIME_US = 32,    /* float */
    MRD_ALIGNED_WAVEFORM_WAVEFORM_ID = 36,       /* uint16_t */
    MRD_ALIGNED_WAVEFORM_HEADER_SIZE = 40        /* bytes */
};

/* The seventeen counters of an acquisition (ISMRMRD's idx), by their place in mrd_find's array; in the
 * header counter i starts at MRD_ACQUISITION_COUNTERS + 2 * i. */
enum {
    MRD_COUNTER_KSPACE_ENCODE_STEP_1 = 0,
    MRD_COUNTER_KSPACE_ENCODE_STEP_2 = 1,
    MRD_COUNTER_AVERAGE = 2,
    MRD_COUNTER_SLICE = 3,
    MRD_COUNTER_CONTRAST = 4,
    MRD_COUNTER_PHASE = 5,
    MRD_COUNTER_REPETITION = 6,
    MRD_COUNTER_SET = 7,
    MRD_COUNTER_SEGMENT = 8,
    MRD_COUNTER_USER_0 = 9,
    MRD_COUNTER_USER_1 = 10,
    MRD_COUNTER_USER_2 = 11,
    MRD_COUNTER_USER_3 = 12,
    MRD_COUNTER_USER_4 = 13,
    MRD_COUNTER_USER_5 = 14,
    MRD_COUNTER_USER_6 = 15,
    MRD_COUNTER_USER_7 = 16,
    MRD_COUNTERS = 17                     /* how many there are */
};

/* Elements by the offset at which they start, for mrd_element_name. */
typedef struct {
    size_t offset;
    const char *name;
} mrd_element;

static inline const char *mrd_element_in(const mrd_element *elements, size_t count, size_t offset)
{
    for (size_t i = 0; i < count; i++)
        if (elements[i].offset == offset)
            return elements[i].name;
    return NULL;
}

static inline const char *mrd_acquisition_element_name(size_t offset)
{
    static const mrd_element elements[] = {
        {0, "version"},
        {2, "flags"},
        {10, "measurement_uid"},
        {14, "scan_counter"},
        {18, "acquisition_time_stamp"},
        {22, "physiology_time_stamp[0]"}, {26, "physiology_time_stamp[1]"}, {30, "physiology_time_stamp[2]"},
        {34, "number_of_samples"},
        {36, "available_channels"},
        {38, "active_channels"},
        {40, "channel_mask[0]"}, {48, "channel_mask[1]"}, {56, "channel_mask[2]"}, {64, "channel_mask[3]"},
        {72, "channel_mask[4]"}, {80, "channel_mask[5]"}, {88, "channel_mask[6]"}, {96, "channel_mask[7]"},
        {104, "channel_mask[8]"}, {112, "channel_mask[9]"}, {120, "channel_mask[10]"}, {128, "channel_mask[11]"},
        {136, "channel_mask[12]"}, {144, "channel_mask[13]"}, {152, "channel_mask[14]"}, {160, "channel_mask[15]"},
        {168, "discard_pre"},
        {170, "discard_post"},
        {172, "center_sample"},
        {174, "encoding_space_ref"},
        {176, "trajectory_dimensions"},
        {178, "sample_time_us"},
        {182, "position[0]"}, {186, "position[1]"}, {190, "position[2]"},
        {194, "read_dir[0]"}, {198, "read_dir[1]"}, {202, "read_dir[2]"},
        {206, "phase_dir[0]"}, {210, "phase_dir[1]"}, {214, "phase_dir[2]"},
        {218, "slice_dir[0]"}, {222, "slice_dir[1]"}, {226, "slice_dir[2]"},
        {230, "patient_table_position[0]"}, {234, "patient_table_position[1]"}, {238, "patient_table_position[2]"},
        {242, "counters.kspace_encode_step_1"}, {244, "counters.kspace_encode_step_2"}, {246, "counters.average"},
        {248, "counters.slice"}, {250, "counters.contrast"}, {252, "counters.phase"}, {254, "counters.repetition"},
        {256, "counters.set"}, {258, "counters.segment"}, {260, "counters.user[0]"}, {262, "counters.user[1]"},
        {264, "counters.user[2]"}, {266, "counters.user[3]"}, {268, "counters.user[4]"}, {270, "counters.user[5]"},
        {272, "counters.user[6]"}, {274, "counters.user[7]"},
        {276, "user_int[0]"}, {280, "user_int[1]"}, {284, "user_int[2]"}, {288, "user_int[3]"},
        {292, "user_int[4]"}, {296, "user_int[5]"}, {300, "user_int[6]"}, {304, "user_int[7]"},
        {308, "user_float[0]"}, {312, "user_float[1]"}, {316, "user_float[2]"}, {320, "user_float[3]"},
        {324, "user_float[4]"}, {328, "user_float[5]"}, {332, "user_float[6]"}, {336, "user_float[7]"}
    };
    return mrd_element_in(elements, sizeof elements / sizeof elements[0], offset);
}

static inline const char *mrd_image_element_name(size_t offset)
{
    static const mrd_element elements[] = {
        {0, "version"},
        {2, "data_type"},
        {4, "flags"},
        {12, "measurement_uid"},
        {16, "matrix_size[0]"}, {18, "matrix_size[1]"}, {20, "matrix_size[2]"},
        {22, "field_of_view[0]"}, {26, "field_of_view[1]"}, {30, "field_of_view[2]"},
        {34, "channels"},
        {36, "position[0]"}, {40, "position[1]"}, {44, "position[2]"},
        {48, "read_dir[0]"}, {52, "read_dir[1]"}, {56, "read_dir[2]"},
        {60, "phase_dir[0]"}, {64, "phase_dir[1]"}, {68, "phase_dir[2]"},
        {72, "slice_dir[0]"}, {76, "slice_dir[1]"}, {80, "slice_dir[2]"},
        {84, "patient_table_position[0]"}, {88, "patient_table_position[1]"}, {92, "patient_table_position[2]"},
        {96, "average"},
        {98, "slice"},
        {100, "contrast"},
        {102, "phase"},
        {104, "repetition"},
        {106, "set"},
        {108, "acquisition_time_stamp"},
        {112, "physiology_time_stamp[0]"}, {116, "physiology_time_stamp[1]"}, {120, "physiology_time_stamp[2]"},
        {124, "image_type"},
        {126, "image_index"},
        {128, "image_series_index"},
        {130, "user_int[0]"}, {134, "user_int[1]"}, {138, "user_int[2]"}, {142, "user_int[3]"},
        {146, "user_int[4]"}, {150, "user_int[5]"}, {154, "user_int[6]"}, {158, "user_int[7]"},
        {162, "user_float[0]"}, {166, "user_float[1]"}, {170, "user_float[2]"}, {174, "user_float[3]"},
        {178, "user_float[4]"}, {182, "user_float[5]"}, {186, "user_float[6]"}, {190, "user_float[7]"},
        {194, "attribute_string_len"}
    };
    return mrd_element_in(elements, sizeof elements / sizeof elements[0], offset);
}

static inline const char *mrd_waveform_element_name(size_t offset)
{
    static const mrd_element elements[] = {
        {0, "version"},
        {2, "flags"},
        {10, "measurement_uid"},
        {14, "scan_counter"},
        {18, "time_stamp"},
        {22, "number_of_samples"},
        {24, "channels"},
        {26, "sample_time_us"},
        {30, "waveform_id"}
    };
    return mrd_element_in(elements, sizeof elements / sizeof elements[0], offset);
}

static inline const char *mrd_aligned_waveform_element_name(size_t offset)
{
    static const mrd_element elements[] = {
        {0, "version"},
        {8, "flags"},
        {16, "measurement_uid"},
        {20, "scan_counter"},
        {24, "time_stamp"},
        {28, "number_of_samples"},
        {30, "channels"},
        {32, "sample_time_us"},
        {36, "waveform_id"}
    };
    return mrd_element_in(elements, sizeof elements / sizeof elements[0], offset);
}

/* The name of the header element that starts at an offset, as ISMRMRD spells it: "flags", "user_int[3]", of a
 * counter "counters.slice". NULL where none starts there, and for a kind without a header. */
static inline const char *mrd_element_name(uint16_t id, bool aligned_waveforms, size_t offset)
{
    switch (id) {
    case MRD_ID_ACQUISITION:
        return mrd_acquisition_element_name(offset);
    case MRD_ID_IMAGE:
        return mrd_image_element_name(offset);
    case MRD_ID_WAVEFORM:
        return aligned_waveforms ? mrd_aligned_waveform_element_name(offset) : mrd_waveform_element_name(offset);
    default:
        return NULL;
    }
}

/* The acquisition flags, for mrd_flag_test and its like. Flag n is bit n - 1. */
enum {
    MRD_FLAG_FIRST_IN_ENCODE_STEP1 = 1,
    MRD_FLAG_LAST_IN_ENCODE_STEP1 = 2,
    MRD_FLAG_FIRST_IN_ENCODE_STEP2 = 3,
    MRD_FLAG_LAST_IN_ENCODE_STEP2 = 4,
    MRD_FLAG_FIRST_IN_AVERAGE = 5,
    MRD_FLAG_LAST_IN_AVERAGE = 6,
    MRD_FLAG_FIRST_IN_SLICE = 7,
    MRD_FLAG_LAST_IN_SLICE = 8,
    MRD_FLAG_FIRST_IN_CONTRAST = 9,
    MRD_FLAG_LAST_IN_CONTRAST = 10,
    MRD_FLAG_FIRST_IN_PHASE = 11,
    MRD_FLAG_LAST_IN_PHASE = 12,
    MRD_FLAG_FIRST_IN_REPETITION = 13,
    MRD_FLAG_LAST_IN_REPETITION = 14,
    MRD_FLAG_FIRST_IN_SET = 15,
    MRD_FLAG_LAST_IN_SET = 16,
    MRD_FLAG_FIRST_IN_SEGMENT = 17,
    MRD_FLAG_LAST_IN_SEGMENT = 18,
    MRD_FLAG_IS_NOISE_MEASUREMENT = 19,
    MRD_FLAG_IS_PARALLEL_CALIBRATION = 20,
    MRD_FLAG_IS_PARALLEL_CALIBRATION_AND_IMAGING = 21,
    MRD_FLAG_IS_REVERSE = 22,
    MRD_FLAG_IS_NAVIGATION_DATA = 23,
    MRD_FLAG_IS_PHASECORR_DATA = 24,
    MRD_FLAG_LAST_IN_MEASUREMENT = 25,
    MRD_FLAG_IS_HPFEEDBACK_DATA = 26,
    MRD_FLAG_IS_DUMMYSCAN_DATA = 27,
    MRD_FLAG_IS_RTFEEDBACK_DATA = 28,
    MRD_FLAG_IS_SURFACECOILCORRECTIONSCAN_DATA = 29,
    MRD_FLAG_COMPRESSION1 = 53,
    MRD_FLAG_COMPRESSION2 = 54,
    MRD_FLAG_COMPRESSION3 = 55,
    MRD_FLAG_COMPRESSION4 = 56,
    MRD_FLAG_USER1 = 57,
    MRD_FLAG_USER2 = 58,
    MRD_FLAG_USER3 = 59,
    MRD_FLAG_USER4 = 60,
    MRD_FLAG_USER5 = 61,
    MRD_FLAG_USER6 = 62,
    MRD_FLAG_USER7 = 63,
    MRD_FLAG_USER8 = 64
};

/* The data types of an image's pixels. */
enum {
    MRD_DATA_TYPE_USHORT = 1,   /* uint16_t, 2 bytes */
    MRD_DATA_TYPE_SHORT = 2,    /* int16_t, 2 bytes */
    MRD_DATA_TYPE_UINT = 3,     /* uint32_t, 4 bytes */
    MRD_DATA_TYPE_INT = 4,      /* int32_t, 4 bytes */
    MRD_DATA_TYPE_FLOAT = 5,    /* float, 4 bytes */
    MRD_DATA_TYPE_DOUBLE = 6,   /* double, 8 bytes */
    MRD_DATA_TYPE_CXFLOAT = 7,  /* a pair of floats, 8 bytes */
    MRD_DATA_TYPE_CXDOUBLE = 8  /* a pair of doubles, 16 bytes */
};

/* What an image shows, in its header's image_type; it is not checked. */
enum {
    MRD_IMAGE_TYPE_MAGNITUDE = 1,
    MRD_IMAGE_TYPE_PHASE = 2,
    MRD_IMAGE_TYPE_REAL = 3,
    MRD_IMAGE_TYPE_IMAG = 4,
    MRD_IMAGE_TYPE_COMPLEX = 5,
    MRD_IMAGE_TYPE_RGB = 6
};

#endif
