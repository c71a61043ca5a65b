//! Names and numbers of MRD message streams.
//! Written by tests/names from the definitions in crates/: change those, not this file.

use crate::rules::Layout;

/// The numbers of refusal.
pub mod refused {
    /// One byte remains where an id is due.
    pub const ID_CUT: u32 = 1;
    /// The id is not in the table of kinds.
    pub const UNKNOWN_ID: u32 = 2;
    /// The fixed part doesn't fit in what remains; of the writer: the header bytes are not as long as the kind's fixed header.
    pub const FIXED_PART_CUT: u32 = 3;
    /// The version is not 1.
    pub const VERSION: u32 = 4;
    /// No zero among the name's 1,024 bytes; of the writer: a name over 1,023 bytes or holding a zero.
    pub const NAME: u32 = 5;
    /// Active channels above available.
    pub const CHANNELS: u32 = 6;
    /// Discard pre plus discard post above the number of samples.
    pub const DISCARD: u32 = 7;
    /// An image's data type is not 1 to 8.
    pub const DATA_TYPE: u32 = 8;
    /// An image header's attribute length is neither 0 nor the 8-byte length after it.
    pub const ATTRIBUTE_LENGTH: u32 = 9;
    /// The whole message, id included, is over 268,435,456 bytes.
    pub const TOO_LARGE: u32 = 10;
    /// The whole message doesn't fit in what remains.
    pub const MESSAGE_CUT: u32 = 11;
    /// The order of messages is broken.
    pub const ORDER: u32 = 12;
    /// The stream ends without a close.
    pub const NO_CLOSE: u32 = 13;
    /// The output is too short, or the start position is past its end.
    pub const OUTPUT_SHORT: u32 = 14;
    /// The index differs from the one the stream yields.
    pub const INDEX_DIFFERS: u32 = 15;
    /// There is no such record, or no such byte.
    pub const NO_RECORD: u32 = 16;
    /// The record has no such part or channel.
    pub const NO_PART: u32 = 17;
    /// Of the writer: a body's length isn't what its header says, or a part its kind lacks isn't empty.
    pub const BODY_LENGTH: u32 = 18;
    /// A message begins after 1,000,000 messages.
    pub const TOO_MANY: u32 = 19;
    /// No header element starts at that offset, or the record has no header.
    pub const NO_FIELD: u32 = 20;
    /// In the strict profile: a name, a text or attributes are not UTF-8.
    pub const TEXT_NOT_UTF8: u32 = 21;
}

/// What is wrong and what to do, for each number of refusal from 1 on.
pub(crate) const SENTENCES: [(&str, &str); 21] = [
    (
        "one byte remains where an id is due",
        "have the rest of the recording sent again, or salvage what stands before this byte",
    ),
    (
        "the id names no kind of message",
        "check that this is an MRD stream and that nothing was lost before this message",
    ),
    (
        "the stream ends inside the fixed part of the message, or a header to be written has another length than its kind's",
        "have the message sent again whole, or salvage what stands before it; to write one, give 340, 198, 32 (of an aligned waveform 40) or no header bytes as the kind asks",
    ),
    (
        "the version in the header is not 1",
        "have the sender write version 1 of the header",
    ),
    (
        "a configuration name has no zero in its 1,024 bytes, or one to be written is too long or holds a zero",
        "give a name of at most 1,023 bytes without a zero",
    ),
    (
        "more channels are active than available",
        "correct the two channel numbers of the acquisition header",
    ),
    (
        "discard_pre and discard_post together exceed the number of samples",
        "correct these numbers of the acquisition header",
    ),
    (
        "the image data type is not 1 to 8",
        "correct the data type of the image header",
    ),
    (
        "the image header's attribute length is neither 0 nor the one in the 8 bytes after it",
        "write in the header the length that those 8 bytes have, or 0",
    ),
    (
        "the message has over 268,435,456 bytes",
        "check the sizes in its header, or send the data in several messages",
    ),
    (
        "the stream ends inside the message",
        "have the message sent again whole, or salvage what stands before it",
    ),
    (
        "the order of messages is broken",
        "send at most one configuration, then one header text, then the data, and nothing after the close",
    ),
    (
        "the stream ends without a close",
        "wait for the rest, or salvage the stream if the recording is over: that adds the close (04 00)",
    ),
    (
        "the output is too short, or the position is past its end",
        "give a longer output",
    ),
    (
        "the index that was given is not the one that this stream yields",
        "write the index again, or ask without one",
    ),
    (
        "there is no such record, or no such byte",
        "ask for a record number below the count, for counters that an acquisition has, or for a byte below the stream's length",
    ),
    (
        "the record has no such part or channel",
        "ask for a part of the record's kind, or a channel below its number of active channels",
    ),
    (
        "a part to be written has another length than its header says, or its kind lacks it",
        "give the kind's own parts in their lengths, and leave the others empty",
    ),
    (
        "a message begins after 1,000,000 messages",
        "close the stream before it, and begin another",
    ),
    (
        "no header element starts at that offset, or the record has no header",
        "take an offset from the table of the record's header",
    ),
    (
        "a name, a text or the attributes of an image are not UTF-8, as the strict profile demands",
        "have the sender write its texts in UTF-8, or choose the plain profile",
    ),
];

/// The largest message, in bytes, its id included.
pub const MAX_MESSAGE_SIZE: usize = 268435456;

/// The most messages of one stream.
pub const MAX_MESSAGES: usize = 1000000;

/// The ids of the eight kinds of message.
pub mod id {
    /// A configuration name.
    pub const CONFIGURATION_NAME: u16 = 1;
    /// A configuration text.
    pub const CONFIGURATION_TEXT: u16 = 2;
    /// A header text.
    pub const HEADER_TEXT: u16 = 3;
    /// The close.
    pub const CLOSE: u16 = 4;
    /// A text.
    pub const TEXT: u16 = 5;
    /// An acquisition.
    pub const ACQUISITION: u16 = 1008;
    /// An image.
    pub const IMAGE: u16 = 1022;
    /// A waveform.
    pub const WAVEFORM: u16 = 1026;
}

/// Where each header element starts, counted from the header's first byte: the offsets that [`field`](crate::Stream::field) takes. Element i of an array lies i times its type's size further.
pub mod offset {
    /// In the header of an acquisition, 340 bytes.
    pub mod acquisition {
        /// `u16`.
        pub const VERSION: usize = 0;
        /// `u64`.
        pub const FLAGS: usize = 2;
        /// `u32`.
        pub const MEASUREMENT_UID: usize = 10;
        /// `u32`.
        pub const SCAN_COUNTER: usize = 14;
        /// `u32`.
        pub const ACQUISITION_TIME_STAMP: usize = 18;
        /// `[u32; 3]`.
        pub const PHYSIOLOGY_TIME_STAMP: usize = 22;
        /// `u16`.
        pub const NUMBER_OF_SAMPLES: usize = 34;
        /// `u16`.
        pub const AVAILABLE_CHANNELS: usize = 36;
        /// `u16`.
        pub const ACTIVE_CHANNELS: usize = 38;
        /// `[u64; 16]`.
        pub const CHANNEL_MASK: usize = 40;
        /// `u16`.
        pub const DISCARD_PRE: usize = 168;
        /// `u16`.
        pub const DISCARD_POST: usize = 170;
        /// `u16`.
        pub const CENTER_SAMPLE: usize = 172;
        /// `u16`.
        pub const ENCODING_SPACE_REF: usize = 174;
        /// `u16`.
        pub const TRAJECTORY_DIMENSIONS: usize = 176;
        /// `f32`.
        pub const SAMPLE_TIME_US: usize = 178;
        /// `[f32; 3]`.
        pub const POSITION: usize = 182;
        /// `[f32; 3]`.
        pub const READ_DIR: usize = 194;
        /// `[f32; 3]`.
        pub const PHASE_DIR: usize = 206;
        /// `[f32; 3]`.
        pub const SLICE_DIR: usize = 218;
        /// `[f32; 3]`.
        pub const PATIENT_TABLE_POSITION: usize = 230;
        /// `[u16; 17]`.
        pub const COUNTERS: usize = 242;
        /// `[i32; 8]`.
        pub const USER_INT: usize = 276;
        /// `[f32; 8]`.
        pub const USER_FLOAT: usize = 308;
    }
    /// In the header of an image, 198 bytes.
    pub mod image {
        /// `u16`.
        pub const VERSION: usize = 0;
        /// `u16`.
        pub const DATA_TYPE: usize = 2;
        /// `u64`.
        pub const FLAGS: usize = 4;
        /// `u32`.
        pub const MEASUREMENT_UID: usize = 12;
        /// `[u16; 3]`.
        pub const MATRIX_SIZE: usize = 16;
        /// `[f32; 3]`.
        pub const FIELD_OF_VIEW: usize = 22;
        /// `u16`.
        pub const CHANNELS: usize = 34;
        /// `[f32; 3]`.
        pub const POSITION: usize = 36;
        /// `[f32; 3]`.
        pub const READ_DIR: usize = 48;
        /// `[f32; 3]`.
        pub const PHASE_DIR: usize = 60;
        /// `[f32; 3]`.
        pub const SLICE_DIR: usize = 72;
        /// `[f32; 3]`.
        pub const PATIENT_TABLE_POSITION: usize = 84;
        /// `u16`.
        pub const AVERAGE: usize = 96;
        /// `u16`.
        pub const SLICE: usize = 98;
        /// `u16`.
        pub const CONTRAST: usize = 100;
        /// `u16`.
        pub const PHASE: usize = 102;
        /// `u16`.
        pub const REPETITION: usize = 104;
        /// `u16`.
        pub const SET: usize = 106;
        /// `u32`.
        pub const ACQUISITION_TIME_STAMP: usize = 108;
        /// `[u32; 3]`.
        pub const PHYSIOLOGY_TIME_STAMP: usize = 112;
        /// `u16`.
        pub const IMAGE_TYPE: usize = 124;
        /// `u16`.
        pub const IMAGE_INDEX: usize = 126;
        /// `u16`.
        pub const IMAGE_SERIES_INDEX: usize = 128;
        /// `[i32; 8]`.
        pub const USER_INT: usize = 130;
        /// `[f32; 8]`.
        pub const USER_FLOAT: usize = 162;
        /// `u32`.
        pub const ATTRIBUTE_STRING_LEN: usize = 194;
    }
    /// In the header of a waveform, 32 bytes.
    pub mod waveform {
        /// `u16`.
        pub const VERSION: usize = 0;
        /// `u64`.
        pub const FLAGS: usize = 2;
        /// `u32`.
        pub const MEASUREMENT_UID: usize = 10;
        /// `u32`.
        pub const SCAN_COUNTER: usize = 14;
        /// `u32`.
        pub const TIME_STAMP: usize = 18;
        /// `u16`.
        pub const NUMBER_OF_SAMPLES: usize = 22;
        /// `u16`.
        pub const CHANNELS: usize = 24;
        /// `f32`.
        pub const SAMPLE_TIME_US: usize = 26;
        /// `u16`.
        pub const WAVEFORM_ID: usize = 30;
    }
    /// In the header of an aligned waveform, 40 bytes. Bytes 2 to 7, 38 and 39 are filler, where none starts.
    pub mod aligned_waveform {
        /// `u16`.
        pub const VERSION: usize = 0;
        /// `u64`.
        pub const FLAGS: usize = 8;
        /// `u32`.
        pub const MEASUREMENT_UID: usize = 16;
        /// `u32`.
        pub const SCAN_COUNTER: usize = 20;
        /// `u32`.
        pub const TIME_STAMP: usize = 24;
        /// `u16`.
        pub const NUMBER_OF_SAMPLES: usize = 28;
        /// `u16`.
        pub const CHANNELS: usize = 30;
        /// `f32`.
        pub const SAMPLE_TIME_US: usize = 32;
        /// `u16`.
        pub const WAVEFORM_ID: usize = 36;
    }
}

/// The seventeen counters of an acquisition (ISMRMRD's `idx`), by their place in the array.
pub mod counter {
    /// `kspace_encode_step_1`.
    pub const KSPACE_ENCODE_STEP_1: usize = 0;
    /// `kspace_encode_step_2`.
    pub const KSPACE_ENCODE_STEP_2: usize = 1;
    /// `average`.
    pub const AVERAGE: usize = 2;
    /// `slice`.
    pub const SLICE: usize = 3;
    /// `contrast`.
    pub const CONTRAST: usize = 4;
    /// `phase`.
    pub const PHASE: usize = 5;
    /// `repetition`.
    pub const REPETITION: usize = 6;
    /// `set`.
    pub const SET: usize = 7;
    /// `segment`.
    pub const SEGMENT: usize = 8;
    /// `user_0`.
    pub const USER_0: usize = 9;
    /// `user_1`.
    pub const USER_1: usize = 10;
    /// `user_2`.
    pub const USER_2: usize = 11;
    /// `user_3`.
    pub const USER_3: usize = 12;
    /// `user_4`.
    pub const USER_4: usize = 13;
    /// `user_5`.
    pub const USER_5: usize = 14;
    /// `user_6`.
    pub const USER_6: usize = 15;
    /// `user_7`.
    pub const USER_7: usize = 16;
}

/// The names of the seventeen counters, by their place in the array.
pub const COUNTER_NAMES: [&str; 17] = [
    "kspace_encode_step_1",
    "kspace_encode_step_2",
    "average",
    "slice",
    "contrast",
    "phase",
    "repetition",
    "set",
    "segment",
    "user_0",
    "user_1",
    "user_2",
    "user_3",
    "user_4",
    "user_5",
    "user_6",
    "user_7",
];

/// The elements of the acquisition header.
const ACQUISITION_ELEMENTS: [(usize, &str); 81] = [
    (0, "version"),
    (2, "flags"),
    (10, "measurement_uid"),
    (14, "scan_counter"),
    (18, "acquisition_time_stamp"),
    (22, "physiology_time_stamp[0]"),
    (26, "physiology_time_stamp[1]"),
    (30, "physiology_time_stamp[2]"),
    (34, "number_of_samples"),
    (36, "available_channels"),
    (38, "active_channels"),
    (40, "channel_mask[0]"),
    (48, "channel_mask[1]"),
    (56, "channel_mask[2]"),
    (64, "channel_mask[3]"),
    (72, "channel_mask[4]"),
    (80, "channel_mask[5]"),
    (88, "channel_mask[6]"),
    (96, "channel_mask[7]"),
    (104, "channel_mask[8]"),
    (112, "channel_mask[9]"),
    (120, "channel_mask[10]"),
    (128, "channel_mask[11]"),
    (136, "channel_mask[12]"),
    (144, "channel_mask[13]"),
    (152, "channel_mask[14]"),
    (160, "channel_mask[15]"),
    (168, "discard_pre"),
    (170, "discard_post"),
    (172, "center_sample"),
    (174, "encoding_space_ref"),
    (176, "trajectory_dimensions"),
    (178, "sample_time_us"),
    (182, "position[0]"),
    (186, "position[1]"),
    (190, "position[2]"),
    (194, "read_dir[0]"),
    (198, "read_dir[1]"),
    (202, "read_dir[2]"),
    (206, "phase_dir[0]"),
    (210, "phase_dir[1]"),
    (214, "phase_dir[2]"),
    (218, "slice_dir[0]"),
    (222, "slice_dir[1]"),
    (226, "slice_dir[2]"),
    (230, "patient_table_position[0]"),
    (234, "patient_table_position[1]"),
    (238, "patient_table_position[2]"),
    (242, "counters.kspace_encode_step_1"),
    (244, "counters.kspace_encode_step_2"),
    (246, "counters.average"),
    (248, "counters.slice"),
    (250, "counters.contrast"),
    (252, "counters.phase"),
    (254, "counters.repetition"),
    (256, "counters.set"),
    (258, "counters.segment"),
    (260, "counters.user[0]"),
    (262, "counters.user[1]"),
    (264, "counters.user[2]"),
    (266, "counters.user[3]"),
    (268, "counters.user[4]"),
    (270, "counters.user[5]"),
    (272, "counters.user[6]"),
    (274, "counters.user[7]"),
    (276, "user_int[0]"),
    (280, "user_int[1]"),
    (284, "user_int[2]"),
    (288, "user_int[3]"),
    (292, "user_int[4]"),
    (296, "user_int[5]"),
    (300, "user_int[6]"),
    (304, "user_int[7]"),
    (308, "user_float[0]"),
    (312, "user_float[1]"),
    (316, "user_float[2]"),
    (320, "user_float[3]"),
    (324, "user_float[4]"),
    (328, "user_float[5]"),
    (332, "user_float[6]"),
    (336, "user_float[7]"),
];

/// The elements of the image header.
const IMAGE_ELEMENTS: [(usize, &str); 56] = [
    (0, "version"),
    (2, "data_type"),
    (4, "flags"),
    (12, "measurement_uid"),
    (16, "matrix_size[0]"),
    (18, "matrix_size[1]"),
    (20, "matrix_size[2]"),
    (22, "field_of_view[0]"),
    (26, "field_of_view[1]"),
    (30, "field_of_view[2]"),
    (34, "channels"),
    (36, "position[0]"),
    (40, "position[1]"),
    (44, "position[2]"),
    (48, "read_dir[0]"),
    (52, "read_dir[1]"),
    (56, "read_dir[2]"),
    (60, "phase_dir[0]"),
    (64, "phase_dir[1]"),
    (68, "phase_dir[2]"),
    (72, "slice_dir[0]"),
    (76, "slice_dir[1]"),
    (80, "slice_dir[2]"),
    (84, "patient_table_position[0]"),
    (88, "patient_table_position[1]"),
    (92, "patient_table_position[2]"),
    (96, "average"),
    (98, "slice"),
    (100, "contrast"),
    (102, "phase"),
    (104, "repetition"),
    (106, "set"),
    (108, "acquisition_time_stamp"),
    (112, "physiology_time_stamp[0]"),
    (116, "physiology_time_stamp[1]"),
    (120, "physiology_time_stamp[2]"),
    (124, "image_type"),
    (126, "image_index"),
    (128, "image_series_index"),
    (130, "user_int[0]"),
    (134, "user_int[1]"),
    (138, "user_int[2]"),
    (142, "user_int[3]"),
    (146, "user_int[4]"),
    (150, "user_int[5]"),
    (154, "user_int[6]"),
    (158, "user_int[7]"),
    (162, "user_float[0]"),
    (166, "user_float[1]"),
    (170, "user_float[2]"),
    (174, "user_float[3]"),
    (178, "user_float[4]"),
    (182, "user_float[5]"),
    (186, "user_float[6]"),
    (190, "user_float[7]"),
    (194, "attribute_string_len"),
];

/// The elements of the waveform header.
const WAVEFORM_ELEMENTS: [(usize, &str); 9] = [
    (0, "version"),
    (2, "flags"),
    (10, "measurement_uid"),
    (14, "scan_counter"),
    (18, "time_stamp"),
    (22, "number_of_samples"),
    (24, "channels"),
    (26, "sample_time_us"),
    (30, "waveform_id"),
];

/// The elements of the aligned waveform header.
const ALIGNED_WAVEFORM_ELEMENTS: [(usize, &str); 9] = [
    (0, "version"),
    (8, "flags"),
    (16, "measurement_uid"),
    (20, "scan_counter"),
    (24, "time_stamp"),
    (28, "number_of_samples"),
    (30, "channels"),
    (32, "sample_time_us"),
    (36, "waveform_id"),
];

/// The name of the header element that starts at an offset, as ISMRMRD spells it: `flags`, `user_int[3]`, of a
/// counter `counters.slice`. None where none starts there, and for a kind without a header.
pub fn element_name(id: u16, layout: Layout, offset: usize) -> Option<&'static str> {
    let elements: &[(usize, &str)] = match (id, layout) {
        (id::ACQUISITION, _) => &ACQUISITION_ELEMENTS,
        (id::IMAGE, _) => &IMAGE_ELEMENTS,
        (id::WAVEFORM, Layout::Packed) => &WAVEFORM_ELEMENTS,
        (id::WAVEFORM, Layout::Aligned) => &ALIGNED_WAVEFORM_ELEMENTS,
        _ => return None,
    };
    let found = elements.binary_search_by_key(&offset, |(start, _)| *start);
    found.ok().map(|i| elements[i].1)
}

/// The acquisition flags by name, for [`flag_test`](crate::flag_test) and its like. Numbers that are not here have none.
pub mod acquisition_flag {
    /// Flag 1.
    pub const FIRST_IN_ENCODE_STEP1: u32 = 1;
    /// Flag 2.
    pub const LAST_IN_ENCODE_STEP1: u32 = 2;
    /// Flag 3.
    pub const FIRST_IN_ENCODE_STEP2: u32 = 3;
    /// Flag 4.
    pub const LAST_IN_ENCODE_STEP2: u32 = 4;
    /// Flag 5.
    pub const FIRST_IN_AVERAGE: u32 = 5;
    /// Flag 6.
    pub const LAST_IN_AVERAGE: u32 = 6;
    /// Flag 7.
    pub const FIRST_IN_SLICE: u32 = 7;
    /// Flag 8.
    pub const LAST_IN_SLICE: u32 = 8;
    /// Flag 9.
    pub const FIRST_IN_CONTRAST: u32 = 9;
    /// Flag 10.
    pub const LAST_IN_CONTRAST: u32 = 10;
    /// Flag 11.
    pub const FIRST_IN_PHASE: u32 = 11;
    /// Flag 12.
    pub const LAST_IN_PHASE: u32 = 12;
    /// Flag 13.
    pub const FIRST_IN_REPETITION: u32 = 13;
    /// Flag 14.
    pub const LAST_IN_REPETITION: u32 = 14;
    /// Flag 15.
    pub const FIRST_IN_SET: u32 = 15;
    /// Flag 16.
    pub const LAST_IN_SET: u32 = 16;
    /// Flag 17.
    pub const FIRST_IN_SEGMENT: u32 = 17;
    /// Flag 18.
    pub const LAST_IN_SEGMENT: u32 = 18;
    /// Flag 19.
    pub const IS_NOISE_MEASUREMENT: u32 = 19;
    /// Flag 20.
    pub const IS_PARALLEL_CALIBRATION: u32 = 20;
    /// Flag 21.
    pub const IS_PARALLEL_CALIBRATION_AND_IMAGING: u32 = 21;
    /// Flag 22.
    pub const IS_REVERSE: u32 = 22;
    /// Flag 23.
    pub const IS_NAVIGATION_DATA: u32 = 23;
    /// Flag 24.
    pub const IS_PHASECORR_DATA: u32 = 24;
    /// Flag 25.
    pub const LAST_IN_MEASUREMENT: u32 = 25;
    /// Flag 26.
    pub const IS_HPFEEDBACK_DATA: u32 = 26;
    /// Flag 27.
    pub const IS_DUMMYSCAN_DATA: u32 = 27;
    /// Flag 28.
    pub const IS_RTFEEDBACK_DATA: u32 = 28;
    /// Flag 29.
    pub const IS_SURFACECOILCORRECTIONSCAN_DATA: u32 = 29;
    /// Flag 53.
    pub const COMPRESSION1: u32 = 53;
    /// Flag 54.
    pub const COMPRESSION2: u32 = 54;
    /// Flag 55.
    pub const COMPRESSION3: u32 = 55;
    /// Flag 56.
    pub const COMPRESSION4: u32 = 56;
    /// Flag 57.
    pub const USER1: u32 = 57;
    /// Flag 58.
    pub const USER2: u32 = 58;
    /// Flag 59.
    pub const USER3: u32 = 59;
    /// Flag 60.
    pub const USER4: u32 = 60;
    /// Flag 61.
    pub const USER5: u32 = 61;
    /// Flag 62.
    pub const USER6: u32 = 62;
    /// Flag 63.
    pub const USER7: u32 = 63;
    /// Flag 64.
    pub const USER8: u32 = 64;
}

/// The name of an acquisition flag, `first_in_slice` for 7; none where its number has none.
pub fn flag_name(number: u32) -> Option<&'static str> {
    Some(match number {
        1 => "first_in_encode_step1",
        2 => "last_in_encode_step1",
        3 => "first_in_encode_step2",
        4 => "last_in_encode_step2",
        5 => "first_in_average",
        6 => "last_in_average",
        7 => "first_in_slice",
        8 => "last_in_slice",
        9 => "first_in_contrast",
        10 => "last_in_contrast",
        11 => "first_in_phase",
        12 => "last_in_phase",
        13 => "first_in_repetition",
        14 => "last_in_repetition",
        15 => "first_in_set",
        16 => "last_in_set",
        17 => "first_in_segment",
        18 => "last_in_segment",
        19 => "is_noise_measurement",
        20 => "is_parallel_calibration",
        21 => "is_parallel_calibration_and_imaging",
        22 => "is_reverse",
        23 => "is_navigation_data",
        24 => "is_phasecorr_data",
        25 => "last_in_measurement",
        26 => "is_hpfeedback_data",
        27 => "is_dummyscan_data",
        28 => "is_rtfeedback_data",
        29 => "is_surfacecoilcorrectionscan_data",
        53 => "compression1",
        54 => "compression2",
        55 => "compression3",
        56 => "compression4",
        57 => "user1",
        58 => "user2",
        59 => "user3",
        60 => "user4",
        61 => "user5",
        62 => "user6",
        63 => "user7",
        64 => "user8",
        _ => return None,
    })
}

/// The data types of an image's pixels.
pub mod data_type {
    /// `uint16_t`, 2 bytes.
    pub const USHORT: u16 = 1;
    /// `int16_t`, 2 bytes.
    pub const SHORT: u16 = 2;
    /// `uint32_t`, 4 bytes.
    pub const UINT: u16 = 3;
    /// `int32_t`, 4 bytes.
    pub const INT: u16 = 4;
    /// `float`, 4 bytes.
    pub const FLOAT: u16 = 5;
    /// `double`, 8 bytes.
    pub const DOUBLE: u16 = 6;
    /// `a pair of floats`, 8 bytes.
    pub const CXFLOAT: u16 = 7;
    /// `a pair of doubles`, 16 bytes.
    pub const CXDOUBLE: u16 = 8;
}

/// What an image shows; it is not checked.
pub mod image_type {
    /// Number 1.
    pub const MAGNITUDE: u16 = 1;
    /// Number 2.
    pub const PHASE: u16 = 2;
    /// Number 3.
    pub const REAL: u16 = 3;
    /// Number 4.
    pub const IMAG: u16 = 4;
    /// Number 5.
    pub const COMPLEX: u16 = 5;
    /// Number 6.
    pub const RGB: u16 = 6;
}

/// The name of a data type of pixels, `cxfloat` for 7; none where there is no such type.
pub fn data_type_name(number: u16) -> Option<&'static str> {
    Some(match number {
        1 => "ushort",
        2 => "short",
        3 => "uint",
        4 => "int",
        5 => "float",
        6 => "double",
        7 => "cxfloat",
        8 => "cxdouble",
        _ => return None,
    })
}

/// The name of what an image shows, `magnitude` for 1; none where its number has none.
pub fn image_type_name(number: u16) -> Option<&'static str> {
    Some(match number {
        1 => "magnitude",
        2 => "phase",
        3 => "real",
        4 => "imag",
        5 => "complex",
        6 => "rgb",
        _ => return None,
    })
}
