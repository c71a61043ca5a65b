//! The wrapper itself: that each call reaches the library's function with its arguments in place, and that
//! refusals are given in full. Whether the answers are right for every stream is tested in tests/against.

use cotterleaf::*;
use std::collections::BTreeSet;

const ALL_KINDS: &[u8] = include_bytes!("../../samples/all_kinds.mrd");

/// A text of two bytes and the close.
const SHORT: [u8; 10] = [5, 0, 2, 0, 0, 0, b'h', b'i', 4, 0];

fn packed(bytes: &[u8]) -> Stream<'_> {
    Stream::new(Rules::packed(), bytes)
}

fn aligned(bytes: &[u8]) -> Stream<'_> {
    Stream::new(Rules::aligned(), bytes)
}

/// The same bytes by the strict profile.
fn strictly<'a>(stream: &Stream<'a>) -> Stream<'a> {
    Stream::new(stream.rules().strict(), stream.bytes())
}

fn number_of<T: std::fmt::Debug>(answer: Result<T, Refusal>) -> u32 {
    answer.expect_err("a refusal").number
}

/// The same index as a file and as columns.
struct Kept {
    file: Vec<u8>,
    starts: Vec<u64>,
    ids: Vec<u16>,
    counters: Vec<u32>,
}

impl Kept {
    fn of(stream: &Stream) -> Kept {
        let count = stream.check().expect("an accepted stream");
        let mut kept = Kept {
            file: vec![0; 23 + 17 * count],
            starts: vec![0; count],
            ids: vec![0; count],
            counters: vec![0; count],
        };
        assert_eq!(stream.write_index(&mut kept.file), Ok(kept.file.len()));
        let filled = stream.fill_columns(&mut kept.starts, &mut kept.ids, &mut kept.counters);
        assert_eq!(filled, Ok(count));
        kept
    }

    fn forms(&self) -> [Index<'_>; 2] {
        let columns = Index::Columns {
            starts: &self.starts,
            ids: &self.ids,
            counters: &self.counters,
        };
        [Index::File(&self.file), columns]
    }
}

#[test]
fn records_come_once_each_and_then_the_refusal() {
    let whole = packed(ALL_KINDS);
    let records: Vec<Record> = whole.records().map(|record| *record.unwrap()).collect();
    assert_eq!(records.len(), 9);
    for record in &records {
        assert_eq!(whole.place(record.number), Ok(*record));
    }
    assert_eq!(records[8].kind, Kind::Close);
    // The sample's last readout still has the mask from before a coil compression.
    let masks = [3, 4, 5].map(|n: usize| match records[n].kind {
        Kind::Acquisition { mask, .. } => mask,
        other => panic!("no acquisition: {other:?}"),
    });
    let agrees = Mask::Agrees { ones: 2 };
    assert_eq!(masks, [agrees, agrees, Mask::Differs { ones: 8 }]);
    assert_eq!(masks.map(Mask::ones), [2, 2, 8]);
    assert_eq!(Mask::NotStated.ones(), 0);

    let cut = packed(&ALL_KINDS[..6_307]);
    let fault = Fault {
        record: 8,
        byte: 6_307,
    };
    let refusal = Refusal {
        number: 13,
        place: Some(fault),
    };
    let mut walk = cut.records();
    for record in &records[..8] {
        let cursor = walk.cursor().unwrap();
        let met = walk.next().unwrap().unwrap();
        assert_eq!((*met, met.cursor()), (*record, cursor));
        assert_eq!(cut.check_from(walk.cursor().unwrap()), Err(refusal));
    }
    assert_eq!(walk.next(), Some(Err(refusal)));
    assert_eq!((walk.next(), walk.cursor()), (None, None));
}

#[test]
fn a_view_is_the_very_part_of_the_given_stream() {
    let stream = packed(ALL_KINDS);
    let name = stream.view(0, Part::Name).unwrap();
    assert_eq!(name, b"default.xml");
    assert!(std::ptr::eq(name, &ALL_KINDS[2..13]));
    // 2 of id, 340 of header, 32 x 2 x 4 of trajectory, and one channel of 32 x 8 before it.
    let second = stream.view(3, Part::Channel(1)).unwrap();
    assert!(std::ptr::eq(
        second,
        &ALL_KINDS[1_417 + 342 + 256 + 256..][..256]
    ));
    assert_eq!(number_of(stream.view(3, Part::Channel(2))), 17);
    assert_eq!(number_of(stream.view_place(9, Part::Text)), 16);
    let kept;
    {
        let stream = packed(ALL_KINDS);
        kept = stream.view(2, Part::Text).unwrap();
    }
    assert_eq!(kept, b"three radial readouts follow\n");
}

#[test]
fn fields_keep_their_type_and_floats_their_bits() {
    let mut bytes = ALL_KINDS.to_vec();
    let sample_time = 1_417 + 2 + 178;
    assert_eq!(packed(&bytes).field(3, 178).unwrap().float(), Some(15.0));
    // A signalling NaN: a float register on the way might set its quiet bit.
    bytes[sample_time..sample_time + 4].copy_from_slice(&0x7F80_0001_u32.to_le_bytes());
    let stream = packed(&bytes);
    assert_eq!(stream.field(3, 178), Ok(Field::Float { bits: 0x7F80_0001 }));
    assert_eq!(stream.field(3, 34), Ok(Field::Whole(32)));
    assert_eq!(stream.field(4, 276), Ok(Field::Signed(-2)));
    assert_eq!(number_of(stream.field(3, 35)), 20);
    assert_eq!(Field::Whole(1).float(), None);
}

/// What an accessor gives of an element, by its bits.
fn bits(field: Field) -> u64 {
    match field {
        Field::Whole(number) => number,
        Field::Signed(number) => number as u32 as u64,
        Field::Float { bits } => bits as u64,
    }
}

/// Checks that each accessor of a header gives, by its bits, what the library answers at its offset, for every
/// element: first the fields of one element, then those of several.
macro_rules! check_accessors {
    ($record:expr, $header:expr, $of:ident, [$($one:ident $at:ident $($b:ident)?),*],
     [$($name:ident $from:ident $($bits:ident)?),*]) => {
        $(check_elements!($record, [$header.$one()], offset::$of::$at, $($b)?);)*
        $(check_elements!($record, $header.$name(), offset::$of::$from, $($bits)?);)*
    };
}

macro_rules! check_elements {
    ($record:expr, $values:expr, $offset:path, $($bits:ident)?) => {
        let from: usize = $offset;
        for (i, value) in $values.into_iter().enumerate() {
            let size = std::mem::size_of_val(&value);
            let asked = bits($record.field(from + i * size).unwrap());
            let given = value$(.$bits())? as u64 & (u64::MAX >> (64 - 8 * size));
            assert_eq!(given, asked, "{} of {i}", stringify!($offset));
        }
    };
}

/// The header of one record, so that every element has another value.
fn patterned(bytes: &mut [u8], from: usize, keep: &[std::ops::Range<usize>], size: usize) {
    for i in (0..size).filter(|i| !keep.iter().any(|range| range.contains(i))) {
        bytes[from + i] = (37 * i + 11) as u8;
    }
}

#[test]
fn accessors_give_what_the_library_answers() {
    let mut bytes = ALL_KINDS.to_vec();
    // What decides about sizes and checks stays as it is.
    patterned(&mut bytes, 1_417 + 2, &[0..2, 34..172, 176..178], 340);
    patterned(
        &mut bytes,
        4_747 + 2,
        &[0..4, 16..22, 34..36, 194..198],
        198,
    );
    patterned(&mut bytes, 6_113 + 2, &[0..2, 22..26], 32);
    let stream = packed(&bytes);
    let records: Vec<RecordAt> = stream.records().map(|record| record.unwrap()).collect();
    let (record, header) = (&records[3], records[3].acquisition().unwrap());
    check_accessors!(record, header, acquisition,
    [
     version VERSION, flags FLAGS, measurement_uid MEASUREMENT_UID, scan_counter SCAN_COUNTER,
     acquisition_time_stamp ACQUISITION_TIME_STAMP, number_of_samples NUMBER_OF_SAMPLES,
     available_channels AVAILABLE_CHANNELS, active_channels ACTIVE_CHANNELS, discard_pre
     DISCARD_PRE, discard_post DISCARD_POST, center_sample CENTER_SAMPLE, encoding_space_ref
     ENCODING_SPACE_REF, trajectory_dimensions TRAJECTORY_DIMENSIONS, sample_time_us
     SAMPLE_TIME_US to_bits
    ],
    [
     physiology_time_stamp PHYSIOLOGY_TIME_STAMP, channel_mask CHANNEL_MASK, position POSITION
     to_bits, read_dir READ_DIR to_bits, phase_dir PHASE_DIR to_bits, slice_dir SLICE_DIR
     to_bits, patient_table_position PATIENT_TABLE_POSITION to_bits, counters COUNTERS, user_int
     USER_INT, user_float USER_FLOAT to_bits
    ]);
    let (record, header) = (&records[6], records[6].image().unwrap());
    check_accessors!(record, header, image,
    [
     version VERSION, data_type DATA_TYPE, flags FLAGS, measurement_uid MEASUREMENT_UID,
     channels CHANNELS, average AVERAGE, slice SLICE, contrast CONTRAST, phase PHASE, repetition
     REPETITION, set SET, acquisition_time_stamp ACQUISITION_TIME_STAMP, image_type IMAGE_TYPE,
     image_index IMAGE_INDEX, image_series_index IMAGE_SERIES_INDEX, attribute_string_len
     ATTRIBUTE_STRING_LEN
    ],
    [
     matrix_size MATRIX_SIZE, field_of_view FIELD_OF_VIEW to_bits, position POSITION to_bits,
     read_dir READ_DIR to_bits, phase_dir PHASE_DIR to_bits, slice_dir SLICE_DIR to_bits,
     patient_table_position PATIENT_TABLE_POSITION to_bits, physiology_time_stamp
     PHYSIOLOGY_TIME_STAMP, user_int USER_INT, user_float USER_FLOAT to_bits
    ]);
    let (record, header) = (&records[7], records[7].waveform().unwrap());
    check_accessors!(record, header, waveform,
        [
         version VERSION, flags FLAGS, measurement_uid MEASUREMENT_UID, scan_counter SCAN_COUNTER,
         time_stamp TIME_STAMP, number_of_samples NUMBER_OF_SAMPLES, channels CHANNELS,
         sample_time_us SAMPLE_TIME_US to_bits, waveform_id WAVEFORM_ID
        ],
        []);
    assert!(records[2].acquisition().is_none() && records[3].image().is_none());
}

#[test]
fn samples_are_pairs_read_from_any_byte() {
    let stream = packed(ALL_KINDS);
    let record = stream.records().nth(4).unwrap().unwrap();
    let samples: Vec<(f32, f32)> = record.samples(1).unwrap().collect();
    assert_eq!(samples.len(), 32);
    let view = stream.view(4, Part::Channel(1)).unwrap();
    for (i, (re, im)) in samples.iter().enumerate() {
        let bytes = [re.to_le_bytes(), im.to_le_bytes()].concat();
        assert_eq!(bytes, view[8 * i..8 * i + 8]);
    }
    assert!(stream
        .samples(4, 1)
        .unwrap()
        .rev()
        .eq(samples.into_iter().rev()));
    assert_eq!(record.samples(2).unwrap_err().number, refused::NO_PART);
    assert_eq!(record.bytes(), &ALL_KINDS[2_527..3_637]);
}

#[test]
fn find_begins_at_the_record_asked_for() {
    let stream = packed(ALL_KINDS);
    let mut counters = [0; 17];
    counters[0] = 1;
    assert_eq!(stream.find(0, &counters), Ok(4));
    assert_eq!(stream.find(4, &counters), Ok(4));
    assert_eq!(number_of(stream.find(5, &counters)), 16);
}

#[test]
fn an_index_is_believed_where_it_is_the_streams_own() {
    let stream = packed(ALL_KINDS);
    let kept = Kept::of(&stream);
    let another = Kept::of(&packed(&SHORT));
    for (own, other) in kept.forms().into_iter().zip(another.forms()) {
        assert_eq!(stream.matches(own), Ok(()));
        assert_eq!(number_of(stream.matches(other)), 15);
        let trusting = stream.with(own);
        assert_eq!(trusting.place(6), stream.place(6));
        assert_eq!(trusting.view(1, Part::Text), stream.view(1, Part::Text));
        assert_eq!(trusting.field(7, 14), Ok(Field::Whole(1)));
        assert_eq!(trusting.find(4, &[0; 17]), stream.find(4, &[0; 17]));
        let deceived = stream.with(other);
        assert_eq!(number_of(deceived.place(6)), 15);
        assert_eq!(number_of(deceived.view(1, Part::Text)), 15);
        assert_eq!(number_of(deceived.field(7, 14)), 15);
        assert_eq!(number_of(deceived.find(4, &[0; 17])), 15);
        assert_eq!(deceived.check(), Ok(9));
    }
}

#[test]
fn a_cursor_from_the_columns_is_at_the_record() {
    let stream = packed(ALL_KINDS);
    let kept = Kept::of(&stream);
    for n in 0..9 {
        let cursor = Cursor::for_record(stream.rules(), &kept.starts, &kept.ids, n).unwrap();
        let Step::Record(record, _) = stream.step(cursor) else {
            panic!("no record {n}")
        };
        assert_eq!(stream.place(n), Ok(record));
        for part in [Part::Text, Part::Channel(1)] {
            assert_eq!(stream.view_at(cursor, part), stream.view(n, part));
        }
        assert_eq!(stream.field_at(cursor, 8), stream.field(n, 8));
    }
    assert_eq!(
        number_of(Cursor::for_record(
            stream.rules(),
            &kept.starts,
            &kept.ids,
            9
        )),
        16
    );
    assert_eq!(
        number_of(Cursor::for_record(
            stream.rules(),
            &kept.starts,
            &kept.ids[..3],
            3
        )),
        16
    );
}

/// The record as a writer is given it, from its views and the header's bytes.
fn message_of<'a>(stream: &Stream<'a>, record: &Record) -> Message<'a> {
    let n = record.number;
    let part = |part| stream.view(n, part).unwrap_or_default();
    let header_length = match record.kind {
        Kind::Acquisition { .. } => AcquisitionHeader::SIZE,
        Kind::Image { .. } => ImageHeader::SIZE,
        Kind::Waveform { .. } => WaveformHeader::size(stream.rules().layout),
        _ => 0,
    };
    // The samples of both channels adjoin.
    let samples = match stream.view_place(n, Part::Channel(0)) {
        Ok(first) => first.start..stream.view_place(n, Part::Channel(1)).unwrap().end,
        Err(_) => 0..0,
    };
    Message {
        id: record.kind.id(),
        header: &stream.bytes()[record.start + 2..][..header_length],
        name: part(Part::Name),
        text: part(Part::Text),
        trajectory: part(Part::Trajectory),
        samples: &stream.bytes()[samples],
        attributes: part(Part::Attributes),
        pixels: part(Part::Pixels),
        waveform: part(Part::Waveform),
    }
}

#[test]
fn records_written_back_are_the_normal_form() {
    let stream = packed(ALL_KINDS);
    let mut out = vec![0xEE; ALL_KINDS.len()];
    let mut position = 0;
    for record in stream.records() {
        let message = message_of(&stream, &record.unwrap());
        position = message.write(stream.rules(), &mut out, position).unwrap();
    }
    assert_eq!(position, ALL_KINDS.len());
    let mut normal = vec![0; ALL_KINDS.len()];
    assert_eq!(stream.normal_form(&mut normal), Ok(ALL_KINDS.len()));
    assert!(out == normal && out != ALL_KINDS);

    let unknown = Message {
        id: 6,
        ..Message::default()
    };
    let refusal = Refusal {
        number: 2,
        place: None,
    };
    assert_eq!(unknown.write(Rules::packed(), &mut out, 0), Err(refusal));
}

/// Record 6 of the sample is an image whose header says the length of its attributes, in these bytes.
const STATED: usize = 4_747 + 2 + offset::image::ATTRIBUTE_STRING_LEN;
const ATTRIBUTES: u32 = 134;

fn sample_saying(stated: u32) -> Vec<u8> {
    let mut bytes = ALL_KINDS.to_vec();
    bytes[STATED..STATED + 4].copy_from_slice(&stated.to_le_bytes());
    bytes
}

#[test]
fn an_image_header_says_its_attribute_length_or_0() {
    let mut normal = vec![0; ALL_KINDS.len()];
    assert!(packed(ALL_KINDS).normal_form(&mut normal).is_ok());
    for stated in [0, ATTRIBUTES] {
        let bytes = sample_saying(stated);
        let stream = packed(&bytes);
        assert_eq!(stream.check(), Ok(9));
        let record = stream.records().nth(6).unwrap().unwrap();
        let Kind::Image {
            attribute_length, ..
        } = record.kind
        else {
            panic!("no image: {record:?}")
        };
        assert_eq!((attribute_length, record.size), (134, 1_366));
        // The header is shown as it is stored; the 8 bytes after it decide.
        assert_eq!(record.image().unwrap().attribute_string_len(), stated);
        let stored = Ok(Field::Whole(stated.into()));
        assert_eq!(record.field(194), stored);
        assert_eq!(stream.field(6, 194), stored);
        assert_eq!(stream.view(6, Part::Attributes).unwrap().len(), 134);
        let mut out = vec![0xEE; bytes.len()];
        assert_eq!(stream.normal_form(&mut out), Ok(bytes.len()));
        assert!(out == normal && out[STATED..][..4] == ATTRIBUTES.to_le_bytes());
    }
    for stated in [1, ATTRIBUTES - 1, ATTRIBUTES + 1, u32::MAX] {
        let refusal = packed(&sample_saying(stated)).check().unwrap_err();
        let fault = Fault {
            record: 6,
            byte: 4_747,
        };
        assert_eq!(
            (refusal.number, refusal.place),
            (refused::ATTRIBUTE_LENGTH, Some(fault))
        );
    }
}

#[test]
fn the_writer_puts_the_true_attribute_length() {
    let stream = packed(ALL_KINDS);
    let message = message_of(&stream, &stream.place(6).unwrap());
    for stated in [0, 1, ATTRIBUTES, 0xDEAD_BEEF] {
        let mut header = message.header.to_vec();
        header[194..].copy_from_slice(&stated.to_le_bytes());
        let given = Message {
            header: &header,
            ..message
        };
        let mut out = vec![0xEE; 1_366];
        assert_eq!(given.write(stream.rules(), &mut out, 0), Ok(1_366));
        assert!(out == ALL_KINDS[4_747..6_113]);
    }
}

/// An aligned waveform header, another value in every field and in the filler. It says 2 samples and 2 channels; packed,
/// the same bytes say 6 and 1.
const ALIGNED: [u8; 40] = [
    1, 0, 0xF1, 0xF2, 0xF3, 0xF4, 0xF5, 0xF6, // version, filler
    0x10, 0x11, 0x12, 0x13, 0x14, 0x15, 0x16, 0x97, // flags
    0x20, 0x21, 0x22, 0x23, 0x30, 0x31, 6, 0, // measurement uid, scan counter
    1, 0, 0x42, 0x43, 2, 0, 2, 0, // time stamp, samples, channels
    0x50, 0x51, 0x80, 0x3F, 0x60, 0x61, 0xF7, 0xF8, // sample time, waveform id, filler
];

/// Where the filler of an aligned header lies.
const FILLER: [usize; 8] = [2, 3, 4, 5, 6, 7, 38, 39];

/// A header text, two waveforms with that header, and the close. Each waveform has 58 bytes, aligned 42 + 16 and packed
/// 34 + 24, so that both layouts accept the stream.
fn waveforms() -> Vec<u8> {
    let mut bytes = vec![3, 0, 0, 0, 0, 0];
    for data in [0x70, 0x80] {
        bytes.extend(id::WAVEFORM.to_le_bytes());
        bytes.extend(ALIGNED);
        bytes.extend(data..data + 16);
    }
    bytes.extend(id::CLOSE.to_le_bytes());
    bytes
}

/// The same with the filler of its headers zero.
fn without_filler(mut bytes: Vec<u8>) -> Vec<u8> {
    for header in [6 + 2, 64 + 2] {
        FILLER.iter().for_each(|at| bytes[header + at] = 0);
    }
    bytes
}

#[test]
fn aligned_waveforms_are_walked() {
    let bytes = waveforms();
    let stream = aligned(&bytes);
    assert_eq!(stream.rules(), Rules::aligned());
    assert_eq!(stream.check(), Ok(4));
    let records: Vec<RecordAt> = stream.records().map(|record| record.unwrap()).collect();
    assert_eq!(records.len(), 4);
    for (record, start) in records[1..3].iter().zip([6, 64]) {
        let kind = Kind::Waveform {
            number_of_samples: 2,
            channels: 2,
        };
        assert_eq!((record.start, record.size, record.kind), (start, 58, kind));
        assert_eq!(stream.place(record.number), Ok(**record));
        let data = &bytes[start + 42..start + 58];
        assert_eq!(record.view(Part::Waveform), Ok(data));
        assert_eq!(stream.view(record.number, Part::Waveform), Ok(data));
        assert_eq!(stream.check_from(record.cursor()), Ok(4));
    }
    assert_eq!(number_of(stream.find(0, &[0; 17])), 16);
}

#[test]
fn aligned_fields_by_offset_and_by_name() {
    let bytes = waveforms();
    let stream = aligned(&bytes);
    let record = stream.records().nth(2).unwrap().unwrap();
    let header = record.waveform().unwrap();
    assert_eq!(
        (header.layout(), header.bytes()),
        (Layout::Aligned, &ALIGNED[..])
    );
    assert_eq!(header, WaveformHeader::aligned(&ALIGNED));
    check_accessors!(record, header, aligned_waveform,
        [
         version VERSION, flags FLAGS, measurement_uid MEASUREMENT_UID, scan_counter SCAN_COUNTER,
         time_stamp TIME_STAMP, number_of_samples NUMBER_OF_SAMPLES, channels CHANNELS,
         sample_time_us SAMPLE_TIME_US to_bits, waveform_id WAVEFORM_ID
        ],
        []);
    assert_eq!(header.flags(), 0x9716_1514_1312_1110);
    assert_eq!(
        (header.measurement_uid(), header.scan_counter()),
        (0x2322_2120, 0x0006_3130)
    );
    assert_eq!((header.number_of_samples(), header.channels()), (2, 2));
    assert_eq!(
        (header.time_stamp(), header.waveform_id()),
        (0x4342_0001, 0x6160)
    );
    assert_eq!(header.sample_time_us().to_bits(), 0x3F80_5150);
    // An element starts at these offsets and at no other: not in filler, and not where only packed headers have one.
    let kept = Kept::of(&stream);
    for at in 0..50 {
        let starts = [0, 8, 16, 20, 24, 28, 30, 32, 36].contains(&at);
        assert!(!starts || !FILLER.contains(&at));
        let mut answers = vec![record.field(at), stream.field(2, at)];
        answers.extend(kept.forms().map(|index| stream.with(index).field(2, at)));
        for answer in answers {
            match starts {
                true => assert!(answer.is_ok(), "offset {at}"),
                false => assert_eq!(number_of(answer), refused::NO_FIELD, "offset {at}"),
            }
        }
    }
}

#[test]
fn the_normal_form_and_the_writer_clear_filler() {
    let bytes = waveforms();
    let stream = aligned(&bytes);
    let normal = without_filler(bytes.clone());
    assert_ne!(normal, bytes);
    let mut out = vec![0xEE; bytes.len()];
    assert_eq!(stream.normal_form(&mut out), Ok(bytes.len()));
    assert_eq!(out, normal);
    // What filler holds is no part of a record.
    assert_eq!(Kept::of(&aligned(&normal)).file, Kept::of(&stream).file);

    let mut written = vec![0xEE; bytes.len()];
    let mut position = 0;
    for record in stream.records() {
        let message = message_of(&stream, &record.unwrap());
        position = message
            .write(stream.rules(), &mut written, position)
            .unwrap();
    }
    assert_eq!((position, written), (bytes.len(), normal));
}

#[test]
fn a_writer_takes_the_header_of_its_layout() {
    let data = [7; 24];
    let write = |rules, header, waveform| {
        let message = Message {
            id: id::WAVEFORM,
            header,
            waveform,
            ..Message::default()
        };
        let mut out = [0xEE; 58];
        let position = message.write(rules, &mut out, 0);
        (position, out)
    };
    for (rules, header) in [
        (Rules::aligned(), &ALIGNED[..32]),
        (Rules::packed(), &ALIGNED),
    ] {
        let (answer, out) = write(rules, header, &data[..16]);
        assert_eq!(number_of(answer), refused::FIXED_PART_CUT);
        assert_eq!(out, [0xEE; 58]);
    }
    let (answer, out) = write(Rules::aligned(), &ALIGNED, &data[..16]);
    assert_eq!(answer, Ok(58));
    let cleared = FILLER.iter().all(|at| out[2 + at] == 0);
    assert!(cleared && out[2 + 8..2 + 38] == ALIGNED[8..38]);
    let (answer, out) = write(Rules::packed(), &ALIGNED[..32], &data);
    assert_eq!(answer, Ok(58));
    assert!(out[2..34] == ALIGNED[..32]);
}

/// Nothing in a stream tells its layout: these bytes are a stream under both, with other records.
#[test]
fn one_stream_under_both_layouts() {
    let bytes = waveforms();
    let streams = [packed(&bytes), aligned(&bytes)];
    assert_eq!(streams.map(|stream| stream.check()), [Ok(4), Ok(4)]);
    let sizes = streams.map(|stream| {
        let record = stream.records().nth(1).unwrap().unwrap();
        let header = record.waveform().unwrap();
        assert_eq!(
            header.bytes().len(),
            WaveformHeader::size(stream.rules().layout)
        );
        (header.number_of_samples(), header.channels())
    });
    assert_eq!(sizes, [(6, 1), (2, 2)]);
    let starts = streams.map(|stream| stream.view_place(1, Part::Waveform).unwrap().start);
    assert_eq!(starts, [6 + 34, 6 + 42]);
    // Packed, what is filler there is in the flags.
    let flags = streams.map(|stream| stream.field(1, 2));
    assert_eq!(flags[0], Ok(Field::Whole(0x1110_F6F5_F4F3_F2F1)));
    assert_eq!(number_of(flags[1]), refused::NO_FIELD);
    let mut out = vec![0xEE; bytes.len()];
    assert_eq!(streams[0].normal_form(&mut out), Ok(bytes.len()));
    assert_eq!(out, bytes);
    // An index has the scan counters of its layout.
    for (of, other) in [(0, 1), (1, 0)] {
        for index in Kept::of(&streams[of]).forms() {
            assert_eq!(streams[of].matches(index), Ok(()));
            assert_eq!(number_of(streams[other].matches(index)), 15);
            assert_eq!(number_of(streams[other].with(index).place(1)), 15);
        }
    }
    let kept = Kept::of(&streams[1]);
    let cursor = Cursor::for_record(Rules::aligned(), &kept.starts, &kept.ids, 2).unwrap();
    let data = streams[1].view_at(cursor, Part::Waveform);
    assert_eq!(data, streams[1].view(2, Part::Waveform));
}

/// A stream of the aligned layout alone: packed, its last waveform has one sample more than there are bytes for.
#[test]
fn a_stream_of_one_layout_alone() {
    let mut bytes = waveforms();
    bytes[64 + 2 + offset::waveform::NUMBER_OF_SAMPLES] = 7;
    let cursor = aligned(&bytes).records().nth(2).unwrap().unwrap().cursor();
    let answers = |stream: Stream| [stream.check(), stream.check_from(cursor)];
    assert_eq!(answers(aligned(&bytes)), [Ok(4), Ok(4)]);
    let cut = refused::MESSAGE_CUT;
    assert_eq!(answers(packed(&bytes)).map(number_of), [cut, cut]);
    assert_eq!(
        number_of(aligned(&bytes).find(0, &[0; 17])),
        refused::NO_RECORD
    );
    assert_eq!(number_of(packed(&bytes).find(0, &[0; 17])), cut);
}

/// 40 bytes of header before there is anything to judge in it.
#[test]
fn an_aligned_header_is_whole_or_cut() {
    let bytes = waveforms();
    let cut = &bytes[..6 + 2 + 39];
    let refusal = aligned(cut).check().unwrap_err();
    let fault = Fault { record: 1, byte: 6 };
    assert_eq!(
        (refusal.number, refusal.place),
        (refused::FIXED_PART_CUT, Some(fault))
    );
    assert_eq!(number_of(packed(cut).check()), refused::MESSAGE_CUT);
    assert_eq!(
        number_of(aligned(&bytes[..6 + 2 + 40]).check()),
        refused::MESSAGE_CUT
    );
    let mut old = bytes.clone();
    old[6 + 2] = 2;
    assert_eq!(number_of(aligned(&old).check()), refused::VERSION);
}

/// A configuration name or a text with these bytes, to be written.
fn text_message(id: u16, bytes: &[u8]) -> Message<'_> {
    let (name, text) = match id {
        id::CONFIGURATION_NAME => (bytes, &[][..]),
        _ => (&[][..], bytes),
    };
    Message {
        id,
        name,
        text,
        ..Message::default()
    }
}

/// A stream of one text with these bytes, and the close.
fn text_stream(bytes: &[u8]) -> Vec<u8> {
    let mut stream = id::TEXT.to_le_bytes().to_vec();
    stream.extend((bytes.len() as u32).to_le_bytes());
    stream.extend(bytes);
    stream.extend(id::CLOSE.to_le_bytes());
    stream
}

/// What every call about a stream answers, in words, so that the answers of two profiles can be compared.
fn all_answers(stream: &Stream, kept: &Kept) -> Vec<String> {
    let mut answers = vec![format!("{:?}", stream.check())];
    let mut cursor = Cursor::beginning();
    while let Step::Record(record, next) = stream.step(cursor) {
        answers.push(format!("{record:?}, then {next:?}"));
        let mut streams = vec![*stream];
        streams.extend(kept.forms().map(|index| stream.with(index)));
        for stream in streams {
            answers.extend(answers_about(&stream, record.number));
        }
        for part in PARTS {
            answers.push(format!("{:?}", stream.view_at(cursor, part)));
        }
        answers.push(format!("{:?}", stream.field_at(cursor, 14)));
        answers.push(format!("{:?}", stream.check_from(cursor)));
        for byte in [record.start, record.start + record.size - 1] {
            answers.push(format!("{:?}", stream.part_at(byte)));
        }
        cursor = next;
    }
    answers.extend(
        kept.forms()
            .map(|index| format!("{:?}", stream.matches(index))),
    );
    let again = Kept::of(stream);
    answers.push(format!("{:?} {:?}", again.file, again.starts));
    let mut normal = vec![0; stream.bytes().len()];
    answers.push(format!("{:?} {normal:?}", stream.normal_form(&mut normal)));
    let mut saved = vec![0; stream.bytes().len()];
    answers.push(format!("{:?} {saved:?}", stream.salvage(&mut saved)));
    answers.push(format!("{:?}", stream.salvage_report()));
    answers
}

const PARTS: [Part; 7] = [
    Part::Name,
    Part::Text,
    Part::Attributes,
    Part::Trajectory,
    Part::Channel(1),
    Part::Pixels,
    Part::Waveform,
];

/// Each question by number, about one record.
fn answers_about(stream: &Stream, n: usize) -> Vec<String> {
    let mut answers = vec![
        format!("{:?}", stream.place(n)),
        format!("{:?}", stream.field(n, 14)),
        format!("{:?}", stream.find(n, &[0; 17])),
    ];
    let views = PARTS.map(|part| format!("{:?}", stream.view(n, part)));
    answers.extend(views);
    answers
}

/// What the strict profile accepts it answers as the plain one does, in every call.
#[test]
fn a_strict_stream_answers_as_a_plain_one() {
    let waveforms = waveforms();
    for stream in [packed(ALL_KINDS), aligned(&waveforms), packed(&waveforms)] {
        let strict = strictly(&stream);
        assert_eq!(strict.rules().layout, stream.rules().layout);
        assert_eq!(strict.rules().plain(), stream.rules());
        let kept = Kept::of(&stream);
        assert_eq!(all_answers(&strict, &kept), all_answers(&stream, &kept));
        for record in stream.records() {
            let message = message_of(&stream, &record.unwrap());
            let (mut ours, mut theirs) = (vec![0xEE; 2_000], vec![0xEE; 2_000]);
            let written = message.write(strict.rules(), &mut ours, 3);
            assert_eq!(written, message.write(stream.rules(), &mut theirs, 3));
            assert!(written.is_ok() && ours == theirs);
        }
        let cursors = [strict, stream]
            .map(|stream| Cursor::for_record(stream.rules(), &kept.starts, &kept.ids, 2));
        assert_eq!(cursors[0], cursors[1]);
    }
}

/// The refusal that every call gives of a stream whose fault is at the cursor's record.
fn all_refusals(stream: &Stream, cursor: Cursor, kept: &Kept) -> Vec<Refusal> {
    let mut out = vec![0xEE; stream.bytes().len() + 23 + 17 * 9];
    let (mut starts, mut ids, mut counters) = ([7; 9], [7; 9], [7; 9]);
    let mut answers = vec![
        stream.check().map(drop),
        stream.check_from(cursor).map(drop),
        stream.view_at(cursor, Part::Text).map(drop),
        stream.field_at(cursor, 0).map(drop),
        stream.part_at(0).map(drop),
        stream.part_at(usize::MAX).map(drop),
        stream.normal_form(&mut out).map(drop),
        stream.write_index(&mut out).map(drop),
        stream
            .fill_columns(&mut starts, &mut ids, &mut counters)
            .map(drop),
        stream.records().try_for_each(|record| record.map(drop)),
        match stream.step(cursor) {
            Step::Record(..) => Ok(()),
            Step::End(answer) => answer.map(drop),
        },
    ];
    answers.extend(kept.forms().map(|index| stream.matches(index)));
    let mut streams = vec![*stream];
    streams.extend(kept.forms().map(|index| stream.with(index)));
    for stream in streams {
        answers.push(stream.place(0).map(drop));
        answers.push(stream.view(0, Part::Name).map(drop));
        answers.push(stream.samples(0, 0).map(drop));
        answers.push(stream.field(0, 0).map(drop));
        answers.push(stream.find(0, &[0; 17]).map(drop));
    }
    assert!(out.iter().all(|&byte| byte == 0xEE));
    assert_eq!((starts, ids, counters), ([7; 9], [7; 9], [7; 9]));
    let refusal = |answer: Result<(), Refusal>| answer.expect_err("a refused stream");
    answers.into_iter().map(refusal).collect()
}

/// One byte that no text in UTF-8 has, in each part that is text: 21 where its record is, in every call.
#[test]
fn every_call_refuses_text_that_is_not_utf8() {
    let parts = [
        (0, Part::Name),
        (1, Part::Text),
        (2, Part::Text),
        (6, Part::Attributes),
    ];
    for (n, part) in parts {
        let text = packed(ALL_KINDS).view_place(n, part).unwrap();
        for at in [text.start, text.end - 1] {
            let mut bytes = ALL_KINDS.to_vec();
            bytes[at] = 0xFF;
            let plain = packed(&bytes);
            assert_eq!(plain.check(), Ok(9));
            let kept = Kept::of(&plain);
            let cursor = plain.records().nth(n).unwrap().unwrap().cursor();
            let fault = Fault {
                record: n,
                byte: cursor.start,
            };
            let refusal = Refusal {
                number: refused::TEXT_NOT_UTF8,
                place: Some(fault),
            };
            for given in all_refusals(&strictly(&plain), cursor, &kept) {
                assert_eq!(given, refusal);
            }
            // The records before it come and can be saved, and a walk from behind it does not meet it.
            let strict = strictly(&plain);
            assert_eq!(saved_of(&strict), closed(&bytes[..cursor.start]));
            assert_eq!(strict.salvage_report().messages_kept, n);
            assert_eq!(strict.records().filter(|record| record.is_ok()).count(), n);
            let Step::Record(_, next) = plain.step(cursor) else {
                panic!("no record {n}")
            };
            assert_eq!(strict.check_from(next), Ok(9));
        }
    }
}

/// What carries no text may hold any byte: the sample's trajectories, samples, pixels and waveforms, the filler of its
/// name and the numbers of its headers.
#[test]
fn bytes_that_are_no_text_are_not_judged() {
    let stream = packed(ALL_KINDS);
    let parts = [
        (3, Part::Trajectory),
        (4, Part::Channel(0)),
        (6, Part::Pixels),
        (7, Part::Waveform),
    ];
    let mut bytes = ALL_KINDS.to_vec();
    for (n, part) in parts {
        bytes[stream.view_place(n, part).unwrap()].fill(0xFF);
    }
    let name = stream.view_place(0, Part::Name).unwrap();
    bytes[name.end + 1..1_026].fill(0xFF);
    bytes[1_417 + 2 + offset::acquisition::FLAGS] = 0xFF;
    assert_eq!(strictly(&packed(&bytes)).check(), Ok(9));
}

/// By RFC 3629, as Rust has it: every two bytes, alone and with one or two more behind them.
#[test]
fn a_text_is_judged_as_rust_judges_it() {
    let mut accepted = 0;
    for number in 0..=u16::MAX {
        let [first, second] = number.to_le_bytes();
        for text in [
            &[first, second][..],
            &[first, second, 0x80],
            &[first, second, 0x80, 0xBF],
        ] {
            let stream = text_stream(text);
            let is_utf8 = std::str::from_utf8(text).is_ok();
            accepted += usize::from(is_utf8);
            let answer = strictly(&packed(&stream)).check();
            match is_utf8 {
                true => assert_eq!(answer, Ok(2), "{text:x?}"),
                false => assert_eq!(number_of(answer), refused::TEXT_NOT_UTF8, "{text:x?}"),
            }
        }
    }
    assert!(accepted > 20_000);
}

/// Each text by itself: neither a name's zero nor the next message ends a character.
#[test]
fn a_character_lies_in_one_text() {
    let mut split = text_stream(&[0xC3]);
    split.truncate(split.len() - 2);
    split.extend(text_stream(&[0xA9]));
    let whole = text_stream("é".as_bytes());
    assert_eq!(strictly(&packed(&whole)).check(), Ok(2));
    assert_eq!(packed(&split).check(), Ok(3));
    let refusal = strictly(&packed(&split)).check().unwrap_err();
    assert_eq!(refusal.place, Some(Fault { record: 0, byte: 0 }));
    let mut bytes = ALL_KINDS.to_vec();
    bytes[12..15].copy_from_slice(&[0xC3, 0, 0xA9]);
    assert_eq!(packed(&bytes).view(0, Part::Name), Ok(&bytes[2..13]));
    let answer = strictly(&packed(&bytes)).check();
    assert_eq!(number_of(answer), refused::TEXT_NOT_UTF8);
}

/// 21 comes after all else about its message, and before anything about a later one.
#[test]
fn order_of_checks_with_text() {
    let strict = |bytes: &[u8]| number_of(strictly(&packed(bytes)).check());
    let bad = text_stream(&[0xFF, b'a']);
    assert_eq!(strict(&bad[..7]), refused::MESSAGE_CUT);
    assert_eq!(strict(&bad[..8]), refused::TEXT_NOT_UTF8);
    assert_eq!(strict(&[&bad[..], &[0]].concat()), refused::TEXT_NOT_UTF8);
    // A header text comes once, whatever it holds.
    let mut headers = ALL_KINDS[..1_417].to_vec();
    let second = headers.len();
    headers.extend(id::HEADER_TEXT.to_le_bytes());
    headers.extend([1, 0, 0, 0, 0xFF]);
    let refusal = strictly(&packed(&headers)).check().unwrap_err();
    let fault = Fault {
        record: 3,
        byte: second,
    };
    assert_eq!(
        (refusal.number, refusal.place),
        (refused::ORDER, Some(fault))
    );
}

/// The writer's 21 is of no stream and has no place; it writes nothing, and the plain profile writes the message.
#[test]
fn the_writer_refuses_text_that_is_not_utf8() {
    let image = message_of(&packed(ALL_KINDS), &packed(ALL_KINDS).place(6).unwrap());
    let mut attributes = image.attributes.to_vec();
    attributes[133] = 0xC3;
    let texts = [
        id::CONFIGURATION_NAME,
        id::CONFIGURATION_TEXT,
        id::HEADER_TEXT,
        id::TEXT,
    ];
    let mut messages = texts.map(|id| text_message(id, b"caf\xE9")).to_vec();
    messages.push(Message {
        attributes: &attributes,
        ..image
    });
    let refusal = Refusal {
        number: refused::TEXT_NOT_UTF8,
        place: None,
    };
    for message in messages {
        for rules in [Rules::packed(), Rules::aligned()] {
            let mut out = vec![0xEE; 1_400];
            assert_eq!(message.write(rules.strict(), &mut out, 5), Err(refusal));
            assert!(out.iter().all(|&byte| byte == 0xEE));
            assert!(message.write(rules, &mut out, 5).is_ok());
        }
    }
}

/// 5, 18, 21 and 14 of the writer, in that order.
#[test]
fn order_of_the_writers_checks_with_text() {
    let rules = Rules::packed().strict();
    let write = |message: Message, room| number_of(message.write(rules, &mut vec![0; room], 0));
    let text = text_message(id::TEXT, &[0xFF]);
    assert_eq!(write(text, 6), refused::TEXT_NOT_UTF8);
    let plain = text.write(rules.plain(), &mut [0; 6], 0);
    assert_eq!(number_of(plain), refused::OUTPUT_SHORT);
    let past = text.write(rules, &mut [0; 100], usize::MAX);
    assert_eq!(number_of(past), refused::TEXT_NOT_UTF8);
    let overfull = Message {
        pixels: &[0],
        ..text
    };
    assert_eq!(write(overfull, 6), refused::BODY_LENGTH);
    // A part that the kind lacks is 18, not 21, and its bytes are no text.
    let lacking = Message {
        name: &[0xFF],
        ..text_message(id::TEXT, b"a")
    };
    assert_eq!(write(lacking, 100), refused::BODY_LENGTH);
    let name = text_message(id::CONFIGURATION_NAME, &[0xFF, 0]);
    assert_eq!(write(name, 2_000), refused::NAME);
    let utf8 = text_message(id::TEXT, "é".as_bytes());
    assert_eq!(write(utf8, 7), refused::OUTPUT_SHORT);
}

/// What the pages promise of a strict stream's texts.
#[test]
fn strict_texts_are_strings() {
    let stream = strictly(&packed(ALL_KINDS));
    let mut texts = vec![];
    for record in stream.records() {
        let record = record.unwrap();
        let views = [Part::Name, Part::Text, Part::Attributes].map(|part| record.view(part));
        for view in views.into_iter().flatten() {
            texts.push(std::str::from_utf8(view).expect("UTF-8"));
        }
    }
    assert_eq!(texts.len(), 4);
    assert_eq!(
        (texts[0], texts[2]),
        ("default.xml", "three radial readouts follow\n")
    );
}

/// The part that a byte belongs to, and where that part lies.
fn part_of(stream: &Stream, byte: usize) -> (usize, MessagePart, std::ops::Range<usize>) {
    let found = stream.part_at(byte).expect("a byte of the stream");
    assert_eq!(stream.place(found.record.number), Ok(found.record));
    assert!(found.range.contains(&byte));
    (found.record.number, found.part, found.range)
}

/// The parts of the sample, in order, from their sizes in document 01. Its three acquisitions have 32 samples of 2
/// channels and 2 dimensions.
fn sample_parts() -> Vec<(usize, MessagePart, usize)> {
    use MessagePart::{Header, Id, Length, NameRest, Shown};
    let header = Header(HeaderPiece::Filler); // of any piece: a part is a whole header
    let text = |n, length| vec![(n, Id, 2), (n, Length, 4), (n, Shown(Part::Text), length)];
    let acquisition = |n| {
        let channel = |c| (n, Shown(Part::Channel(c)), 32 * 8);
        let trajectory = (n, Shown(Part::Trajectory), 32 * 2 * 4);
        vec![
            (n, Id, 2),
            (n, header, 340),
            trajectory,
            channel(0),
            channel(1),
        ]
    };
    let mut parts = vec![(0, Id, 2), (0, Shown(Part::Name), 11), (0, NameRest, 1_013)];
    parts.extend([text(1, 350), text(2, 29)].concat());
    parts.extend([acquisition(3), acquisition(4), acquisition(5)].concat());
    parts.extend([(6, Id, 2), (6, header, 198), (6, Length, 8)]);
    parts.extend([
        (6, Shown(Part::Attributes), 134),
        (6, Shown(Part::Pixels), 1_024),
    ]);
    parts.extend([(7, Id, 2), (7, header, 32), (7, Shown(Part::Waveform), 160)]);
    parts.push((8, Id, 2));
    parts
}

/// The same part, whatever piece of a header it is asked by.
fn same_part(a: MessagePart, b: MessagePart) -> bool {
    let headers = matches!((a, b), (MessagePart::Header(_), MessagePart::Header(_)));
    headers || a == b
}

#[test]
fn every_byte_belongs_to_one_part() {
    let streams = [packed(ALL_KINDS), strictly(&packed(ALL_KINDS))];
    for stream in streams {
        let mut end = 0;
        for (n, part, length) in sample_parts() {
            let range = end..end + length;
            for byte in range.clone() {
                let (number, found, at) = part_of(&stream, byte);
                assert_eq!((number, &at), (n, &range), "byte {byte}");
                assert!(same_part(found, part), "byte {byte}: {found:?}");
            }
            if let MessagePart::Shown(shown) = part {
                assert_eq!(stream.view_place(n, shown), Ok(range.clone()));
            }
            end = range.end;
        }
        assert_eq!(end, ALL_KINDS.len());
    }
}

#[test]
fn a_header_byte_belongs_to_an_element_or_is_filler() {
    let element = |offset, size| MessagePart::Header(HeaderPiece::Element { offset, size });
    let sample = packed(ALL_KINDS);
    let header = 1_417 + 2;
    for (byte, part, name) in [
        (0, element(0, 2), "version"),
        (2, element(2, 8), "flags"),
        (9, element(2, 8), "flags"),
        (29, element(26, 4), "physiology_time_stamp[1]"),
        (248, element(248, 2), "counters.slice"),
        (339, element(336, 4), "user_float[7]"),
    ] {
        let found = sample.part_at(header + byte).unwrap();
        assert_eq!((found.part, found.range.start), (part, header));
        assert_eq!(found.element_name(), Some(name));
    }
    // The same byte of one stream, by each layout.
    let bytes = waveforms();
    let pieces = [packed(&bytes), aligned(&bytes)].map(|stream| {
        let found = stream.part_at(6 + 2 + 8).unwrap();
        (found.part, found.range.clone(), found.element_name())
    });
    assert_eq!(pieces[0], (element(2, 8), 8..40, Some("flags")));
    assert_eq!(pieces[1], (element(8, 8), 8..48, Some("flags")));
    for at in 0..40 {
        let found = aligned(&bytes).part_at(64 + 2 + at).unwrap();
        let filler = found.part == MessagePart::Header(HeaderPiece::Filler);
        assert_eq!(filler, FILLER.contains(&at), "byte {at}");
        assert_eq!(found.element_name().is_none(), filler);
    }
    let data = MessagePart::Shown(Part::Waveform);
    assert_eq!(part_of(&packed(&bytes), 6 + 34 + 5), (1, data, 40..64));
    assert_eq!(part_of(&aligned(&bytes), 6 + 34 + 8), (1, data, 48..64));
}

#[test]
fn a_byte_past_the_end_has_no_part() {
    let stream = packed(&SHORT);
    assert_eq!(part_of(&stream, 9), (1, MessagePart::Id, 8..10));
    let none = Refusal {
        number: refused::NO_RECORD,
        place: None,
    };
    for byte in [10, 11, usize::MAX] {
        assert_eq!(stream.part_at(byte), Err(none));
    }
    // The stream's own refusal comes first, whatever is asked; an index is not looked at.
    let cut = packed(&SHORT[..8]);
    for byte in [0, 8, usize::MAX] {
        assert_eq!(cut.part_at(byte), Err(cut.check().unwrap_err()));
    }
    let deceived = stream.with(Index::File(&[]));
    assert_eq!(deceived.part_at(7), stream.part_at(7));
}

#[test]
fn parts_in_words() {
    let stream = packed(ALL_KINDS);
    let said = |byte| stream.part_at(byte).unwrap().part.to_string();
    assert_eq!(said(1), "id");
    assert_eq!(said(12), "name");
    assert_eq!(said(13), "rest of the name's 1,024 bytes");
    assert_eq!(said(1_026 + 2), "length");
    assert_eq!(said(1_417 + 2 + 9), "header, element at offset 2");
    assert_eq!(said(1_417 + 342 + 256 + 256), "channel 1");
    assert_eq!(said(6_306), "waveform data");
    let bytes = waveforms();
    let filler = aligned(&bytes).part_at(6 + 2 + 39).unwrap();
    assert_eq!(filler.part.to_string(), "header, filler");
}

/// What is saved of a stream, as `salvage` writes it into the room that the report asks for.
fn saved_of(stream: &Stream) -> Vec<u8> {
    let report = stream.salvage_report();
    let mut saved = vec![0xEE; report.length];
    assert_eq!(stream.salvage(&mut saved), Ok(report));
    let cut = [&stream.bytes()[report.kept()], report.added()].concat();
    assert_eq!(saved, cut, "as the report has it");
    saved
}

/// These messages and a close.
fn closed(messages: &[u8]) -> Vec<u8> {
    [messages, &[4, 0]].concat()
}

/// Of each tear the messages are saved that end at or before it.
#[test]
fn a_torn_stream_keeps_its_whole_messages() {
    let whole = packed(ALL_KINDS);
    let ends: Vec<usize> = whole
        .records()
        .map(|record| record.map(|record| record.start + record.size).unwrap())
        .collect();
    for rules in [Rules::packed(), Rules::packed().strict()] {
        for tear in 0..ALL_KINDS.len() {
            let kept = ends.iter().filter(|&&end| end <= tear).count();
            let end = if kept == 0 { 0 } else { ends[kept - 1] };
            let torn = Stream::new(rules, &ALL_KINDS[..tear]);
            let report = Salvage {
                messages_kept: kept,
                bytes_not_kept: tear - end,
                close_added: true,
                length: end + 2,
            };
            assert_eq!(torn.salvage_report(), report);
            assert_eq!(saved_of(&torn), closed(&ALL_KINDS[..end]));
        }
        assert_eq!(saved_of(&Stream::new(rules, ALL_KINDS)), ALL_KINDS);
    }
}

#[test]
fn a_salvage_adds_a_close_where_there_is_none() {
    let of = |bytes| (saved_of(&packed(bytes)), packed(bytes).salvage_report());
    let report = |messages_kept, bytes_not_kept, close_added, length| Salvage {
        messages_kept,
        bytes_not_kept,
        close_added,
        length,
    };
    assert_eq!(of(&[]), (vec![4, 0], report(0, 0, true, 2)));
    assert_eq!(of(&[4, 0]), (vec![4, 0], report(1, 0, false, 2)));
    assert_eq!(of(&[4, 0, 4, 0]), (vec![4, 0], report(1, 2, false, 2)));
    assert_eq!(of(&SHORT), (SHORT.to_vec(), report(2, 0, false, 10)));
    assert_eq!(of(&SHORT[..9]), (SHORT.to_vec(), report(1, 1, true, 10)));
    let added = packed(&[]).salvage_report();
    assert_eq!((added.kept(), added.added()), (0..0, &[4, 0][..]));
    let own = packed(&SHORT).salvage_report();
    assert_eq!((own.kept(), own.added()), (0..10, &[][..]));
}

#[test]
fn a_salvage_refuses_an_output_that_is_too_short() {
    let torn = packed(&SHORT[..9]);
    let refusal = Refusal {
        number: refused::OUTPUT_SHORT,
        place: None,
    };
    for room in 0..10 {
        let mut out = vec![0xEE; room];
        assert_eq!(torn.salvage(&mut out), Err(refusal));
        assert_eq!(out, vec![0xEE; room]);
    }
    // The rest of a longer one keeps its content, and an index is not looked at.
    let mut out = [0xEE; 12];
    let deceived = torn.with(Index::File(&[]));
    assert_eq!(deceived.salvage(&mut out), Ok(torn.salvage_report()));
    assert_eq!(out[..10], SHORT);
    assert_eq!(out[10..], [0xEE; 2]);
    assert_eq!(deceived.salvage_report(), torn.salvage_report());
}

/// Each layout has its own end of a waveform, and filler stays as it is.
#[test]
fn a_salvage_goes_by_the_layout() {
    let bytes = waveforms();
    for stream in [packed(&bytes), aligned(&bytes)] {
        assert_eq!(saved_of(&stream), bytes);
        let starts = stream.records().map(|record| record.unwrap().start);
        let close = starts.last().expect("a close");
        let torn = Stream::new(stream.rules(), &bytes[..close]);
        assert_eq!(saved_of(&torn), bytes);
    }
    // Packed, the first waveform is now one sample longer than there are bytes for.
    let mut alone = bytes[..64].to_vec();
    alone[6 + 2 + offset::waveform::NUMBER_OF_SAMPLES] += 1;
    assert_eq!(saved_of(&packed(&alone)), closed(&bytes[..6]));
    assert_eq!(saved_of(&aligned(&alone)), closed(&alone));
}

/// At every offset of every header, and past it, a name stands exactly where a field starts, and another one at each.
#[test]
fn an_element_has_a_name_where_a_field_starts() {
    let bytes = waveforms();
    for stream in [packed(ALL_KINDS), packed(&bytes), aligned(&bytes)] {
        for record in stream.records() {
            let record = record.unwrap();
            let mut names = BTreeSet::new();
            for at in 0..400 {
                let name = element_name(record.kind.id(), stream.rules().layout, at);
                assert_eq!(name.is_some(), record.field(at).is_ok(), "{at}: {name:?}");
                if let Some(name) = name {
                    assert!(names.insert(name), "{name} twice");
                }
            }
        }
    }
    let layout = Layout::Packed;
    let mask = offset::acquisition::CHANNEL_MASK + 8 * 15;
    let name = element_name(id::ACQUISITION, layout, mask);
    assert_eq!(name, Some("channel_mask[15]"));
    let user = offset::acquisition::COUNTERS + 2 * counter::USER_2;
    let name = element_name(id::ACQUISITION, layout, user);
    assert_eq!(name, Some("counters.user[2]"));
    let name = element_name(id::IMAGE, layout, offset::image::USER_INT + 4 * 3);
    assert_eq!(name, Some("user_int[3]"));
    assert_eq!(element_name(id::WAVEFORM, Layout::Aligned, 2), None);
    assert_eq!(element_name(6, layout, 0), None);
    assert_eq!(element_name(id::ACQUISITION, layout, usize::MAX), None);
}

#[test]
fn flags_and_counters() {
    let flags = flag_set(0, acquisition_flag::FIRST_IN_SLICE);
    assert_eq!(flags, 64);
    assert!(flag_test(flags, 7) && !flag_test(flags, 6) && !flag_test(flags, 71));
    assert_eq!(flag_clear(flags, acquisition_flag::FIRST_IN_SLICE), 0);
    assert_eq!(flag_set(0, acquisition_flag::USER8), 1 << 63);
    assert_eq!(
        (counter_step(u32::MAX, 0), counter_step(0, 1 << 31)),
        (1, i32::MIN)
    );
}

#[test]
fn a_refusal_says_what_where_and_what_to_do() {
    let refusal = packed(&SHORT[..8]).check().unwrap_err();
    assert_eq!(
        refusal.to_string(),
        "refused 13 at record 1, byte 8: the stream ends without a close; \
         wait for the rest, or salvage the stream if the recording is over: that adds the close (04 00)."
    );
    let bytes = text_stream(&[b'a', 0xFF]);
    let not_utf8 = strictly(&packed(&bytes)).check().unwrap_err();
    assert_eq!(
        not_utf8.to_string(),
        "refused 21 at record 0, byte 0: a name, a text or the attributes of an image are not UTF-8, as the strict \
         profile demands; have the sender write its texts in UTF-8, or choose the plain profile."
    );
    let unplaced = packed(&SHORT).normal_form(&mut []).unwrap_err();
    assert_eq!(
        unplaced.to_string(),
        "refused 14: the output is too short, or the position is past its end; give a longer output."
    );
    let refused = |number| Refusal {
        number,
        place: None,
    };
    let texts: BTreeSet<(&str, &str)> = (1..=21)
        .map(|number| (refused(number).what(), refused(number).remedy()))
        .collect();
    assert_eq!(texts.len(), 21, "each number has a text of its own");
    assert!(!texts.contains(&(refused(22).what(), refused(22).remedy())));
}
