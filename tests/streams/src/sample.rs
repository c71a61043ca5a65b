//! Two sample streams that hold all eight kinds between them, and one with aligned waveform headers. One
//! stream may hold one configuration only, so the configuration name is in one and the configuration
//! text in the other.

use crate::messages::Message;
use crate::well_formed::joined;
use second_reader::{Kind, Rules};

const HEADER_TEXT: &str = r#"<?xml version="1.0"?>
<ismrmrdHeader xmlns="http://www.ismrm.org/ISMRMRD">
  <experimentalConditions><H1resonanceFrequency_Hz>63500000</H1resonanceFrequency_Hz></experimentalConditions>
  <encoding>
    <encodedSpace><matrixSize><x>32</x><y>3</y><z>1</z></matrixSize></encodedSpace>
    <trajectory>radial</trajectory>
  </encoding>
</ismrmrdHeader>
"#;

const ATTRIBUTES: &str = "<ismrmrdMeta><meta><name>DataRole</name><value>Image</value></meta>\
    <meta><name>ImageNumber</name><value>1</value></meta></ismrmrdMeta>";

const SAMPLES: u64 = 32;
const READOUTS: u64 = 3;

fn with_text(kind: Kind, text: &str) -> Message {
    let mut message = Message::empty(Rules::PACKED, kind.id());
    message.text = text.as_bytes().to_vec();
    message
}

/// A name whose bytes after its zero are left over from something else, as real senders do.
fn configuration_name() -> Message {
    let mut message = Message::empty(Rules::PACKED, Kind::ConfigurationName.id());
    message.name = b"default.xml".to_vec();
    let left_over = b"previous_configuration.xml/";
    message.filler = (0..1_023 - message.name.len())
        .map(|i| left_over[i % left_over.len()])
        .collect();
    message
}

fn floats(values: impl Iterator<Item = f32>) -> Vec<u8> {
    values.flat_map(f32::to_le_bytes).collect()
}

fn set_float(message: &mut Message, name: &str, i: usize, value: f32) {
    message.set(name, i, u64::from(value.to_bits()));
}

fn with_header(rules: Rules, kind: Kind) -> Message {
    let mut message = Message::empty(rules, kind.id());
    message.header = vec![0; kind.header_size(rules)];
    message.set("version", 0, 1);
    message.set("measurement_uid", 0, 281);
    message
}

/// One radial readout of two channels with a trajectory of two dimensions.
fn acquisition(readout: u64) -> Message {
    let mut message = with_header(Rules::PACKED, Kind::Acquisition);
    let last = readout == READOUTS - 1;
    let flags = match readout {
        0 => 1 << 6,
        _ if last => 1 << 7,
        _ => 0,
    };
    message.set("flags", 0, flags);
    message.set("scan_counter", 0, readout);
    message.set("acquisition_time_stamp", 0, 23_187_639 + 16 * readout);
    message.set("number_of_samples", 0, SAMPLES);
    message.set("available_channels", 0, 8);
    message.set("active_channels", 0, 2);
    // The last one's still names the eight coils from before they were compressed to two.
    let mask = if last { 0b1111_1111 } else { 0b101 };
    message.set("channel_mask", 0, mask);
    message.set("discard_pre", 0, 2);
    message.set("discard_post", 0, 2);
    message.set("center_sample", 0, SAMPLES / 2);
    message.set("trajectory_dimensions", 0, 2);
    set_float(&mut message, "sample_time_us", 0, 15.0);
    set_float(&mut message, "read_dir", 0, 1.0);
    set_float(&mut message, "phase_dir", 1, 1.0);
    set_float(&mut message, "slice_dir", 2, 1.0);
    message.set("counters", 0, readout);
    message.set("user_int", 0, u64::from(u32::MAX - readout as u32));
    set_float(&mut message, "user_float", 0, 0.5);
    let samples = SAMPLES as usize;
    message.trajectory = floats((0..2 * samples).map(|i| {
        let along = (i / 2) as f32 - samples as f32 / 2.0;
        let share = if i % 2 == 0 {
            1.0
        } else {
            readout as f32 / 4.0
        };
        along * share / samples as f32
    }));
    message.samples = floats((0..2 * 2 * samples).map(|i| {
        let channel = i / (2 * samples);
        (i % (2 * samples)) as f32 * 0.25 + 100.0 * channel as f32 + readout as f32
    }));
    message
}

fn image() -> Message {
    let mut message = with_header(Rules::PACKED, Kind::Image);
    message.set("data_type", 0, 5);
    message.set("matrix_size", 0, 16);
    message.set("matrix_size", 1, 16);
    message.set("matrix_size", 2, 1);
    message.set("channels", 0, 1);
    for i in 0..3 {
        set_float(&mut message, "field_of_view", i, 256.0);
    }
    message.set("image_type", 0, 1);
    message.set("image_index", 0, 1);
    message.set("image_series_index", 0, 1);
    message.attributes = ATTRIBUTES.as_bytes().to_vec();
    message.set("attribute_string_len", 0, ATTRIBUTES.len() as u64);
    message.pixels = floats((0..256).map(|i| (i / 16 * (i % 16)) as f32));
    message
}

/// Twenty samples of two channels, with this scan counter.
fn waveform(rules: Rules, counter: u64) -> Message {
    let mut message = with_header(rules, Kind::Waveform);
    message.set("scan_counter", 0, counter);
    message.set("time_stamp", 0, 23_187_639 + counter);
    message.set("number_of_samples", 0, 20);
    message.set("channels", 0, 2);
    message.set("sample_time_us", 0, u64::from(2_500.0_f32.to_bits()));
    message.set("waveform_id", 0, 0);
    message.waveform = (0..40_u32)
        .flat_map(|i| (2_048 + i * i).to_le_bytes())
        .collect();
    message
}

/// An aligned one whose filler is left over from something else.
fn waveform_with_left_over_filler(counter: u64) -> Message {
    let mut message = waveform(Rules::ALIGNED, counter);
    let table = message.table().expect("a waveform has a header");
    for (at, byte) in table.filler().into_iter().zip(*b"leftover") {
        message.header[at] = byte;
    }
    message
}

fn close() -> Message {
    Message::empty(Rules::PACKED, Kind::Close.id())
}

/// Configuration name, header text, text, three acquisitions, image, waveform and close.
pub fn all_kinds() -> Vec<u8> {
    let mut messages = vec![
        configuration_name(),
        with_text(Kind::HeaderText, HEADER_TEXT),
        with_text(Kind::Text, "three radial readouts follow\n"),
    ];
    messages.extend((0..READOUTS).map(acquisition));
    messages.push(image());
    messages.push(waveform(Rules::PACKED, 1));
    messages.push(close());
    joined(&messages)
}

/// Configuration text, header text, one acquisition and close.
pub fn configuration_text() -> Vec<u8> {
    joined(&[
        with_text(
            Kind::ConfigurationText,
            "<configuration><gadget>fft</gadget></configuration>\n",
        ),
        with_text(Kind::HeaderText, HEADER_TEXT),
        acquisition(0),
        close(),
    ])
}

/// Header text, two aligned waveforms, of which the first has filler that is not zero, and close.
pub fn aligned_waveforms() -> Vec<u8> {
    joined(&[
        with_text(Kind::HeaderText, HEADER_TEXT),
        waveform_with_left_over_filler(1),
        waveform(Rules::ALIGNED, 2),
        close(),
    ])
}
