//! The three headers, each field by its name.
//! Written by tests/names from the definitions in crates/: change those, not this file.

use crate::element::{element, elements};
use crate::rules::Layout;

/// The header of an acquisition (id 1008): its 340 bytes as they lie in the stream, and each field by name.
#[derive(Clone, Copy, Debug, PartialEq, Eq, Hash)]
pub struct AcquisitionHeader<'a> {
    bytes: &'a [u8; 340],
}

impl<'a> AcquisitionHeader<'a> {
    /// How many bytes the header has.
    pub const SIZE: usize = 340;

    /// A header from its bytes.
    pub fn new(bytes: &'a [u8; 340]) -> AcquisitionHeader<'a> {
        AcquisitionHeader { bytes }
    }

    /// The bytes.
    pub fn bytes(&self) -> &'a [u8; 340] {
        self.bytes
    }

    /// `version`, at offset 0.
    pub fn version(&self) -> u16 {
        element(self.bytes, 0)
    }

    /// `flags`, at offset 2.
    pub fn flags(&self) -> u64 {
        element(self.bytes, 2)
    }

    /// `measurement_uid`, at offset 10.
    pub fn measurement_uid(&self) -> u32 {
        element(self.bytes, 10)
    }

    /// `scan_counter`, at offset 14.
    pub fn scan_counter(&self) -> u32 {
        element(self.bytes, 14)
    }

    /// `acquisition_time_stamp`, at offset 18.
    pub fn acquisition_time_stamp(&self) -> u32 {
        element(self.bytes, 18)
    }

    /// `physiology_time_stamp`, at offset 22.
    pub fn physiology_time_stamp(&self) -> [u32; 3] {
        elements(self.bytes, 22)
    }

    /// `number_of_samples`, at offset 34.
    pub fn number_of_samples(&self) -> u16 {
        element(self.bytes, 34)
    }

    /// `available_channels`, at offset 36.
    pub fn available_channels(&self) -> u16 {
        element(self.bytes, 36)
    }

    /// `active_channels`, at offset 38.
    pub fn active_channels(&self) -> u16 {
        element(self.bytes, 38)
    }

    /// `channel_mask`, at offset 40.
    pub fn channel_mask(&self) -> [u64; 16] {
        elements(self.bytes, 40)
    }

    /// `discard_pre`, at offset 168.
    pub fn discard_pre(&self) -> u16 {
        element(self.bytes, 168)
    }

    /// `discard_post`, at offset 170.
    pub fn discard_post(&self) -> u16 {
        element(self.bytes, 170)
    }

    /// `center_sample`, at offset 172.
    pub fn center_sample(&self) -> u16 {
        element(self.bytes, 172)
    }

    /// `encoding_space_ref`, at offset 174.
    pub fn encoding_space_ref(&self) -> u16 {
        element(self.bytes, 174)
    }

    /// `trajectory_dimensions`, at offset 176.
    pub fn trajectory_dimensions(&self) -> u16 {
        element(self.bytes, 176)
    }

    /// `sample_time_us`, at offset 178.
    pub fn sample_time_us(&self) -> f32 {
        element(self.bytes, 178)
    }

    /// `position`, at offset 182.
    pub fn position(&self) -> [f32; 3] {
        elements(self.bytes, 182)
    }

    /// `read_dir`, at offset 194.
    pub fn read_dir(&self) -> [f32; 3] {
        elements(self.bytes, 194)
    }

    /// `phase_dir`, at offset 206.
    pub fn phase_dir(&self) -> [f32; 3] {
        elements(self.bytes, 206)
    }

    /// `slice_dir`, at offset 218.
    pub fn slice_dir(&self) -> [f32; 3] {
        elements(self.bytes, 218)
    }

    /// `patient_table_position`, at offset 230.
    pub fn patient_table_position(&self) -> [f32; 3] {
        elements(self.bytes, 230)
    }

    /// `counters`, at offset 242.
    pub fn counters(&self) -> [u16; 17] {
        elements(self.bytes, 242)
    }

    /// `user_int`, at offset 276.
    pub fn user_int(&self) -> [i32; 8] {
        elements(self.bytes, 276)
    }

    /// `user_float`, at offset 308.
    pub fn user_float(&self) -> [f32; 8] {
        elements(self.bytes, 308)
    }
}

/// The header of an image (id 1022): its 198 bytes as they lie in the stream, and each field by name.
#[derive(Clone, Copy, Debug, PartialEq, Eq, Hash)]
pub struct ImageHeader<'a> {
    bytes: &'a [u8; 198],
}

impl<'a> ImageHeader<'a> {
    /// How many bytes the header has.
    pub const SIZE: usize = 198;

    /// A header from its bytes.
    pub fn new(bytes: &'a [u8; 198]) -> ImageHeader<'a> {
        ImageHeader { bytes }
    }

    /// The bytes.
    pub fn bytes(&self) -> &'a [u8; 198] {
        self.bytes
    }

    /// `version`, at offset 0.
    pub fn version(&self) -> u16 {
        element(self.bytes, 0)
    }

    /// `data_type`, at offset 2.
    pub fn data_type(&self) -> u16 {
        element(self.bytes, 2)
    }

    /// `flags`, at offset 4.
    pub fn flags(&self) -> u64 {
        element(self.bytes, 4)
    }

    /// `measurement_uid`, at offset 12.
    pub fn measurement_uid(&self) -> u32 {
        element(self.bytes, 12)
    }

    /// `matrix_size`, at offset 16.
    pub fn matrix_size(&self) -> [u16; 3] {
        elements(self.bytes, 16)
    }

    /// `field_of_view`, at offset 22.
    pub fn field_of_view(&self) -> [f32; 3] {
        elements(self.bytes, 22)
    }

    /// `channels`, at offset 34.
    pub fn channels(&self) -> u16 {
        element(self.bytes, 34)
    }

    /// `position`, at offset 36.
    pub fn position(&self) -> [f32; 3] {
        elements(self.bytes, 36)
    }

    /// `read_dir`, at offset 48.
    pub fn read_dir(&self) -> [f32; 3] {
        elements(self.bytes, 48)
    }

    /// `phase_dir`, at offset 60.
    pub fn phase_dir(&self) -> [f32; 3] {
        elements(self.bytes, 60)
    }

    /// `slice_dir`, at offset 72.
    pub fn slice_dir(&self) -> [f32; 3] {
        elements(self.bytes, 72)
    }

    /// `patient_table_position`, at offset 84.
    pub fn patient_table_position(&self) -> [f32; 3] {
        elements(self.bytes, 84)
    }

    /// `average`, at offset 96.
    pub fn average(&self) -> u16 {
        element(self.bytes, 96)
    }

    /// `slice`, at offset 98.
    pub fn slice(&self) -> u16 {
        element(self.bytes, 98)
    }

    /// `contrast`, at offset 100.
    pub fn contrast(&self) -> u16 {
        element(self.bytes, 100)
    }

    /// `phase`, at offset 102.
    pub fn phase(&self) -> u16 {
        element(self.bytes, 102)
    }

    /// `repetition`, at offset 104.
    pub fn repetition(&self) -> u16 {
        element(self.bytes, 104)
    }

    /// `set`, at offset 106.
    pub fn set(&self) -> u16 {
        element(self.bytes, 106)
    }

    /// `acquisition_time_stamp`, at offset 108.
    pub fn acquisition_time_stamp(&self) -> u32 {
        element(self.bytes, 108)
    }

    /// `physiology_time_stamp`, at offset 112.
    pub fn physiology_time_stamp(&self) -> [u32; 3] {
        elements(self.bytes, 112)
    }

    /// `image_type`, at offset 124.
    pub fn image_type(&self) -> u16 {
        element(self.bytes, 124)
    }

    /// `image_index`, at offset 126.
    pub fn image_index(&self) -> u16 {
        element(self.bytes, 126)
    }

    /// `image_series_index`, at offset 128.
    pub fn image_series_index(&self) -> u16 {
        element(self.bytes, 128)
    }

    /// `user_int`, at offset 130.
    pub fn user_int(&self) -> [i32; 8] {
        elements(self.bytes, 130)
    }

    /// `user_float`, at offset 162.
    pub fn user_float(&self) -> [f32; 8] {
        elements(self.bytes, 162)
    }

    /// `attribute_string_len`, at offset 194.
    pub fn attribute_string_len(&self) -> u32 {
        element(self.bytes, 194)
    }
}

/// The header of a waveform (id 1026) in one of its layouts: its bytes as they lie in the stream, 32 packed or 40
/// aligned, and each field by name. Two are equal where layout and bytes are, filler too.
#[derive(Clone, Copy, Debug, PartialEq, Eq, Hash)]
pub struct WaveformHeader<'a> {
    layout: Layout,
    bytes: &'a [u8],
}

impl<'a> WaveformHeader<'a> {
    /// How many bytes the header has in a layout.
    pub const fn size(layout: Layout) -> usize {
        match layout {
            Layout::Packed => 32,
            Layout::Aligned => 40,
        }
    }

    /// A header from its 32 bytes, packed.
    pub fn packed(bytes: &'a [u8; 32]) -> WaveformHeader<'a> {
        WaveformHeader {
            layout: Layout::Packed,
            bytes,
        }
    }

    /// A header from its 40 bytes, aligned.
    pub fn aligned(bytes: &'a [u8; 40]) -> WaveformHeader<'a> {
        WaveformHeader {
            layout: Layout::Aligned,
            bytes,
        }
    }

    /// The layout.
    pub fn layout(&self) -> Layout {
        self.layout
    }

    /// The bytes.
    pub fn bytes(&self) -> &'a [u8] {
        self.bytes
    }

    /// The offset in this header's layout.
    fn at(&self, packed: usize, aligned: usize) -> usize {
        match self.layout {
            Layout::Packed => packed,
            Layout::Aligned => aligned,
        }
    }

    /// `version`, at offset 0.
    pub fn version(&self) -> u16 {
        element(self.bytes, 0)
    }

    /// `flags`, at offset 2, aligned 8.
    pub fn flags(&self) -> u64 {
        element(self.bytes, self.at(2, 8))
    }

    /// `measurement_uid`, at offset 10, aligned 16.
    pub fn measurement_uid(&self) -> u32 {
        element(self.bytes, self.at(10, 16))
    }

    /// `scan_counter`, at offset 14, aligned 20.
    pub fn scan_counter(&self) -> u32 {
        element(self.bytes, self.at(14, 20))
    }

    /// `time_stamp`, at offset 18, aligned 24.
    pub fn time_stamp(&self) -> u32 {
        element(self.bytes, self.at(18, 24))
    }

    /// `number_of_samples`, at offset 22, aligned 28.
    pub fn number_of_samples(&self) -> u16 {
        element(self.bytes, self.at(22, 28))
    }

    /// `channels`, at offset 24, aligned 30.
    pub fn channels(&self) -> u16 {
        element(self.bytes, self.at(24, 30))
    }

    /// `sample_time_us`, at offset 26, aligned 32.
    pub fn sample_time_us(&self) -> f32 {
        element(self.bytes, self.at(26, 32))
    }

    /// `waveform_id`, at offset 30, aligned 36.
    pub fn waveform_id(&self) -> u16 {
        element(self.bytes, self.at(30, 36))
    }
}
