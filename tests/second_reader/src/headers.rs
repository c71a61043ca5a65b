//! The fixed headers, one table each (document 01, "Acquisition header", "Image header",
//! "Waveform header"; document 02, E3). Offsets count from the header's first byte, without the id.

use crate::numbers;

#[derive(Clone, Copy, Debug, PartialEq, Eq)]
pub enum Type {
    U16,
    U32,
    U64,
    I32,
    F32,
}

impl Type {
    pub fn size(self) -> usize {
        match self {
            Type::U16 => 2,
            Type::U32 | Type::I32 | Type::F32 => 4,
            Type::U64 => 8,
        }
    }
}

/// `count` elements of one type, one after another from `offset` on.
#[derive(Clone, Copy, Debug)]
pub struct Entry {
    pub name: &'static str,
    pub offset: usize,
    pub count: usize,
    pub element: Type,
}

/// A header's size and its entries. Bytes that no entry covers are filler.
#[derive(Debug)]
pub struct Table {
    pub size: usize,
    pub entries: &'static [Entry],
}

/// A header element as it comes back: u16, u32 and u64 as a whole number, i32 as a signed one,
/// a 32-bit float by its bits.
#[derive(Clone, Copy, Debug, PartialEq, Eq)]
pub enum Field {
    Whole(u64),
    Signed(i32),
    Float(u32),
}

const fn entry(name: &'static str, offset: usize, count: usize, element: Type) -> Entry {
    Entry {
        name,
        offset,
        count,
        element,
    }
}

pub static ACQUISITION: Table = Table {
    size: 340,
    entries: &[
        entry("version", 0, 1, Type::U16),
        entry("flags", 2, 1, Type::U64),
        entry("measurement_uid", 10, 1, Type::U32),
        entry("scan_counter", 14, 1, Type::U32),
        entry("acquisition_time_stamp", 18, 1, Type::U32),
        entry("physiology_time_stamp", 22, 3, Type::U32),
        entry("number_of_samples", 34, 1, Type::U16),
        entry("available_channels", 36, 1, Type::U16),
        entry("active_channels", 38, 1, Type::U16),
        entry("channel_mask", 40, 16, Type::U64),
        entry("discard_pre", 168, 1, Type::U16),
        entry("discard_post", 170, 1, Type::U16),
        entry("center_sample", 172, 1, Type::U16),
        entry("encoding_space_ref", 174, 1, Type::U16),
        entry("trajectory_dimensions", 176, 1, Type::U16),
        entry("sample_time_us", 178, 1, Type::F32),
        entry("position", 182, 3, Type::F32),
        entry("read_dir", 194, 3, Type::F32),
        entry("phase_dir", 206, 3, Type::F32),
        entry("slice_dir", 218, 3, Type::F32),
        entry("patient_table_position", 230, 3, Type::F32),
        entry("counters", 242, 17, Type::U16),
        entry("user_int", 276, 8, Type::I32),
        entry("user_float", 308, 8, Type::F32),
    ],
};

pub static IMAGE: Table = Table {
    size: 198,
    entries: &[
        entry("version", 0, 1, Type::U16),
        entry("data_type", 2, 1, Type::U16),
        entry("flags", 4, 1, Type::U64),
        entry("measurement_uid", 12, 1, Type::U32),
        entry("matrix_size", 16, 3, Type::U16),
        entry("field_of_view", 22, 3, Type::F32),
        entry("channels", 34, 1, Type::U16),
        entry("position", 36, 3, Type::F32),
        entry("read_dir", 48, 3, Type::F32),
        entry("phase_dir", 60, 3, Type::F32),
        entry("slice_dir", 72, 3, Type::F32),
        entry("patient_table_position", 84, 3, Type::F32),
        entry("average", 96, 1, Type::U16),
        entry("slice", 98, 1, Type::U16),
        entry("contrast", 100, 1, Type::U16),
        entry("phase", 102, 1, Type::U16),
        entry("repetition", 104, 1, Type::U16),
        entry("set", 106, 1, Type::U16),
        entry("acquisition_time_stamp", 108, 1, Type::U32),
        entry("physiology_time_stamp", 112, 3, Type::U32),
        entry("image_type", 124, 1, Type::U16),
        entry("image_index", 126, 1, Type::U16),
        entry("image_series_index", 128, 1, Type::U16),
        entry("user_int", 130, 8, Type::I32),
        entry("user_float", 162, 8, Type::F32),
        entry("attribute_string_len", 194, 1, Type::U32),
    ],
};

pub static WAVEFORM: Table = Table {
    size: 32,
    entries: &[
        entry("version", 0, 1, Type::U16),
        entry("flags", 2, 1, Type::U64),
        entry("measurement_uid", 10, 1, Type::U32),
        entry("scan_counter", 14, 1, Type::U32),
        entry("time_stamp", 18, 1, Type::U32),
        entry("number_of_samples", 22, 1, Type::U16),
        entry("channels", 24, 1, Type::U16),
        entry("sample_time_us", 26, 1, Type::F32),
        entry("waveform_id", 30, 1, Type::U16),
    ],
};

/// The same entries in the same order, at other offsets (document 02, E3).
pub static ALIGNED_WAVEFORM: Table = Table {
    size: 40,
    entries: &[
        entry("version", 0, 1, Type::U16),
        entry("flags", 8, 1, Type::U64),
        entry("measurement_uid", 16, 1, Type::U32),
        entry("scan_counter", 20, 1, Type::U32),
        entry("time_stamp", 24, 1, Type::U32),
        entry("number_of_samples", 28, 1, Type::U16),
        entry("channels", 30, 1, Type::U16),
        entry("sample_time_us", 32, 1, Type::F32),
        entry("waveform_id", 36, 1, Type::U16),
    ],
};

impl Table {
    /// The entry of that name, if this header has one.
    pub fn entry(&self, name: &str) -> Option<&'static Entry> {
        self.entries.iter().find(|entry| entry.name == name)
    }

    /// The offset and type of each element, each element of an array being one of its own.
    pub fn elements(&self) -> Vec<(usize, Type)> {
        let mut elements = Vec::new();
        for entry in self.entries {
            for i in 0..entry.count {
                elements.push((entry.offset + i * entry.element.size(), entry.element));
            }
        }
        elements
    }

    /// The bytes of the header that no element covers: they carry nothing.
    pub fn filler(&self) -> Vec<usize> {
        let mut filler = Vec::new();
        let mut covered = 0;
        for entry in self.entries {
            filler.extend(covered..entry.offset);
            covered = entry.offset + entry.count * entry.element.size();
        }
        filler.extend(covered..self.size);
        filler
    }

    /// Makes the filler of a header zero.
    pub fn clear_filler(&self, header: &mut [u8]) {
        for at in self.filler() {
            header[at] = 0;
        }
    }

    /// The type of the element that starts at `offset`, if one does.
    pub fn element_at(&self, offset: u64) -> Option<Type> {
        self.elements()
            .into_iter()
            .find(|&(start, _)| start as u64 == offset)
            .map(|(_, element)| element)
    }

    /// The `i`th element of the named entry, which must be a whole number of this header.
    pub fn whole(&self, header: &[u8], name: &str, i: usize) -> u64 {
        let entry = self.entry(name).expect("an entry of this header");
        assert!(i < entry.count);
        match read_element(
            header,
            entry.offset + i * entry.element.size(),
            entry.element,
        ) {
            Field::Whole(number) => number,
            other => panic!("{name} is {other:?}, not a whole number"),
        }
    }
}

/// The element of type `element` at `offset` of a header.
pub fn read_element(header: &[u8], offset: usize, element: Type) -> Field {
    let number = numbers::read(header, offset, element.size());
    match element {
        Type::U16 | Type::U32 | Type::U64 => Field::Whole(number),
        Type::I32 => Field::Signed(number as u32 as i32),
        Type::F32 => Field::Float(number as u32),
    }
}

#[cfg(test)]
mod tests {
    use super::*;

    #[test]
    fn each_header_is_covered_without_overlap_and_without_gap_but_for_its_filler() {
        let aligned_filler = vec![2, 3, 4, 5, 6, 7, 38, 39];
        for (table, size, filler) in [
            (&ACQUISITION, 340, vec![]),
            (&IMAGE, 198, vec![]),
            (&WAVEFORM, 32, vec![]),
            (&ALIGNED_WAVEFORM, 40, aligned_filler),
        ] {
            assert_eq!(table.size, size);
            assert_eq!(table.filler(), filler);
            let mut covered = filler;
            for (offset, element) in table.elements() {
                covered.extend(offset..offset + element.size());
            }
            covered.sort();
            let all: Vec<usize> = (0..size).collect();
            assert_eq!(covered, all);
        }
    }

    #[test]
    fn both_waveform_headers_have_the_same_entries_in_the_same_order() {
        assert_eq!(WAVEFORM.entries.len(), ALIGNED_WAVEFORM.entries.len());
        for (packed, aligned) in WAVEFORM.entries.iter().zip(ALIGNED_WAVEFORM.entries) {
            assert_eq!(packed.name, aligned.name);
            assert_eq!(packed.count, aligned.count);
            assert_eq!(packed.element, aligned.element);
            // Aligned: each element lies at a multiple of its own size.
            assert_eq!(aligned.offset % aligned.element.size(), 0);
        }
    }

    #[test]
    fn filler_and_nothing_else_is_cleared() {
        let mut header = [0xFF; 48];
        ALIGNED_WAVEFORM.clear_filler(&mut header);
        let zeros: Vec<usize> = (0..48).filter(|&at| header[at] == 0).collect();
        assert_eq!(zeros, [2, 3, 4, 5, 6, 7, 38, 39]);
        let mut header = [0xFF; 340];
        ACQUISITION.clear_filler(&mut header);
        assert_eq!(header, [0xFF; 340]);
    }

    #[test]
    fn elements_of_arrays_are_elements_of_their_own() {
        assert_eq!(ACQUISITION.element_at(22), Some(Type::U32));
        assert_eq!(ACQUISITION.element_at(26), Some(Type::U32));
        assert_eq!(ACQUISITION.element_at(24), None);
        assert_eq!(ACQUISITION.element_at(274), Some(Type::U16));
        assert_eq!(ACQUISITION.element_at(276), Some(Type::I32));
        assert_eq!(ACQUISITION.element_at(336), Some(Type::F32));
        assert_eq!(ACQUISITION.element_at(340), None);
        assert_eq!(IMAGE.element_at(194), Some(Type::U32));
        assert_eq!(IMAGE.element_at(198), None);
        assert_eq!(WAVEFORM.element_at(30), Some(Type::U16));
        assert_eq!(WAVEFORM.element_at(32), None);
        assert_eq!(ALIGNED_WAVEFORM.element_at(36), Some(Type::U16));
        assert_eq!(ALIGNED_WAVEFORM.element_at(38), None);
        assert_eq!(ALIGNED_WAVEFORM.element_at(40), None);
        assert_eq!(ACQUISITION.element_at(u64::MAX), None);
    }

    #[test]
    fn signed_numbers_are_twos_complement_and_floats_keep_their_bits() {
        let signalling_nan = 0x7F80_0001_u32.to_le_bytes();
        assert_eq!(
            read_element(&signalling_nan, 0, Type::F32),
            Field::Float(0x7F80_0001)
        );
        assert_eq!(read_element(&[0xFF; 4], 0, Type::I32), Field::Signed(-1));
        assert_eq!(
            read_element(&[0, 0, 0, 0x80], 0, Type::I32),
            Field::Signed(i32::MIN)
        );
    }
}
