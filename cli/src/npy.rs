//! Parts as arrays for NumPy: the header of an `.npy` file, version 1.0, before the bytes as they are.

use cotterleaf::{data_type, Kind, Part};

/// The header is filled up so that the data begins at a multiple of this.
const ALIGNED: usize = 64;

/// Type and shape of a part's bytes.
type Array = (&'static str, Vec<u64>);

/// The array that a part is; none of a text. Of all channels it has a size more than of one.
fn array(kind: &Kind, part: Part, all_channels: bool) -> Option<Array> {
    match part {
        Part::Channel(_) | Part::Trajectory => of_readout(kind, part, all_channels),
        Part::Pixels => of_image(kind),
        Part::Waveform => of_waveform(kind),
        Part::Name | Part::Text | Part::Attributes => None,
    }
}

fn of_readout(kind: &Kind, part: Part, all_channels: bool) -> Option<Array> {
    let Kind::Acquisition {
        number_of_samples,
        active_channels,
        trajectory_dimensions,
        ..
    } = *kind
    else {
        return None;
    };
    let samples = number_of_samples.into();
    Some(match part {
        Part::Trajectory => ("<f4", vec![samples, trajectory_dimensions.into()]),
        _ if all_channels => ("<c8", vec![active_channels.into(), samples]),
        _ => ("<c8", vec![samples]),
    })
}

fn of_image(kind: &Kind) -> Option<Array> {
    let Kind::Image {
        matrix_size: [x, y, z],
        channels,
        data_type,
        ..
    } = *kind
    else {
        return None;
    };
    Some((pixel(data_type)?, [channels, z, y, x].map(u64::from).into()))
}

fn of_waveform(kind: &Kind) -> Option<Array> {
    let Kind::Waveform {
        number_of_samples,
        channels,
    } = *kind
    else {
        return None;
    };
    Some(("<u4", vec![channels.into(), number_of_samples.into()]))
}

/// NumPy's name of a pixel's type.
fn pixel(of: u16) -> Option<&'static str> {
    Some(match of {
        data_type::USHORT => "<u2",
        data_type::SHORT => "<i2",
        data_type::UINT => "<u4",
        data_type::INT => "<i4",
        data_type::FLOAT => "<f4",
        data_type::DOUBLE => "<f8",
        data_type::CXFLOAT => "<c8",
        data_type::CXDOUBLE => "<c16",
        _ => return None,
    })
}

/// The bytes before a part's own; none where the part is no array.
pub fn header(kind: &Kind, part: Part, all_channels: bool) -> Option<Vec<u8>> {
    let (of, shape) = array(kind, part, all_channels)?;
    // A comma after each size: NumPy's tuple of one needs it.
    let shape: String = shape.iter().map(|size| format!("{size},")).collect();
    let mut text = format!("{{'descr': '{of}', 'fortran_order': False, 'shape': ({shape}), }}");
    let magic = b"\x93NUMPY\x01\x00";
    let before = magic.len() + 2;
    let whole = (before + text.len() + 1).next_multiple_of(ALIGNED);
    text.extend(std::iter::repeat(' ').take(whole - before - text.len() - 1));
    text.push('\n');
    let length = u16::try_from(text.len()).expect("four sizes are short");
    Some([&magic[..], &length.to_le_bytes(), text.as_bytes()].concat())
}
