//! Streams that were made from data of the ISMRMRD library, one for each layout of waveform headers,
//! read by the proved library and by the second reader, and compared with what the ISMRMRD library
//! says it holds (see field_data/).

pub mod check;
pub mod description;
pub mod readers;
pub mod tables;
