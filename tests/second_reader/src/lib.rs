//! A second reader and writer of MRD message streams, written from documents 01 and 02 alone and for
//! clarity. It shares nothing with the proved code, so that a mistake in one of the two shows as
//! a difference between them.
//!
//! Whatever depends on the layout of waveform headers, or on what texts may hold, takes the caller's [`Rules`] first.
//!
//! Sizes are worked out in `u128`: the largest, an image's, is below 2^69.

pub mod headers;
pub mod index;
pub mod kinds;
pub mod listing;
pub mod mask;
pub mod message;
pub mod normal;
pub mod numbers;
pub mod part_at;
pub mod questions;
pub mod refusal;
pub mod rules;
pub mod salvage;
pub mod stream;
pub mod utf8;
pub mod views;
pub mod writer;

pub use headers::{Entry, Field, Table, Type};
pub use index::{agrees, fill_columns, index_bytes, own_columns, write_index, Columns, GivenIndex};
pub use kinds::Kind;
pub use listing::listing;
pub use mask::Mask;
pub use message::{Detail, PartName};
pub use normal::normal_form;
pub use part_at::{part_at, parts_of, HeaderByte, MessagePart, PartAt, StreamParts};
pub use questions::{
    counter_step, field, find, flag_cleared, flag_is_set, flag_set, kind_and_place,
};
pub use refusal::{Refusal, Refused};
pub use rules::{Layout, Profile, Rules};
pub use salvage::{salvage, salvage_report, Salvage, Saved};
pub use stream::{check, contents, records, records_before_fault, Content, Record};
pub use views::{
    attributes, bytes_of, channel, name, pixels, place_of_view, text, trajectory, waveform, Part,
};
pub use writer::{write, Parts};

/// A whole message, id included, may have at most this many bytes (check 10).
pub const LARGEST_MESSAGE: u128 = 268_435_456;

/// No message may begin after this many messages (check 19).
pub const MOST_MESSAGES: u64 = 1_000_000;

/// A configuration name's field, its zero and filler included.
pub const NAME_FIELD: usize = 1_024;
