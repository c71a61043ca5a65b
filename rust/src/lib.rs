//! MRD message streams, the raw data of MRI scanners: checked, read, indexed and written by a library that is
//! proved to give, for any bytes, the answer of the written rules or a refusal with its number.
//!
//! Nothing is copied: a [`Stream`] borrows the bytes, and a view is a part of them.
//!
//! ```
//! use cotterleaf::{Part, Rules, Stream};
//!
//! // A header text of two bytes, and the close.
//! let stream = Stream::new(Rules::packed(), &[3, 0, 2, 0, 0, 0, b'h', b'i', 4, 0]);
//! assert_eq!(stream.check(), Ok(2));
//! assert_eq!(stream.view(0, Part::Text), Ok(&b"hi"[..]));
//! assert_eq!(stream.view(0, Part::Pixels).unwrap_err().number, 17);
//! ```
//!
//! The [`Rules`] say how the stream's waveform headers are laid out, which nothing in a stream tells, and whether its
//! texts must be UTF-8.
//!
//! A walk yields each record with the cursor at which it was due, so that its header and parts cost no further walk:
//!
//! ```
//! # use cotterleaf::{Rules, Stream};
//! # fn mean(bytes: &[u8]) -> Result<f32, cotterleaf::Refusal> {
//! let (mut sum, mut count) = (0.0, 0.0);
//! for record in Stream::new(Rules::packed(), bytes).records() {
//!     let record = record?;
//!     let Some(header) = record.acquisition() else { continue };
//!     for channel in 0..header.active_channels() {
//!         for (re, im) in record.samples(channel.into())? {
//!             sum += re.hypot(im);
//!             count += 1.0;
//!         }
//!     }
//! }
//! # Ok(sum / count)
//! # }
//! ```
//!
//! A question by record number ([`Stream::place`], [`Stream::view`], [`Stream::field`], [`Stream::find`]) first walks
//! the whole stream, and an index that is given is compared with all of it; so does one by a byte's number
//! ([`Stream::part_at`]), which looks at no index. Any calls may run at the same time: the library keeps nothing between
//! them.
//!
//! docs/FORMAT.md of the repository describes the stream and every refusal.

#![deny(unsafe_code)]
#![deny(missing_docs)]

mod element;
mod flags;
mod headers;
mod index;
mod message;
mod names;
mod part_at;
// The C interface as it is, for tests and benchmarks.
#[doc(hidden)]
#[allow(unsafe_code, missing_docs)]
pub mod raw;
mod record;
mod refusal;
mod rules;
mod salvage;
mod samples;
mod stream;
mod walk;

pub use flags::{counter_step, flag_clear, flag_set, flag_test};
pub use headers::{AcquisitionHeader, ImageHeader, WaveformHeader};
pub use index::Index;
pub use message::Message;
pub use names::{acquisition_flag, counter, data_type, id, image_type, offset, refused};
pub use names::{data_type_name, element_name, flag_name, image_type_name};
pub use names::{COUNTER_NAMES, MAX_MESSAGES, MAX_MESSAGE_SIZE};
pub use part_at::{HeaderPiece, MessagePart, PartAt};
pub use record::{Field, Kind, Mask, Part, Record};
pub use refusal::{Fault, Refusal};
pub use rules::{Layout, Profile, Rules};
pub use salvage::Salvage;
pub use samples::Samples;
pub use stream::Stream;
pub use walk::{Cursor, RecordAt, Records, Step};
