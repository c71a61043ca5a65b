//! Streams and other inputs for the tests: well-formed and damaged streams, a writer's inputs,
//! given indexes, offsets, flags and counters. A seed fixes all of them. They are drawn for the layout of
//! waveform headers and for the profile of texts that the caller says.

pub mod at_fault;
pub mod damaged;
pub mod either;
pub mod filler;
pub mod inputs;
pub mod messages;
pub mod program;
pub mod rng;
pub mod sample;
pub mod split;
pub mod stated;
pub mod texts;
pub mod well_formed;

pub use at_fault::{text_at, FaultyText};
pub use damaged::{around_the_limit, damaged, drawn, huge_images, refused_with, too_many};
pub use damaged::{AroundTheLimit, DAMAGES, FOR_BOTH_LAYOUTS};
pub use either::accepted_by_both;
pub use inputs::{
    counter_pair, counters, field_offset, flag, given_columns, given_files, record_number,
    writer_input, writer_input_refused, writer_refusals, GivenColumns, GivenFile, WriterInput,
    OF_OTHER_LAYOUT, WRITER_REFUSALS,
};
pub use messages::Message;
pub use rng::Rng;
pub use well_formed::{joined, well_formed};

use second_reader::{Kind, Profile, Rules};

/// The kinds that have text: a name, a text or attributes.
pub const TEXTED: [Kind; 5] = [
    Kind::ConfigurationName,
    Kind::ConfigurationText,
    Kind::HeaderText,
    Kind::Text,
    Kind::Image,
];

/// The stream refusals that a stream of a few bytes can meet; 19 needs a million messages. The strict profile has
/// the last one too.
pub const SHORT_REFUSALS: [u32; 14] = [1, 2, 3, 4, 5, 6, 7, 8, 9, 10, 11, 12, 13, 21];

/// Those that these rules know.
pub fn short_refusals(rules: Rules) -> &'static [u32] {
    match rules.profile {
        Profile::Plain => &SHORT_REFUSALS[..13],
        Profile::Strict => &SHORT_REFUSALS,
    }
}
