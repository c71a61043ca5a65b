//! The index of a stream, given with a question.

/// An index in one of its two forms. A question that is given one is refused with 15 where it is not the
/// stream's own; an empty one never is.
#[derive(Clone, Copy, Debug, PartialEq, Eq)]
pub enum Index<'a> {
    /// The file that [`Stream::write_index`](crate::Stream::write_index) writes.
    File(&'a [u8]),
    /// The columns that [`Stream::fill_columns`](crate::Stream::fill_columns) fills, with a place for each
    /// record. Later places are not looked at.
    Columns {
        /// Where each record starts.
        starts: &'a [u64],
        /// Its id.
        ids: &'a [u16],
        /// Its scan counter, 0 where the kind has none.
        counters: &'a [u32],
    },
}
