//! The samples of a channel, as complex numbers.

use crate::element::element;

/// The samples of one channel, each as its real and imaginary part, read from a view that may start at any byte.
///
/// ```
/// use cotterleaf::Samples;
///
/// let view = [0, 0, 0x80, 0x3F, 0, 0, 0, 0xC0];
/// assert_eq!(Samples::of(&view).collect::<Vec<_>>(), [(1.0, -2.0)]);
/// ```
#[derive(Clone, Debug)]
pub struct Samples<'a> {
    pairs: std::slice::ChunksExact<'a, u8>,
}

impl<'a> Samples<'a> {
    /// The samples in a view of [`Part::Channel`](crate::Part::Channel). Bytes after the last whole pair are left.
    pub fn of(view: &'a [u8]) -> Samples<'a> {
        Samples {
            pairs: view.chunks_exact(8),
        }
    }
}

/// A pair of floats from its eight bytes.
fn pair(bytes: &[u8]) -> (f32, f32) {
    (element(bytes, 0), element(bytes, 4))
}

impl Iterator for Samples<'_> {
    type Item = (f32, f32);

    fn next(&mut self) -> Option<(f32, f32)> {
        self.pairs.next().map(pair)
    }

    fn size_hint(&self) -> (usize, Option<usize>) {
        self.pairs.size_hint()
    }
}

impl DoubleEndedIterator for Samples<'_> {
    fn next_back(&mut self) -> Option<(f32, f32)> {
        self.pairs.next_back().map(pair)
    }
}

impl ExactSizeIterator for Samples<'_> {}

impl std::iter::FusedIterator for Samples<'_> {}
