//! Little-endian numbers at any byte.

/// A type that header elements and samples have.
pub(crate) trait Element: Sized {
    /// How many bytes it takes.
    const SIZE: usize;

    /// The element whose bytes these are.
    fn of(bytes: &[u8]) -> Self;
}

macro_rules! element {
    ($($type:ty)*) => {$(
        impl Element for $type {
            const SIZE: usize = std::mem::size_of::<$type>();

            fn of(bytes: &[u8]) -> $type {
                <$type>::from_le_bytes(bytes.try_into().expect("an element's bytes"))
            }
        }
    )*};
}

element!(u16 u32 u64 i32 f32);

/// The element that starts at a byte.
pub(crate) fn element<T: Element>(bytes: &[u8], at: usize) -> T {
    T::of(&bytes[at..at + T::SIZE])
}

/// As many elements as asked for, one after the other from a byte on.
pub(crate) fn elements<T: Element, const N: usize>(bytes: &[u8], at: usize) -> [T; N] {
    std::array::from_fn(|i| element(bytes, at + i * T::SIZE))
}
