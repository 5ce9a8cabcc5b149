//! Stand-in for the crate `slice_of_array`: the one method that the original calls.

pub trait SliceFlatExt<T> {
    /// The rows of an array of arrays, one after the other.
    fn flat(&self) -> &[T];
}

impl<T, const N: usize> SliceFlatExt<T> for [[T; N]] {
    #[inline]
    fn flat(&self) -> &[T] {
        self.as_flattened()
    }
}
