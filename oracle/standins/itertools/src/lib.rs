//! Stand-in for the crate `itertools`: the macro and the method that the original calls.

/// Every tuple of the given ranges, the last one fastest.
#[macro_export]
macro_rules! iproduct {
    ($i:expr, $j:expr) => {
        $i.flat_map(move |i| $j.map(move |j| (i, j)))
    };
    ($i:expr, $j:expr, $k:expr) => {
        $i.flat_map(move |i| $j.flat_map(move |j| $k.map(move |k| (i, j, k))))
    };
}

pub trait Itertools: Iterator {
    /// The place of the greatest item, the last one of several.
    fn position_max_by<F>(self, mut compare: F) -> Option<usize>
    where
        Self: Sized,
        F: FnMut(&Self::Item, &Self::Item) -> std::cmp::Ordering,
    {
        self.enumerate().max_by(|a, b| compare(&a.1, &b.1)).map(|(place, _)| place)
    }
}

impl<I: Iterator> Itertools for I {}
