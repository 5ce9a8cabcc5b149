//! The inputs of the comparison, and what the original answers to each.

pub mod answers;
pub mod cells;
pub mod chance;
pub mod floats;
pub mod inputs;
pub mod noted;
pub mod original;
pub mod rows;
pub mod words;
