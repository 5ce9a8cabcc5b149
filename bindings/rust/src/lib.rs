#![doc = include_str!("../README.md")]
#![deny(missing_docs, unsafe_op_in_unsafe_fn)]
#![deny(clippy::missing_errors_doc, clippy::must_use_candidate, clippy::undocumented_unsafe_blocks)]

mod ffi;
pub mod hex;
pub mod mat3;
pub mod mesh;
pub mod prism;
mod refusal;

pub use refusal::Refusal;

/// Three floats: a corner in space, a place in a cell, a vector.
pub type Point = [f64; 3];

/// What a call of the archive has written into `out`, or its refusal.
fn answer<T>(mut out: T, call: impl FnOnce(&mut T) -> u32) -> Result<T, Refusal> {
    match call(&mut out) {
        0 => Ok(out),
        number => Err(Refusal::from_number(number)
            .unwrap_or_else(|| panic!("no refusal of this version has the number {number}"))),
    }
}

/// The like, of a function that answers every input.
fn always<T>(out: T, call: impl FnOnce(&mut T) -> u32) -> T {
    answer(out, call).expect("this function refuses nothing")
}
