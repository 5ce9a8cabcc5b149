//! The inputs of one call as 64-bit words in the order of the C arguments: a float as its bits, a
//! number zero-extended, a list as its length and then its elements.

use crate::original::Place;

/// The one word that all NaNs count as.
pub const NAN: u64 = 0x7ff8_0000_0000_0000;

/// The word with all NaNs made one.
pub fn canonical(word: u64) -> u64 {
    if f64::from_bits(word).is_nan() { NAN } else { word }
}

#[derive(Clone, Default)]
pub struct Input(pub Vec<u64>);

impl Input {
    pub fn floats(mut self, values: &[f64]) -> Input {
        self.0.extend(values.iter().map(|x| x.to_bits()));
        self
    }

    pub fn corners(self, corners: &[Place]) -> Input {
        self.floats(corners.as_flattened())
    }

    pub fn numbers(mut self, values: &[u32]) -> Input {
        self.0.extend(values.iter().map(|&n| u64::from(n)));
        self
    }

    pub fn list(mut self, values: &[f64]) -> Input {
        self.0.push(values.len() as u64);
        self.floats(values)
    }
}

/// Takes the arguments off an input, one after the other.
pub struct Reader<'a>(&'a [u64]);

impl<'a> Reader<'a> {
    pub fn new(words: &'a [u64]) -> Reader<'a> {
        Reader(words)
    }

    pub fn is_done(&self) -> bool {
        self.0.is_empty()
    }

    pub fn words(&mut self, n: usize) -> &'a [u64] {
        let (first, rest) = self.0.split_at(n);
        self.0 = rest;
        first
    }

    pub fn number(&mut self) -> u32 {
        u32::try_from(self.words(1)[0]).expect("a number has 32 bits")
    }

    pub fn numbers<const N: usize>(&mut self) -> [u32; N] {
        std::array::from_fn(|_| self.number())
    }

    pub fn float(&mut self) -> f64 {
        f64::from_bits(self.words(1)[0])
    }

    pub fn floats<const N: usize>(&mut self) -> [f64; N] {
        std::array::from_fn(|_| self.float())
    }

    pub fn corners<const N: usize>(&mut self) -> [Place; N] {
        std::array::from_fn(|_| self.floats())
    }

    pub fn list(&mut self) -> Vec<f64> {
        let length = self.words(1)[0] as usize;
        self.words(length).iter().map(|&w| f64::from_bits(w)).collect()
    }
}
