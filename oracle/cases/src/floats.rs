//! Single floats: those at a boundary, and random ones.

use crate::chance::Chance;

pub const MIN_SUBNORMAL: f64 = f64::from_bits(1);
pub const MAX_SUBNORMAL: f64 = f64::from_bits(0x000f_ffff_ffff_ffff);

/// Two to the power `n`, for a normal float.
pub const fn two_to(n: i64) -> f64 {
    f64::from_bits(((n + 1023) as u64) << 52)
}

pub const SPECIALS: [f64; 30] = [
    0.0,
    -0.0,
    1.0,
    -1.0,
    0.5,
    -0.5,
    2.0,
    3.0,
    -3.0,
    0.1,
    1.0 / 3.0,
    1.0 + f64::EPSILON,
    1.0 - f64::EPSILON / 2.0,
    -1.0 - f64::EPSILON,
    -1.0 + f64::EPSILON / 2.0,
    MIN_SUBNORMAL,
    -MIN_SUBNORMAL,
    MAX_SUBNORMAL,
    f64::MIN_POSITIVE,
    1e-308,
    two_to(-100),
    two_to(100),
    two_to(53),
    two_to(512),
    1e308,
    f64::MAX,
    -f64::MAX,
    f64::INFINITY,
    f64::NEG_INFINITY,
    f64::NAN,
];

/// How many of a hundred floats are: near zero, whole, special, of any bits, of any size around
/// one, subnormal.
const MOODS: [[u64; 6]; 9] = [
    [100, 0, 0, 0, 0, 0],
    [100, 0, 0, 0, 0, 0],
    [0, 100, 0, 0, 0, 0],
    [0, 0, 0, 100, 0, 0],
    [96, 0, 4, 0, 0, 0],
    [90, 4, 2, 1, 2, 1],
    [0, 0, 0, 0, 100, 0],
    [0, 70, 30, 0, 0, 0],
    [20, 20, 20, 15, 15, 10],
];

/// The floats of one input are drawn in one mood, so that one NaN does not spoil all inputs.
pub struct Mood([u64; 6]);

impl Mood {
    pub fn any(chance: &mut Chance) -> Mood {
        Mood(chance.pick(&MOODS))
    }

    pub fn float(&self, chance: &mut Chance) -> f64 {
        let mut left = chance.below(100);
        let mut kind = 0;
        while left >= self.0[kind] {
            left -= self.0[kind];
            kind += 1;
        }
        match kind {
            0 => chance.between(-2.0, 2.0),
            1 => chance.whole(4),
            2 => chance.pick(&SPECIALS),
            3 => f64::from_bits(chance.bits()),
            4 => chance.between(-2.0, 2.0) * two_to(chance.whole(60) as i64),
            _ => f64::from_bits(chance.bits() & 0x800f_ffff_ffff_ffff),
        }
    }

    pub fn floats<const N: usize>(&self, chance: &mut Chance) -> [f64; N] {
        std::array::from_fn(|_| self.float(chance))
    }
}

/// Floats in any one mood.
pub fn any<const N: usize>(chance: &mut Chance) -> [f64; N] {
    Mood::any(chance).floats(chance)
}
