//! Single cells at which the original's locators do something worth knowing. `findings` prints
//! them; the comparison and the stored sample hold them all.

use crate::original::{HEX, Hex, PRISM, Place, Prism};

/// The cube [-1,0]^3 with corner 6 drawn onto corner 4. Newton goes to and fro between two
/// corners and ends inside at one whose image is not the origin.
pub const FOLDED_HEX: Hex = [
    [-1.0, -1.0, -1.0],
    [0.0, -1.0, -1.0],
    [0.0, 0.0, -1.0],
    [-1.0, 0.0, -1.0],
    [-1.0, -1.0, 0.0],
    [0.0, -1.0, 0.0],
    [-1.0, -1.0, 0.0],
    [-1.0, 0.0, 0.0],
];

/// A cube with two coordinates moved; its determinant is positive throughout. The origin is
/// outside, and Newton, without coming to rest, ends inside.
pub const RESTLESS_HEX: Hex = [
    [1.0, 2.0, -1.0],
    [3.0, 2.0, -1.0],
    [3.0, 4.0, -1.0],
    [0.0, 4.0, -1.0],
    [1.0, 2.0, 1.0],
    [3.0, -2.0, 1.0],
    [3.0, 4.0, 1.0],
    [1.0, 4.0, 1.0],
];

/// The like for a prism.
pub const RESTLESS_PRISM: Prism = [
    [0.0, 0.0, 1.0],
    [2.0, 0.0, 0.0],
    [0.0, 2.0, 0.0],
    [-1.0, 0.0, 2.0],
    [2.0, 0.0, 2.0],
    [0.0, 2.0, 2.0],
];

/// The determinant is positive throughout and the origin is inside, near the place below, but
/// Newton goes elsewhere.
pub const MISSED_HEX: Hex = [
    [-6.0, 0.0, -3.0],
    [1.0, -3.0, -3.0],
    [1.0, 1.0, -3.0],
    [0.0, 1.0, -3.0],
    [0.0, 0.0, 1.0],
    [1.0, 0.0, -2.0],
    [1.0, 1.0, -2.0],
    [0.0, 1.0, -2.0],
];
pub const MISSED_HEX_PLACE: Place = [-0.5116931801889385, -0.9211336158028475, 0.8879065320442092];

/// The like for a prism, where the origin is exactly at the place below.
pub const MISSED_PRISM: Prism = [
    [-119.0, -48.0, -11.0],
    [-55.0, -48.0, -11.0],
    [73.0, 16.0, -11.0],
    [-119.0, -48.0, 53.0],
    [-55.0, -48.0, 245.0],
    [-279.0, 16.0, 53.0],
];
pub const MISSED_PRISM_PLACE: Place = [0.125, 0.75, 0.125];

/// A skewed box with the origin exactly at the place below, on a face; rounding puts it outside.
pub const SKEWED_HEX: Hex = [
    [2.0, -5.0, -9.0],
    [6.0, -9.0, -9.0],
    [2.0, 3.0, -5.0],
    [-2.0, 7.0, -5.0],
    [-2.0, -5.0, -1.0],
    [2.0, -9.0, -1.0],
    [-2.0, 3.0, 3.0],
    [-6.0, 7.0, 3.0],
];
pub const SKEWED_HEX_PLACE: Place = [1.0, 0.5, 0.5];

/// Newton goes 10^17 away and comes back to a corner.
pub const WANDERING_HEX: Hex = [
    [-1.0, 0.0, 1.0],
    [1.0, 0.0, -1.0],
    [-1.0, -1.0, 0.0],
    [-1.0, -1.0, 1.0],
    [-1.0, 0.0, 1.0],
    [1.0, -1.0, 0.0],
    [0.0, -1.0, 0.0],
    [-1.0, 0.0, -1.0],
];

/// Newton goes 10^52 away and comes back to corner 5.
pub const WANDERING_PRISM: Prism = [
    [-1.0, 0.0, 1.0],
    [-1.0, 0.0, 1.0],
    [1.0, 0.0, 0.0],
    [0.0, -1.0, -1.0],
    [0.0, -1.0, 1.0],
    [0.0, 0.0, 0.0],
];

/// One face has shrunk to an edge, and the origin is on it: flat at the second step.
pub fn wedge() -> Hex {
    HEX.places.map(|[r, s, t]| [r - 1.0, s * (1.0 - r), t])
}

/// Document 01's example of a cell beside the origin: x in [3,7], y and z in [-1,1].
pub fn beside() -> Hex {
    HEX.places.map(|[r, s, t]| [5.0 + 2.0 * r, s, t])
}

/// A cell as large as its determinant does not allow, away from the origin.
pub fn overflowing<const N: usize>(places: [Place; N]) -> [Place; N] {
    places.map(|p| p.map(|x| (x + 2.0) * 1e103))
}

/// A straight prism of the given sides, one of its corners on the origin.
pub fn prism_at_corner(corner: usize, sides: Place) -> Prism {
    let at = PRISM.places[corner];
    PRISM.places.map(|p| std::array::from_fn(|axis| (p[axis] - at[axis]) * sides[axis]))
}

/// Corner 0 on the origin, but Newton ends below zero by 2e-314.
pub fn prism_missed_at_corner() -> Prism {
    prism_at_corner(0, [1.0, 7.0, 15.0])
}

/// Inside, although r + s is above 1 before it is rounded: 4e-320 + 1.
pub fn prism_beyond_corner() -> Prism {
    prism_at_corner(2, [5.0, 1.0, 7.0])
}

/// The like: the floats 0.8 and 0.2, together 1 + 2^-54.
pub fn prism_beyond_face() -> Prism {
    PRISM.places.map(|[r, s, t]| [5.0 * r - 4.0, 5.0 * s - 1.0, 5.0 * t - 1.0])
}

pub fn hexes() -> Vec<Hex> {
    let fixed = [FOLDED_HEX, RESTLESS_HEX, MISSED_HEX, SKEWED_HEX, WANDERING_HEX];
    fixed.into_iter().chain([wedge(), beside(), overflowing(HEX.places)]).collect()
}

pub fn prisms() -> Vec<Prism> {
    let fixed = [RESTLESS_PRISM, MISSED_PRISM, WANDERING_PRISM, overflowing(PRISM.places)];
    let at_border = [prism_missed_at_corner(), prism_beyond_corner(), prism_beyond_face()];
    fixed.into_iter().chain(at_border).collect()
}
