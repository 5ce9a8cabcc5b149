//! Cells: at the boundaries of the locators and volumes, and random ones of every shape.

use crate::chance::Chance;
use crate::floats::{MIN_SUBNORMAL, Mood, SPECIALS, two_to};
use crate::noted;
use crate::original::{Cell, HEX, PRISM, Place};

/// Sizes of cells: plain ones, and those around which a determinant or its inverse leaves the
/// normal floats.
const SIZES: [f64; 20] = [
    1.0,
    2.0,
    0.3,
    -1.0,
    1e6,
    1e-300,
    1e-109,
    1e-108,
    1e-103,
    1e-102,
    1e102,
    1e103,
    1e154,
    1e155,
    1e300,
    MIN_SUBNORMAL,
    f64::MIN_POSITIVE,
    two_to(100),
    two_to(-100),
    f64::MAX,
];

/// Coordinates of the places where the origin is put: inside, on the border, just beyond, outside.
const HEX_STEPS: [f64; 7] = [-1.0, 0.0, 0.5, 1.0, 1.0 + f64::EPSILON, -1.0 - f64::EPSILON, 2.5];
const PRISM_STEPS: [f64; 7] = [-f64::EPSILON, 0.0, 0.25, 0.5, 1.0, 1.0 + f64::EPSILON, 2.5];

/// What the two cells differ in here.
pub struct Shape<const N: usize> {
    pub cell: Cell<N>,
    steps: [f64; 7],
    inside: fn(&mut Chance) -> Place,
    border: fn(&mut Chance) -> Place,
    noted: fn() -> Vec<[Place; N]>,
}

pub const HEXES: Shape<8> = Shape {
    cell: HEX,
    steps: HEX_STEPS,
    inside: inside_hex,
    border: on_hex_border,
    noted: noted::hexes,
};

pub const PRISMS: Shape<6> = Shape {
    cell: PRISM,
    steps: PRISM_STEPS,
    inside: inside_prism,
    border: on_prism_border,
    noted: noted::prisms,
};

fn inside_hex(chance: &mut Chance) -> Place {
    std::array::from_fn(|_| chance.between(-1.0, 1.0))
}

/// On a face, an edge or a corner; the other coordinates are eighths.
fn on_hex_border(chance: &mut Chance) -> Place {
    let mut at: Place = std::array::from_fn(|_| chance.whole(8) / 8.0);
    for _ in 0..=chance.below(3) {
        at[chance.below(3) as usize] = chance.pick(&[-1.0, 1.0]);
    }
    at
}

fn inside_prism(chance: &mut Chance) -> Place {
    let (r, s) = (chance.between(0.0, 1.0), chance.between(0.0, 1.0));
    let (r, s) = if r + s <= 1.0 { (r, s) } else { (1.0 - r, 1.0 - s) };
    [r, s, chance.between(0.0, 1.0)]
}

/// On one of the five faces or where they meet; all coordinates are eighths.
fn on_prism_border(chance: &mut Chance) -> Place {
    let [r, t] = std::array::from_fn(|_| chance.below(9) as f64 / 8.0);
    let s = (1.0 - r) * chance.pick(&[0.0, 0.5, 1.0]);
    match chance.below(4) {
        0 => [r, s, chance.pick(&[0.0, 1.0])],
        1 => [0.0, r, t],
        2 => [r, 0.0, t],
        _ => [r, 1.0 - r, t],
    }
}

fn map<const N: usize>(corners: &[Place; N], mut change: impl FnMut(f64) -> f64) -> [Place; N] {
    corners.map(|corner| corner.map(&mut change))
}

impl<const N: usize> Shape<N> {
    /// The cell moved so that the place `at` lies on the origin, as far as floats allow.
    pub fn with_origin_at(&self, corners: &[Place; N], at: &Place) -> [Place; N] {
        let image = self.cell.image(corners, at);
        corners.map(|corner| std::array::from_fn(|axis| corner[axis] - image[axis]))
    }

    /// The cell whose corners stand at their own places.
    pub fn unit(&self) -> [Place; N] {
        self.cell.places
    }

    /// The same, with one coordinate of each corner worked out from its place.
    fn with_axis(&self, axis: usize, coordinate: impl Fn(&Place) -> f64) -> [Place; N] {
        let mut corners = self.unit();
        for corner in &mut corners {
            corner[axis] = coordinate(corner);
        }
        corners
    }

    /// Calls `meet` with every boundary cell.
    pub fn boundaries(&self, meet: &mut dyn FnMut([Place; N])) {
        (self.noted)().into_iter().for_each(&mut *meet);
        self.placed(meet);
        self.with_special_coordinates(meet);
        self.flat(meet);
        self.collapsed(meet);
        self.of_whole_numbers(meet);
    }

    /// Straight cells of every size, with the origin at every step of every axis.
    fn placed(&self, meet: &mut dyn FnMut([Place; N])) {
        for size in SIZES {
            for at in triples(&self.steps) {
                let moved = self.unit().map(|p| std::array::from_fn(|axis| p[axis] - at[axis]));
                meet(map(&moved, |x| x * size));
            }
        }
    }

    /// One coordinate, or two, replaced by special values.
    fn with_special_coordinates(&self, meet: &mut dyn FnMut([Place; N])) {
        for special in SPECIALS {
            for place in 0..3 * N {
                let mut corners = self.unit();
                corners[place / 3][place % 3] = special;
                meet(corners);
                corners[(place / 3 + 3) % N][place % 3] = -special;
                meet(corners);
            }
            for axis in 0..3 {
                meet(self.with_axis(axis, |p| p[axis] * special));
            }
        }
    }

    /// Cells without inside: all corners one point, or in a plane; zeros of all signs.
    fn flat(&self, meet: &mut dyn FnMut([Place; N])) {
        for signs in 0..1 << N {
            let zero = |k: usize| if signs >> k & 1 == 1 { -0.0 } else { 0.0 };
            meet(std::array::from_fn(|k| [zero(k); 3]));
        }
        for special in SPECIALS {
            for other in SPECIALS {
                meet([[special, other, 1.0]; N]);
            }
            for axis in 0..3 {
                meet(self.with_axis(axis, |_| special));
                meet(self.with_axis(axis, |p| p[(axis + 1) % 3] + special));
            }
        }
    }

    /// Cells whose one face is a line on which the first steps land: flat at a later step.
    fn collapsed(&self, meet: &mut dyn FnMut([Place; N])) {
        for size in SIZES {
            for across in 0..2 {
                for end in [-1.0, 1.0, 2.0, 0.75] {
                    let corners = self.unit().map(|p| {
                        let mut q = p;
                        q[across] *= end - p[2];
                        q[2] -= end;
                        q
                    });
                    meet(map(&corners, |x| x * size));
                }
            }
        }
    }

    /// Many cells with corners on a small grid: folded, flat, flat at a later step.
    fn of_whole_numbers(&self, meet: &mut dyn FnMut([Place; N])) {
        let mut chance = Chance::new(N as u64);
        for count in 0..9_000 {
            meet(std::array::from_fn(|_| std::array::from_fn(|_| chance.whole(1 + count % 3))));
        }
    }

    /// A random cell.
    pub fn any(&self, chance: &mut Chance) -> [Place; N] {
        let shaped = self.any_shape(chance);
        let placed = match chance.below(8) {
            0 => shaped,
            1 => self.with_origin_at(&shaped, &(self.border)(chance)),
            2 => self.with_origin_at(&shaped, &std::array::from_fn(|_| chance.between(-3.0, 3.0))),
            _ => self.with_origin_at(&shaped, &(self.inside)(chance)),
        };
        let mut corners = match chance.below(12) {
            0 => map(&placed, |x| x * chance_size(chance)),
            1 => {
                let size = chance_size(chance);
                map(&placed, |x| x * size)
            }
            _ => placed,
        };
        if chance.one_in(25) {
            corners[chance.below(N as u64) as usize][chance.below(3) as usize] =
                chance.pick(&SPECIALS);
        }
        corners
    }

    fn any_shape(&self, chance: &mut Chance) -> [Place; N] {
        match chance.below(10) {
            0 => map(&self.unit(), |x| 0.5 * x),
            1..=4 => self.bent(chance, 0.2),
            5 => self.bent(chance, 0.6),
            6 => std::array::from_fn(|_| std::array::from_fn(|_| chance.between(-2.0, 2.0))),
            7 => std::array::from_fn(|_| std::array::from_fn(|_| chance.whole(2))),
            8 => {
                let mood = Mood::any(chance);
                std::array::from_fn(|_| mood.floats(chance))
            }
            _ => self.in_a_plane(chance),
        }
    }

    /// A skewed cell whose corners are moved by up to `size`.
    fn bent(&self, chance: &mut Chance, size: f64) -> [Place; N] {
        let skew: [Place; 3] = std::array::from_fn(|row| {
            std::array::from_fn(|column| {
                chance.between(-0.4, 0.4) + if row == column { 1.0 } else { 0.0 }
            })
        });
        self.unit().map(|p| {
            std::array::from_fn(|axis| {
                let [a, b, c] = skew[axis];
                a * p[0] + b * p[1] + c * p[2] + chance.between(-size, size)
            })
        })
    }

    /// All corners in one plane through the origin, exactly or nearly.
    fn in_a_plane(&self, chance: &mut Chance) -> [Place; N] {
        let (a, b) = (chance.whole(4) / 4.0, chance.whole(4) / 4.0);
        let off = chance.pick(&[0.0, 0.0, 1e-17, 1e-9]);
        std::array::from_fn(|_| {
            let (x, y) = (chance.whole(8), chance.whole(8));
            [x, y, a * x + b * y + chance.between(-1.0, 1.0) * off]
        })
    }

    /// A random cell close to a straight one, and the origin inside it: what a mesh holds.
    pub fn plain_inside(&self, chance: &mut Chance) -> [Place; N] {
        let corners = self.bent(chance, 0.15);
        let at = (self.inside)(chance);
        self.with_origin_at(&corners, &at)
    }

    /// The like, with the origin beyond the cell.
    pub fn plain_outside(&self, chance: &mut Chance) -> [Place; N] {
        let corners = self.bent(chance, 0.15);
        let mut at = (self.inside)(chance);
        at[chance.below(3) as usize] = chance.pick(&[-1.0, 1.0]) * chance.between(1.5, 3.0);
        self.with_origin_at(&corners, &at)
    }

    /// A place in or near the cell.
    pub fn any_place(&self, chance: &mut Chance) -> Place {
        match chance.below(4) {
            0 => (self.border)(chance),
            1 => crate::floats::any(chance),
            _ => (self.inside)(chance),
        }
    }
}

/// A size from the table, or any power of two.
fn chance_size(chance: &mut Chance) -> f64 {
    if chance.one_in(2) { chance.pick(&SIZES) } else { two_to(chance.whole(1022) as i64) }
}

/// All triples of the given values.
pub fn triples<T: Copy>(values: &[T]) -> impl Iterator<Item = [T; 3]> + '_ {
    values.iter().flat_map(move |&x| {
        values.iter().flat_map(move |&y| values.iter().map(move |&z| [x, y, z]))
    })
}
