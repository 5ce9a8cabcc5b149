//! The original's functions of a cell, with the corners as one array.

use reference::{hex, mat3_col_major, prism};

/// Three coordinates: a place in the cell, a corner, an image.
pub type Place = [f64; 3];
pub type Hex = [Place; 8];
pub type Prism = [Place; 6];

/// The places of the prism's corners.
pub const PRISM_PLACES: Prism = [
    [0.0, 0.0, 0.0],
    [1.0, 0.0, 0.0],
    [0.0, 1.0, 0.0],
    [0.0, 0.0, 1.0],
    [1.0, 0.0, 1.0],
    [0.0, 1.0, 1.0],
];

pub fn hex_dxdr(p: &Hex, at: &Place) -> [Place; 3] {
    hex::dxdr(&p[0], &p[1], &p[2], &p[3], &p[4], &p[5], &p[6], &p[7], at)
}

pub fn hex_volume(p: &Hex, degree: usize) -> f64 {
    hex::volume(&p[0], &p[1], &p[2], &p[3], &p[4], &p[5], &p[6], &p[7], degree)
}

pub fn hex_locate(p: &Hex) -> Option<Place> {
    hex::parametric_coord_for_origin(&p[0], &p[1], &p[2], &p[3], &p[4], &p[5], &p[6], &p[7])
}

pub fn prism_dxdr(p: &Prism, at: &Place) -> [Place; 3] {
    prism::dxdr(&p[0], &p[1], &p[2], &p[3], &p[4], &p[5], at)
}

pub fn prism_volume(p: &Prism, degree: usize) -> f64 {
    prism::volume(&p[0], &p[1], &p[2], &p[3], &p[4], &p[5], degree)
}

pub fn prism_locate(p: &Prism) -> Option<Place> {
    prism::parametric_coord_for_origin(&p[0], &p[1], &p[2], &p[3], &p[4], &p[5])
}

/// The two cells, for what is said of both.
pub struct Cell<const N: usize> {
    /// Where the corners stand.
    pub places: [Place; N],
    /// Where Newton starts.
    pub start: Place,
    pub shape: fn(&Place) -> [f64; N],
    pub dxdr: fn(&[Place; N], &Place) -> [Place; 3],
    pub locate: fn(&[Place; N]) -> Option<Place>,
}

pub const HEX: Cell<8> = Cell {
    places: hex::HEX_SIGN,
    start: [0.0; 3],
    shape: hex::shapefunc::<f64>,
    dxdr: hex_dxdr,
    locate: hex_locate,
};

pub const PRISM: Cell<6> = Cell {
    places: PRISM_PLACES,
    start: [1.0 / 3.0, 1.0 / 3.0, 0.5],
    shape: prism::shapefunc::<f64>,
    dxdr: prism_dxdr,
    locate: prism_locate,
};

impl<const N: usize> Cell<N> {
    /// The products shape value times corner, added in node order.
    pub fn image(&self, corners: &[Place; N], at: &Place) -> Place {
        let shape = (self.shape)(at);
        std::array::from_fn(|axis| {
            let first = shape[0] * corners[0][axis];
            (1..N).fold(first, |sum, k| sum + shape[k] * corners[k][axis])
        })
    }

    /// The determinant as a volume takes it: the rows are not turned into columns.
    pub fn volume_determinant(&self, corners: &[Place; N], at: &Place) -> f64 {
        mat3_col_major::determinant(&flat(&(self.dxdr)(corners, at)))
    }

    /// The places that Newton goes through, from its start on: twenty more, or fewer where a
    /// determinant is zero.
    pub fn newton(&self, corners: &[Place; N]) -> Vec<Place> {
        let mut at = self.start;
        let mut places = vec![at];
        for _ in 0..20 {
            let image = self.image(corners, &at);
            let columns = mat3_col_major::transpose(&flat(&(self.dxdr)(corners, &at)));
            let Some(inverse) = mat3_col_major::try_inverse(&columns) else {
                break;
            };
            let step = mat3_col_major::mult_vec(&inverse, &image);
            at = std::array::from_fn(|axis| at[axis] - step[axis]);
            places.push(at);
        }
        places
    }
}

/// Rows one after the other.
pub fn flat(rows: &[Place; 3]) -> [f64; 9] {
    std::array::from_fn(|i| rows[i / 3][i % 3])
}
