//! The prism: six corners, the lower triangle and then the upper one in the same order. A place is
//! r >= 0, s >= 0, r + s <= 1 in the triangle and t from 0 to 1 upward.

use crate::ffi::*;
use crate::{Point, Refusal, always, answer};

/// The six corners in space, in the order of [`PLACES`].
pub type Corners = [Point; 6];

/// Where the corners stand in the cell itself.
pub const PLACES: Corners =
    [[0., 0., 0.], [1., 0., 0.], [0., 1., 0.], [0., 0., 1.], [1., 0., 1.], [0., 1., 1.]];

/// The six shape values at a place.
///
/// ```
/// assert_eq!(isnemgul::prism::shapefunc(&[0., 0., 1.]), [0., 0., 0., 1., 0., 0.]);
/// ```
#[must_use]
pub fn shapefunc(pco: &Point) -> [f64; 6] {
    always([0.0; 6], |out| isn_prism_shapefunc(pco, out))
}

/// The slopes of the shape values, three for each corner.
///
/// ```
/// assert_eq!(isnemgul::prism::dndr(&[0.; 3])[1], [1., 0., 0.]);
/// ```
#[must_use]
pub fn dndr(pco: &Point) -> Corners {
    always([[0.0; 3]; 6], |out| isn_prism_dndr(pco, out))
}

/// The Jacobian of the image, row by row.
///
/// ```
/// use isnemgul::prism;
/// let rib = prism::PLACES.map(|[x, y, z]| [2. * x, 3. * y, 5. * z]);
/// assert_eq!(prism::dxdr(&rib, &[0.; 3]), [[2., 0., 0.], [0., 3., 0.], [0., 0., 5.]]);
/// ```
#[must_use]
pub fn dxdr(corners: &Corners, pco: &Point) -> [Point; 3] {
    always([[0.0; 3]; 3], |out| isn_prism_dxdr(corners, pco, out))
}

/// The volume, by points of a line (place, weight) and of a triangle (r, s, weight), both flat.
///
/// ```
/// use isnemgul::{Refusal, prism};
/// let triangle = [1. / 3., 1. / 3., 1.];
/// assert_eq!(prism::volume(&prism::PLACES, &[0., 2.], &triangle), Ok(0.5));
/// assert_eq!(prism::volume(&prism::PLACES, &[], &triangle), Err(Refusal::Limit));
/// ```
///
/// # Errors
///
/// [`Length`](Refusal::Length) the line list, then the triangle list, is not whole;
/// [`Limit`](Refusal::Limit) the line list, then the triangle list, has not 1 to 16 points.
pub fn volume(corners: &Corners, line: &[f64], triangle: &[f64]) -> Result<f64, Refusal> {
    let (points, length) = (triangle.as_ptr(), triangle.len());
    // SAFETY: each list is one slice, lent for the call.
    answer(0.0, |out| unsafe {
        isn_prism_volume(corners, line.as_ptr(), line.len(), points, length, out)
    })
}

/// The place whose image is the origin, by twenty Newton steps.
///
/// ```
/// use isnemgul::{Refusal, prism};
/// let around = |x: f64| prism::PLACES.map(|[r, s, t]| [r - x, s - 0.25, t - 0.5]);
/// assert_eq!(prism::parametric_coord_for_origin(&around(0.25)), Ok([0.25, 0.25, 0.5]));
/// assert_eq!(prism::parametric_coord_for_origin(&around(2.)), Err(Refusal::Outside));
/// ```
///
/// # Errors
///
/// [`Flat`](Refusal::Flat) a step's determinant is zero, [`Outside`](Refusal::Outside) the twenty
/// steps do not end inside the cell.
pub fn parametric_coord_for_origin(corners: &Corners) -> Result<Point, Refusal> {
    answer([0.0; 3], |at| isn_prism_parametric_coord_for_origin(corners, at))
}

/// The node numbers of the eight children, from those of the corners, edge middles and the middles
/// of the faces (0,3,4,1), (1,4,5,2), (2,5,3,0).
///
/// ```
/// use isnemgul::prism;
/// let (corner, edge) = ([0, 1, 2, 3, 4, 5], [6, 7, 8, 9, 10, 11, 12, 13, 14]);
/// let children = prism::subdivide(&corner, &edge, &[15, 16, 17]);
/// assert_eq!(children[0], [0, 6, 8, 12, 15, 17]);
/// ```
#[must_use]
pub fn subdivide(corner: &[u32; 6], edge: &[u32; 9], quad: &[u32; 3]) -> [[u32; 6]; 8] {
    always([[0; 6]; 8], |out| isn_prism_subdivide(corner, edge, quad, out))
}
