//! The hexahedron: eight corners, and places in [-1,1] on each axis.

use crate::ffi::*;
use crate::{Point, Refusal, always, answer};

/// The eight corners in space, in the order of [`SIGNS`].
pub type Corners = [Point; 8];

/// Where the corners stand in the cell itself.
pub const SIGNS: Corners = [
    [-1., -1., -1.],
    [1., -1., -1.],
    [1., 1., -1.],
    [-1., 1., -1.],
    [-1., -1., 1.],
    [1., -1., 1.],
    [1., 1., 1.],
    [-1., 1., 1.],
];

/// A proposed place, and how far its image may be from the probe on each axis.
#[derive(Clone, Copy, Debug, PartialEq)]
#[repr(C)]
pub struct Proposal {
    /// The place.
    pub at: Point,
    /// The largest distance on any one axis, in the corners' unit.
    pub tolerance: f64,
}

/// The slopes of the shape functions in space, corner by corner, and a determinant.
#[derive(Clone, Copy, Debug, PartialEq)]
pub struct Gradient {
    /// Three slopes for each corner.
    pub dndx: Corners,
    /// The determinant of the Jacobian; times three weights in [`grad_shapefunc`].
    pub det: f64,
}

const NO_GRADIENT: Gradient = Gradient { dndx: [[0.0; 3]; 8], det: 0.0 };

/// The eight shape values at a place.
///
/// ```
/// assert_eq!(isnemgul::hex::shapefunc(&[1., 1., 1.]), [0., 0., 0., 0., 0., 0., 1., 0.]);
/// ```
#[must_use]
pub fn shapefunc(pco: &Point) -> [f64; 8] {
    always([0.0; 8], |out| isn_hex_shapefunc(pco, out))
}

/// The slopes of the shape values, three for each corner.
///
/// ```
/// assert_eq!(isnemgul::hex::dndr(&[0.; 3])[6], [0.125, 0.125, 0.125]);
/// ```
#[must_use]
pub fn dndr(pco: &Point) -> Corners {
    always([[0.0; 3]; 8], |out| isn_hex_dndr(pco, out))
}

/// The Jacobian of the image, row by row: row i is axis i, column j the coordinate.
///
/// ```
/// use isnemgul::hex;
/// let block = hex::SIGNS.map(|[x, y, z]| [2. * x, 3. * y, z]);
/// assert_eq!(hex::dxdr(&block, &[0.; 3]), [[2., 0., 0.], [0., 3., 0.], [0., 0., 1.]]);
/// ```
#[must_use]
pub fn dxdr(corners: &Corners, pco: &Point) -> [Point; 3] {
    always([[0.0; 3]; 3], |out| isn_hex_dxdr(corners, pco, out))
}

/// The slopes in space from the slopes in the cell. A flat cell is not refused: it gives what
/// division by zero gives.
///
/// ```
/// use isnemgul::hex;
/// let block = hex::SIGNS.map(|[x, y, z]| [2. * x, y, z]);
/// let gradient = hex::grad_shapefunc_from_dndr(&block, &hex::dndr(&[0.; 3]));
/// assert_eq!((gradient.dndx[6], gradient.det), ([0.0625, 0.125, 0.125], 2.));
/// ```
#[must_use]
pub fn grad_shapefunc_from_dndr(corners: &Corners, dndr: &Corners) -> Gradient {
    always(NO_GRADIENT, |out| {
        isn_hex_grad_shapefunc_from_dndr(corners, dndr, &mut out.dndx, &mut out.det)
    })
}

/// The shape values at a place, and their slopes in space.
///
/// ```
/// use isnemgul::hex;
/// let (shape, gradient) = hex::dndx(&hex::SIGNS, &[0.; 3]);
/// assert_eq!((shape, gradient.det), ([0.125; 8], 1.));
/// ```
#[must_use]
pub fn dndx(corners: &Corners, pco: &Point) -> ([f64; 8], Gradient) {
    always(([0.0; 8], NO_GRADIENT), |(shape, out)| {
        isn_hex_dndx(corners, pco, shape, &mut out.dndx, &mut out.det)
    })
}

/// The slopes in space at the place of three quadrature points, `det` being the determinant times
/// their weights. `points` is flat: place, weight.
///
/// ```
/// use isnemgul::{Refusal, hex};
/// let points = [-0.5, 1., 0.5, 2.];
/// let gradient = hex::grad_shapefunc(&hex::SIGNS, &points, [0, 1, 1])?;
/// assert_eq!(gradient.det, 4.);
/// assert_eq!(hex::grad_shapefunc(&hex::SIGNS, &points, [0, 1, 2]), Err(Refusal::Range));
/// # Ok::<(), Refusal>(())
/// ```
///
/// # Errors
///
/// [`Length`](Refusal::Length) the list is not whole, [`Limit`](Refusal::Limit) it has not 1 to 16
/// points, [`Range`](Refusal::Range) a point number is out of range.
pub fn grad_shapefunc(
    corners: &Corners,
    points: &[f64],
    [i1, i2, i3]: [u32; 3],
) -> Result<Gradient, Refusal> {
    answer(NO_GRADIENT, |out| {
        let (dndx, det) = (&mut out.dndx, &mut out.det);
        // SAFETY: the list is one slice, lent for the call.
        unsafe {
            isn_hex_grad_shapefunc(corners, points.as_ptr(), points.len(), i1, i2, i3, dndx, det)
        }
    })
}

/// The volume, by quadrature points of a line: place, weight, flat. It is rounded:
/// [`mesh::volume_report`](crate::mesh::volume_report) has exact ones.
///
/// ```
/// use isnemgul::{Refusal, hex};
/// assert_eq!(hex::volume(&hex::SIGNS, &[0., 2.]), Ok(8.));
/// assert_eq!(hex::volume(&hex::SIGNS, &[0., 2., 0.5]), Err(Refusal::Length));
/// ```
///
/// # Errors
///
/// [`Length`](Refusal::Length) the list is not whole, [`Limit`](Refusal::Limit) it has not 1 to 16
/// points.
pub fn volume(corners: &Corners, points: &[f64]) -> Result<f64, Refusal> {
    // SAFETY: the list is one slice, lent for the call.
    answer(0.0, |out| unsafe { isn_hex_volume(corners, points.as_ptr(), points.len(), out) })
}

/// The place whose image is the origin, by twenty Newton steps. It may still be far from the probe:
/// see [`locate_checked`].
///
/// ```
/// use isnemgul::{Refusal, hex};
/// assert_eq!(hex::parametric_coord_for_origin(&hex::SIGNS), Ok([0.; 3]));
/// assert_eq!(hex::parametric_coord_for_origin(&[[1.; 3]; 8]), Err(Refusal::Flat));
/// ```
///
/// # Errors
///
/// [`Flat`](Refusal::Flat) a step's determinant is zero, [`Outside`](Refusal::Outside) the twenty
/// steps do not end inside the cell.
pub fn parametric_coord_for_origin(corners: &Corners) -> Result<Point, Refusal> {
    answer([0.0; 3], |at| isn_hex_parametric_coord_for_origin(corners, at))
}

/// Where the surface of value zero cuts the line between two nodes of a cube.
///
/// ```
/// use isnemgul::hex;
/// let cut = hex::iso_position_on_edge(&[0.; 3], 1., [0, 1], [-1., 3.]);
/// assert_eq!(cut, Ok([-0.5, -1., -1.]));
/// ```
///
/// # Errors
///
/// [`Range`](Refusal::Range) a node number is above 7.
pub fn iso_position_on_edge(
    center: &Point,
    half_width: f64,
    [i0, i1]: [u32; 2],
    [val0, val1]: [f64; 2],
) -> Result<Point, Refusal> {
    answer([0.0; 3], |out| {
        isn_hex_iso_position_on_edge(center, half_width, i0, i1, val0, val1, out)
    })
}

/// The sign index of eight values (bit k: value k is below zero), and where each of the twelve edges
/// is cut: plus infinities where it is not.
///
/// ```
/// use isnemgul::hex;
/// let (index, cuts) = hex::iso_edges(&[0.; 3], 1., &[-1., 3., 1., 1., 1., 1., 1., 1.]);
/// assert_eq!((index, cuts[0]), (1, [-0.5, -1., -1.]));
/// assert_eq!(cuts[1], [f64::INFINITY; 3]);
/// ```
#[must_use]
pub fn iso_edges(center: &Point, half_width: f64, values: &[f64; 8]) -> (u32, [Point; 12]) {
    always((0, [[0.0; 3]; 12]), |(index, positions)| {
        isn_hex_iso_edges(center, half_width, values, index, positions)
    })
}

/// The cut edges of a sign index (bit k: edge k is cut).
///
/// ```
/// use isnemgul::{Refusal, hex};
/// assert_eq!(hex::iso_mask(1), Ok(0x109));
/// assert_eq!(hex::iso_mask(256), Err(Refusal::Range));
/// ```
///
/// # Errors
///
/// [`Range`](Refusal::Range) the index is above 255.
pub fn iso_mask(index: u32) -> Result<u32, Refusal> {
    answer(0, |mask| isn_hex_iso_mask(index, mask))
}

/// The node numbers of the eight children, from those of the corners, edge middles, face middles
/// and the centre.
///
/// ```
/// use isnemgul::hex;
/// let numbers = |from: u32| move |i: usize| from + i as u32;
/// let (corner, edge) = (std::array::from_fn(numbers(0)), std::array::from_fn(numbers(8)));
/// let children = hex::subdivide(&corner, &edge, &std::array::from_fn(numbers(20)), 26);
/// assert_eq!(children[0], [0, 8, 20, 11, 16, 21, 26, 24]);
/// ```
#[must_use]
pub fn subdivide(
    corner: &[u32; 8],
    edge: &[u32; 12],
    quad: &[u32; 6],
    center: u32,
) -> [[u32; 8]; 8] {
    always([[0; 8]; 8], |out| isn_hex_subdivide(corner, edge, quad, center, out))
}

/// Whether the image of a place is within the tolerance of the probe on every axis.
///
/// With M the largest corner size on an axis and e = 14 M / 2^53: accepted, the exact image is at
/// most tolerance + e from the probe; an exact image at most tolerance - e is accepted.
///
/// ```
/// use isnemgul::{Refusal, hex};
/// let cube = hex::SIGNS.map(|corner| corner.map(|x| 2. * x));
/// assert_eq!(hex::check(&cube, &[0.5, 0., 0.], 1.), Ok(()));
/// assert_eq!(hex::check(&cube, &[0.5, 0., 0.], 0.5), Err(Refusal::TooFar));
/// ```
///
/// # Errors
///
/// [`Corner`](Refusal::Corner), [`Tolerance`](Refusal::Tolerance),
/// [`Coordinate`](Refusal::Coordinate), [`TooFar`](Refusal::TooFar).
pub fn check(corners: &Corners, at: &Point, tolerance: f64) -> Result<(), Refusal> {
    answer((), |()| isn_hex_check(corners, at, tolerance))
}

/// The place that the locator finds, if its image is within the tolerance of the probe.
///
/// ```
/// use isnemgul::{Refusal, hex};
/// assert_eq!(hex::locate_checked(&hex::SIGNS, 0.), Ok([0.; 3]));
/// assert_eq!(hex::locate_checked(&hex::SIGNS, f64::NAN), Err(Refusal::Tolerance));
/// ```
///
/// # Errors
///
/// [`Corner`](Refusal::Corner), [`Tolerance`](Refusal::Tolerance), then [`Flat`](Refusal::Flat) or
/// [`Outside`](Refusal::Outside) as [`parametric_coord_for_origin`] has them, then
/// [`TooFar`](Refusal::TooFar).
pub fn locate_checked(corners: &Corners, tolerance: f64) -> Result<Point, Refusal> {
    answer([0.0; 3], |at| isn_hex_locate_checked(corners, tolerance, at))
}

/// Checks a list of proposals: writes 0 or the refusal's number for each, and answers how many were
/// accepted. What `out` holds behind them stays.
///
/// ```
/// use isnemgul::hex::{self, Proposal};
/// let cube = hex::SIGNS.map(|corner| corner.map(|x| 2. * x));
/// let list = [1.0, 0.5].map(|tolerance| Proposal { at: [0.5, 0., 0.], tolerance });
/// let mut out = [77; 3];
/// assert_eq!(hex::check_proposals(&cube, &list, &mut out), Ok(1));
/// assert_eq!(out, [0, 6, 77]);
/// ```
///
/// # Errors
///
/// [`Limit`](Refusal::Limit) over 256 proposals, [`Length`](Refusal::Length) the output is shorter
/// than the list.
pub fn check_proposals(
    corners: &Corners,
    list: &[Proposal],
    out: &mut [u32],
) -> Result<u32, Refusal> {
    let (records, numbers) = ((list.as_ptr(), list.len()), (out.as_mut_ptr(), out.len()));
    // SAFETY: each list is one slice, lent for the call, and `out` to it alone.
    answer(0, |accepted| unsafe {
        isn_hex_check_proposals(corners, records.0, records.1, numbers.0, numbers.1, accepted)
    })
}
