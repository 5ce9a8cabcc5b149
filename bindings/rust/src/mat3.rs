//! Matrices of three rows and three columns, column by column.

use crate::ffi::*;
use crate::{Point, Refusal, always, answer};

/// Nine floats, column by column.
pub type Mat3 = [f64; 9];

/// The transpose.
///
/// ```
/// let m = [1., 2., 3., 4., 5., 6., 7., 8., 9.];
/// assert_eq!(isnemgul::mat3::transpose(&m), [1., 4., 7., 2., 5., 8., 3., 6., 9.]);
/// ```
#[must_use]
pub fn transpose(m: &Mat3) -> Mat3 {
    always([0.0; 9], |out| isn_mat3_transpose(m, out))
}

/// The product of a matrix and a vector.
///
/// ```
/// let m = [1., 2., 3., 4., 5., 6., 7., 8., 9.];
/// assert_eq!(isnemgul::mat3::mult_vec(&m, &[1., 0., 1.]), [8., 10., 12.]);
/// ```
#[must_use]
pub fn mult_vec(a: &Mat3, b: &Point) -> Point {
    always([0.0; 3], |out| isn_mat3_mult_vec(a, b, out))
}

/// The determinant.
///
/// ```
/// assert_eq!(isnemgul::mat3::determinant(&[2., 0., 0., 0., 3., 0., 0., 0., 4.]), 24.);
/// ```
#[must_use]
pub fn determinant(m: &Mat3) -> f64 {
    always(0.0, |out| isn_mat3_determinant(m, out))
}

/// The inverse.
///
/// ```
/// use isnemgul::{Refusal, mat3};
/// let inverse = mat3::try_inverse(&[2., 0., 0., 0., 4., 0., 0., 0., 1.]);
/// assert_eq!(inverse, Ok([0.5, 0., 0., 0., 0.25, 0., 0., 0., 1.]));
/// assert_eq!(mat3::try_inverse(&[0.; 9]), Err(Refusal::Flat));
/// ```
///
/// # Errors
///
/// [`Flat`](Refusal::Flat) the determinant is plus or minus zero. A NaN or an infinite one is not
/// refused.
pub fn try_inverse(m: &Mat3) -> Result<Mat3, Refusal> {
    answer([0.0; 9], |out| isn_mat3_try_inverse(m, out))
}
