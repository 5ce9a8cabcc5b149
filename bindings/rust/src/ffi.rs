//! The C face, as include/isnemgul.h declares it. An array is a reference, which is never null and
//! never shared while it is written to; so the functions of arrays alone are safe to call. A list is
//! the pointer and the length of one slice, and those calls are the crate's only unsafe ones.

use crate::Point;
use crate::hex::Proposal;
use crate::mat3::Mat3;

type Eight<T> = [T; 8];
type Six<T> = [T; 6];

// SAFETY: these are the header's functions with its types: an array lies in memory as the header's
// flat one, and `Proposal` as isn_proposal. What each reads and writes is proved.
unsafe extern "C" {
    pub safe fn isn_mat3_transpose(m: &Mat3, out: &mut Mat3) -> u32;
    pub safe fn isn_mat3_mult_vec(a: &Mat3, b: &Point, out: &mut Point) -> u32;
    pub safe fn isn_mat3_determinant(m: &Mat3, out: &mut f64) -> u32;
    pub safe fn isn_mat3_try_inverse(m: &Mat3, out: &mut Mat3) -> u32;

    pub safe fn isn_hex_shapefunc(pco: &Point, out: &mut Eight<f64>) -> u32;
    pub safe fn isn_hex_dndr(pco: &Point, out: &mut Eight<Point>) -> u32;
    pub safe fn isn_hex_dxdr(corners: &Eight<Point>, pco: &Point, out: &mut [Point; 3]) -> u32;
    pub safe fn isn_hex_grad_shapefunc_from_dndr(
        corners: &Eight<Point>,
        dndr: &Eight<Point>,
        dndx: &mut Eight<Point>,
        detjac: &mut f64,
    ) -> u32;
    pub safe fn isn_hex_dndx(
        corners: &Eight<Point>,
        pco: &Point,
        shape: &mut Eight<f64>,
        dndx: &mut Eight<Point>,
        detjac: &mut f64,
    ) -> u32;
    pub fn isn_hex_grad_shapefunc(
        corners: &Eight<Point>,
        points: *const f64,
        points_len: usize,
        i1: u32,
        i2: u32,
        i3: u32,
        dndx: &mut Eight<Point>,
        detwei: &mut f64,
    ) -> u32;
    pub fn isn_hex_volume(
        corners: &Eight<Point>,
        points: *const f64,
        points_len: usize,
        out: &mut f64,
    ) -> u32;
    pub safe fn isn_hex_parametric_coord_for_origin(corners: &Eight<Point>, at: &mut Point) -> u32;
    pub safe fn isn_hex_iso_position_on_edge(
        center: &Point,
        half_width: f64,
        i0: u32,
        i1: u32,
        val0: f64,
        val1: f64,
        out: &mut Point,
    ) -> u32;
    pub safe fn isn_hex_iso_edges(
        center: &Point,
        half_width: f64,
        values: &Eight<f64>,
        index: &mut u32,
        positions: &mut [Point; 12],
    ) -> u32;
    pub safe fn isn_hex_iso_mask(index: u32, mask: &mut u32) -> u32;
    pub safe fn isn_hex_subdivide(
        corner: &Eight<u32>,
        edge: &[u32; 12],
        quad: &Six<u32>,
        center: u32,
        out: &mut Eight<Eight<u32>>,
    ) -> u32;
    pub safe fn isn_hex_check(corners: &Eight<Point>, at: &Point, tolerance: f64) -> u32;
    pub safe fn isn_hex_locate_checked(
        corners: &Eight<Point>,
        tolerance: f64,
        at: &mut Point,
    ) -> u32;
    pub fn isn_hex_check_proposals(
        corners: &Eight<Point>,
        list: *const Proposal,
        list_len: usize,
        out: *mut u32,
        out_len: usize,
        accepted: &mut u32,
    ) -> u32;

    pub safe fn isn_prism_shapefunc(pco: &Point, out: &mut Six<f64>) -> u32;
    pub safe fn isn_prism_dndr(pco: &Point, out: &mut Six<Point>) -> u32;
    pub safe fn isn_prism_dxdr(corners: &Six<Point>, pco: &Point, out: &mut [Point; 3]) -> u32;
    pub fn isn_prism_volume(
        corners: &Six<Point>,
        line: *const f64,
        line_len: usize,
        triangle: *const f64,
        triangle_len: usize,
        out: &mut f64,
    ) -> u32;
    pub safe fn isn_prism_parametric_coord_for_origin(corners: &Six<Point>, at: &mut Point) -> u32;
    pub safe fn isn_prism_subdivide(
        corner: &Six<u32>,
        edge: &[u32; 9],
        quad: &[u32; 3],
        out: &mut Eight<Six<u32>>,
    ) -> u32;

    pub fn isn_refine(
        n: u32,
        cells: *const u32,
        cells_len: usize,
        out: *mut u32,
        out_len: usize,
        next: &mut u32,
    ) -> u32;
    pub fn isn_descendant(
        path: *const u32,
        path_len: usize,
        corner: u32,
        out: &mut [i32; 3],
    ) -> u32;
    pub fn isn_hxm_read(
        bytes: *const u8,
        bytes_len: usize,
        nodes: *mut u64,
        nodes_len: usize,
        cells: *mut u32,
        cells_len: usize,
        counts: &mut [u32; 2],
    ) -> u32;
    pub fn isn_hxm_write(
        nodes: *const u64,
        nodes_len: usize,
        cells: *const u32,
        cells_len: usize,
        out: *mut u8,
        out_len: usize,
        length: &mut u32,
    ) -> u32;
    pub fn isn_volume_report(
        bytes: *const u8,
        bytes_len: usize,
        volumes: *mut i64,
        volumes_len: usize,
        total: &mut i64,
        counts: &mut [u32; 2],
    ) -> u32;
}
