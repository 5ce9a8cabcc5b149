//! The functions that are timed, through the C face. A list is the pointer and the length of one
//! slice; the functions of arrays alone are safe to call.

use cases::original::{Hex, Place, Prism};

use crate::plain::Proposal;

unsafe extern "C" {
    pub safe fn isn_hex_shapefunc(pco: &Place, out: &mut [f64; 8]) -> u32;
    pub safe fn isn_hex_dxdr(corners: &Hex, pco: &Place, out: &mut [Place; 3]) -> u32;
    fn isn_hex_grad_shapefunc(
        corners: &Hex,
        points: *const f64,
        length: usize,
        i1: u32,
        i2: u32,
        i3: u32,
        dndx: &mut [Place; 8],
        detwei: &mut f64,
    ) -> u32;
    pub safe fn isn_hex_iso_position_on_edge(
        center: &Place,
        half_width: f64,
        i0: u32,
        i1: u32,
        val0: f64,
        val1: f64,
        out: &mut Place,
    ) -> u32;
    pub safe fn isn_hex_iso_edges(
        center: &Place,
        half_width: f64,
        values: &[f64; 8],
        index: &mut u32,
        positions: &mut [Place; 12],
    ) -> u32;
    pub safe fn isn_hex_iso_mask(index: u32, mask: &mut u32) -> u32;
    pub safe fn isn_hex_subdivide(
        corner: &[u32; 8],
        edge: &[u32; 12],
        quad: &[u32; 6],
        center: u32,
        out: &mut [[u32; 8]; 8],
    ) -> u32;
    pub safe fn isn_prism_subdivide(
        corner: &[u32; 6],
        edge: &[u32; 9],
        quad: &[u32; 3],
        out: &mut [[u32; 6]; 8],
    ) -> u32;
    fn isn_hex_volume(corners: &Hex, points: *const f64, length: usize, out: &mut f64) -> u32;
    pub safe fn isn_hex_parametric_coord_for_origin(corners: &Hex, at: &mut Place) -> u32;
    pub safe fn isn_hex_check(corners: &Hex, at: &Place, tolerance: f64) -> u32;
    pub safe fn isn_hex_locate_checked(corners: &Hex, tolerance: f64, at: &mut Place) -> u32;
    fn isn_hex_check_proposals(
        corners: &Hex,
        list: *const Proposal,
        length: usize,
        out: *mut u32,
        room: usize,
        accepted: &mut u32,
    ) -> u32;
    pub safe fn isn_prism_shapefunc(pco: &Place, out: &mut [f64; 6]) -> u32;
    pub safe fn isn_prism_dxdr(corners: &Prism, pco: &Place, out: &mut [Place; 3]) -> u32;
    fn isn_prism_volume(
        corners: &Prism,
        line: *const f64,
        line_length: usize,
        triangle: *const f64,
        triangle_length: usize,
        out: &mut f64,
    ) -> u32;
    pub safe fn isn_prism_parametric_coord_for_origin(corners: &Prism, at: &mut Place) -> u32;
    fn isn_refine(
        n: u32,
        cells: *const u32,
        length: usize,
        out: *mut u32,
        room: usize,
        next: &mut u32,
    ) -> u32;
    fn isn_hxm_read(
        bytes: *const u8,
        length: usize,
        nodes: *mut u64,
        nodes_room: usize,
        cells: *mut u32,
        cells_room: usize,
        counts: &mut [u32; 2],
    ) -> u32;
    fn isn_hxm_write(
        nodes: *const u64,
        nodes_length: usize,
        cells: *const u32,
        cells_length: usize,
        out: *mut u8,
        room: usize,
        length: &mut u32,
    ) -> u32;
    fn isn_volume_report(
        bytes: *const u8,
        length: usize,
        volumes: *mut i64,
        room: usize,
        total: &mut i64,
        counts: &mut [u32; 2],
    ) -> u32;
    fn plain_refine(
        n: u32,
        cells: *const u32,
        length: usize,
        out: *mut u32,
        room: usize,
        next: &mut u32,
    ) -> u32;
}

// Not ours any more: entries of an earlier archive.
#[cfg(before)]
unsafe extern "C" {
    pub safe fn before_isn_hex_iso_edges(
        center: &Place,
        half_width: f64,
        values: &[f64; 8],
        index: &mut u32,
        positions: &mut [Place; 12],
    ) -> u32;
    pub safe fn before_isn_hex_iso_mask(index: u32, mask: &mut u32) -> u32;
}

pub type Gradient = ([Place; 8], f64);

pub fn hex_gradient(
    corners: &Hex,
    points: &[[f64; 2]],
    [i1, i2, i3]: [u32; 3],
    (dndx, detwei): &mut Gradient,
) -> u32 {
    let (points, length) = (points.as_ptr().cast(), 2 * points.len());
    unsafe { isn_hex_grad_shapefunc(corners, points, length, i1, i2, i3, dndx, detwei) }
}

pub fn hex_volume(corners: &Hex, points: &[[f64; 2]], out: &mut f64) -> u32 {
    unsafe { isn_hex_volume(corners, points.as_ptr().cast(), 2 * points.len(), out) }
}

pub fn prism_volume(
    corners: &Prism,
    line: &[[f64; 2]],
    triangle: &[[f64; 3]],
    out: &mut f64,
) -> u32 {
    let (points, length) = (triangle.as_ptr().cast(), 3 * triangle.len());
    unsafe { isn_prism_volume(corners, line.as_ptr().cast(), 2 * line.len(), points, length, out) }
}

pub fn check_proposals(
    corners: &Hex,
    list: &[Proposal],
    out: &mut [u32],
    accepted: &mut u32,
) -> u32 {
    let (numbers, room) = (out.as_mut_ptr(), out.len());
    unsafe { isn_hex_check_proposals(corners, list.as_ptr(), list.len(), numbers, room, accepted) }
}

pub fn refine(n: u32, cells: &[u32], out: &mut [u32], next: &mut u32) -> u32 {
    unsafe { isn_refine(n, cells.as_ptr(), cells.len(), out.as_mut_ptr(), out.len(), next) }
}

/// Not ours: the same search in plain C.
pub fn refine_in_c(n: u32, cells: &[u32], out: &mut [u32], next: &mut u32) -> u32 {
    unsafe { plain_refine(n, cells.as_ptr(), cells.len(), out.as_mut_ptr(), out.len(), next) }
}

pub fn read(bytes: &[u8], nodes: &mut [u64], cells: &mut [u32], counts: &mut [u32; 2]) -> u32 {
    let (words, words_room) = (nodes.as_mut_ptr(), nodes.len());
    let (numbers, room) = (cells.as_mut_ptr(), cells.len());
    unsafe { isn_hxm_read(bytes.as_ptr(), bytes.len(), words, words_room, numbers, room, counts) }
}

pub fn write(nodes: &[u64], cells: &[u32], out: &mut [u8], length: &mut u32) -> u32 {
    let (words, numbers) = ((nodes.as_ptr(), nodes.len()), (cells.as_ptr(), cells.len()));
    let (bytes, room) = (out.as_mut_ptr(), out.len());
    unsafe { isn_hxm_write(words.0, words.1, numbers.0, numbers.1, bytes, room, length) }
}

/// The total and both counts.
pub type Report = (i64, [u32; 2]);

pub fn volume_report(bytes: &[u8], volumes: &mut [i64], (total, counts): &mut Report) -> u32 {
    let (numbers, room) = (volumes.as_mut_ptr(), volumes.len());
    unsafe { isn_volume_report(bytes.as_ptr(), bytes.len(), numbers, room, total, counts) }
}
