//! Meshes of hexahedra: nodes are numbered from 0 up, a cell is eight node numbers.

use crate::ffi::*;
use crate::{Refusal, answer};

/// How many nodes and cells a mesh file holds.
#[derive(Clone, Copy, Debug, PartialEq, Eq)]
pub struct Counts {
    /// Nodes, of three words each.
    pub nodes: u32,
    /// Cells, of eight numbers each.
    pub cells: u32,
}

/// What [`volume_report`] answers beside the volume of each cell.
#[derive(Clone, Copy, Debug, PartialEq, Eq)]
pub struct VolumeReport {
    /// 216 times the volume of the mesh, the sum over its cells.
    pub total: i64,
    /// How many cells there are.
    pub cells: u32,
    /// The first cell, from 0, whose volume is not above zero.
    pub first: Option<u32>,
}

/// Cuts every cell of a mesh of `n` nodes in eight: writes 64 node numbers a cell, eight for each
/// child, and answers the next free number. Cells that share an edge or a face share the number of
/// its middle. Two faces are one where their rings, the four nodes as they run round the face, agree
/// up to where they start and which way they turn. What `out` holds behind the numbers stays.
///
/// ```
/// use isnemgul::{Refusal, mesh};
/// let cells = [0, 1, 2, 3, 4, 5, 6, 7, 1, 8, 9, 2, 5, 11, 10, 6];
/// let mut out = [0; 128];
/// assert_eq!(mesh::refine(12, &cells, &mut out), Ok(45));
/// assert_eq!((out[8 + 6], out[64 + 7]), (26, 26)); // the middle of the face that they share
/// assert_eq!(mesh::refine(12, &cells, &mut out[1..]), Err(Refusal::Length));
///
/// // The first cell's face is 1, 2, 6, 5, the second's 5, 1, 6, 2: the same nodes, another ring.
/// let twisted = [0, 1, 2, 3, 4, 5, 6, 7, 1, 8, 9, 5, 6, 11, 10, 2];
/// assert_eq!(mesh::refine(12, &twisted, &mut out), Err(Refusal::Twisted));
/// ```
///
/// # Errors
///
/// [`Limit`](Refusal::Limit) over 1,024 nodes or 128 cells, [`Length`](Refusal::Length) the list is
/// not whole or the output too short, then cell by cell [`Range`](Refusal::Range) a node is not
/// below `n`, [`Twice`](Refusal::Twice) a node stands twice, last [`Twisted`](Refusal::Twisted) two
/// faces of the mesh have the same four nodes in different rings.
pub fn refine(n: u32, cells: &[u32], out: &mut [u32]) -> Result<u32, Refusal> {
    let (numbers, length) = (out.as_mut_ptr(), out.len());
    // SAFETY: each list is one slice, lent for the call, and `out` to it alone.
    answer(0, |next| unsafe { isn_refine(n, cells.as_ptr(), cells.len(), numbers, length, next) })
}

/// Where a corner stands in the descendant that a path of octants leads to, in units of 2^-d, where
/// the path has d octants.
///
/// ```
/// use isnemgul::{Refusal, mesh};
/// assert_eq!(mesh::descendant(&[6], 0), Ok([0, 0, 0]));
/// assert_eq!(mesh::descendant(&[], 1), Ok([1, -1, -1]));
/// assert_eq!(mesh::descendant(&[8], 0), Err(Refusal::Range));
/// ```
///
/// # Errors
///
/// [`Limit`](Refusal::Limit) over 20 octants, [`Range`](Refusal::Range) an octant or the corner is
/// above 7.
pub fn descendant(path: &[u32], corner: u32) -> Result<[i32; 3], Refusal> {
    // SAFETY: the list is one slice, lent for the call.
    answer([0; 3], |out| unsafe { isn_descendant(path.as_ptr(), path.len(), corner, out) })
}

/// Reads a mesh file: three float64 bit patterns a node, eight node numbers a cell. What the lists
/// hold behind them stays.
///
/// ```
/// use isnemgul::{Refusal, mesh};
/// let mut file = b"HXM\x01\0\x01\0\0\0\0\0\0\0".to_vec();
/// file.extend([0.5, -1.0, 2.0f64].iter().flat_map(|x| x.to_le_bytes()));
/// let mut nodes = [0; 3];
/// let counts = mesh::read(&file, &mut nodes, &mut [])?;
/// assert_eq!((counts.nodes, counts.cells), (1, 0));
/// assert_eq!(nodes.map(f64::from_bits), [0.5, -1.0, 2.0]);
/// assert_eq!(mesh::read(&file[1..], &mut nodes, &mut []), Err(Refusal::Mark));
/// # Ok::<(), Refusal>(())
/// ```
///
/// # Errors
///
/// [`FileLength`](Refusal::FileLength) under 13 bytes, [`Mark`](Refusal::Mark),
/// [`Version`](Refusal::Version), [`Limit`](Refusal::Limit), `FileLength` not what the counts say,
/// then cell by cell [`Range`](Refusal::Range) and [`Twice`](Refusal::Twice), last
/// [`Length`](Refusal::Length) a lent list is too short.
pub fn read(bytes: &[u8], nodes: &mut [u64], cells: &mut [u32]) -> Result<Counts, Refusal> {
    let (words, numbers) = ((nodes.as_mut_ptr(), nodes.len()), (cells.as_mut_ptr(), cells.len()));
    let (file, length) = (bytes.as_ptr(), bytes.len());
    // SAFETY: each list is one slice, lent for the call, and `nodes` and `cells` to it alone.
    let counts = answer([0; 2], |counts| unsafe {
        isn_hxm_read(file, length, words.0, words.1, numbers.0, numbers.1, counts)
    });
    counts.map(|[nodes, cells]| Counts { nodes, cells })
}

/// Writes the mesh file of nodes, three float64 bit patterns each, and cells, eight node numbers
/// each, and answers its length: 13 bytes, 24 a node and 32 a cell. The lists own the counts, and
/// nobody states one. What `out` holds behind the file stays. [`read`] gives both lists back.
///
/// ```
/// use isnemgul::{Refusal, hex, mesh};
/// let nodes: Vec<u64> = hex::SIGNS.as_flattened().iter().map(|x| x.to_bits()).collect();
/// let cells = [0, 1, 2, 3, 4, 5, 6, 7];
/// let mut file = [0; 300];
/// let length = mesh::write(&nodes, &cells, &mut file)? as usize;
/// assert_eq!(length, 13 + 24 * 8 + 32);
///
/// let (mut same_nodes, mut same_cells) = ([0; 24], [0; 8]);
/// let counts = mesh::read(&file[..length], &mut same_nodes, &mut same_cells)?;
/// assert_eq!((counts.nodes, counts.cells), (8, 1));
/// assert_eq!((&same_nodes[..], same_cells), (&nodes[..], cells));
///
/// assert_eq!(mesh::write(&nodes[1..], &cells, &mut file), Err(Refusal::Length));
/// # Ok::<(), Refusal>(())
/// ```
///
/// # Errors
///
/// [`Limit`](Refusal::Limit) over 3,072 words of nodes or 1,024 numbers of cells,
/// [`Length`](Refusal::Length) the node list, then the cell list, is not whole, then cell by cell
/// [`Range`](Refusal::Range) a node is not below the number of nodes, [`Twice`](Refusal::Twice) a
/// node stands twice, last `Length` the output is shorter than the file.
pub fn write(nodes: &[u64], cells: &[u32], out: &mut [u8]) -> Result<u32, Refusal> {
    let (words, numbers) = ((nodes.as_ptr(), nodes.len()), (cells.as_ptr(), cells.len()));
    let (file, room) = (out.as_mut_ptr(), out.len());
    // SAFETY: each list is one slice, lent for the call, and `out` to it alone.
    answer(0, |length| unsafe {
        isn_hxm_write(words.0, words.1, numbers.0, numbers.1, file, room, length)
    })
}

/// Writes 216 times the exact signed volume of each cell of a mesh file whose nodes are all on the
/// grid, and answers their total and the first cell that is not above zero. The volume is the
/// integral over the unit cube of the Jacobian's determinant of the trilinear map through the
/// corners; 216 times it is a whole number, so that no sum depends on the order of the cells.
/// What `volumes` holds behind the cells stays. [`hex::volume`](crate::hex::volume) is rounded.
///
/// ```
/// use isnemgul::{Refusal, hex, mesh};
/// // A cube of side 2, and one of side 1, about the origin.
/// let [two, one] = [1., 0.5].map(|half| hex::SIGNS.map(|p| p.map(|x| (half * x).to_bits())));
/// let (mut file, mut volumes) = ([0; 237], [0]);
/// mesh::write(two.as_flattened(), &[0, 1, 2, 3, 4, 5, 6, 7], &mut file)?;
/// let report = mesh::volume_report(&file, &mut volumes)?;
/// assert_eq!((volumes, report.total, report.first), ([216 * 8], 216 * 8, None));
///
/// mesh::write(one.as_flattened(), &[0, 1, 2, 3, 4, 5, 6, 7], &mut file)?;
/// assert_eq!(mesh::volume_report(&file, &mut volumes), Err(Refusal::OffGrid));
/// # Ok::<(), Refusal>(())
/// ```
///
/// # Errors
///
/// Those of [`read`] but its last, in its order; then [`OffGrid`](Refusal::OffGrid) a coordinate of
/// some node, used or not, is not a whole number of size at most 1,024, last
/// [`Length`](Refusal::Length) `volumes` has fewer numbers than there are cells.
pub fn volume_report(bytes: &[u8], volumes: &mut [i64]) -> Result<VolumeReport, Refusal> {
    let (file, length) = (bytes.as_ptr(), bytes.len());
    let (numbers, room) = (volumes.as_mut_ptr(), volumes.len());
    // SAFETY: each list is one slice, lent for the call, and `volumes` to it alone.
    let report = answer((0, [0; 2]), |(total, counts)| unsafe {
        isn_volume_report(file, length, numbers, room, total, counts)
    });
    report.map(|(total, [cells, first])| {
        let first = (first < cells).then_some(first);
        VolumeReport { total, cells, first }
    })
}
