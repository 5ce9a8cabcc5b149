//! The additions as one would write them in Rust: what has no original is timed against these.

use cases::original::{HEX, Hex, Place};
use reference::hex::{EDGE2NODE, IDX2NODE, subdivide};
use reference::hex_opened::iso_edge;

#[derive(Clone, Copy)]
#[repr(C)]
pub struct Proposal {
    pub at: Place,
    pub tolerance: f64,
}

#[inline(never)]
pub fn check(corners: &Hex, at: &Place, tolerance: f64) -> u32 {
    let sizes = 1.0 / (1u128 << 100) as f64..=(1u128 << 100) as f64;
    if !corners.as_flattened().iter().all(|&x| x == 0.0 || sizes.contains(&x.abs())) {
        return 3;
    }
    if !(0.0..f64::INFINITY).contains(&tolerance) {
        return 4;
    }
    if !at.iter().all(|x| (-1.0..=1.0).contains(x)) {
        return 5;
    }
    let image = HEX.image(corners, at);
    if image.iter().all(|&x| x <= tolerance && -x <= tolerance) { 0 } else { 6 }
}

/// An entry of the original's own table.
#[inline(never)]
pub fn iso_mask(index: u32, mask: &mut u32) -> u32 {
    let Some(&entry) = iso_edge().get(index as usize) else {
        return 9;
    };
    *mask = entry as u32;
    0
}

#[inline(never)]
pub fn check_proposals(corners: &Hex, list: &[Proposal], out: &mut [u32]) -> Result<u32, u32> {
    if list.len() > 256 {
        return Err(7);
    }
    if out.len() < list.len() {
        return Err(8);
    }
    let mut accepted = 0;
    for (proposal, number) in list.iter().zip(out) {
        *number = check(corners, &proposal.at, proposal.tolerance);
        accepted += u32::from(*number == 0);
    }
    Ok(accepted)
}

/// 9 before 10, cell by cell.
fn faults<'a>(n: u32, mut cells: impl Iterator<Item = [u32; 8]> + 'a) -> Result<(), u32> {
    cells.try_for_each(|cell| {
        if cell.iter().any(|&node| node >= n) {
            return Err(9);
        }
        let twice = (0..8).any(|j| cell[..j].contains(&cell[j]));
        if twice { Err(10) } else { Ok(()) }
    })
}

/// The nodes of an edge or a face, whose order does not count.
fn same<const W: usize>(a: [u32; W], b: [u32; W]) -> bool {
    a.iter().all(|node| b.contains(node))
}

fn edge(cell: &[u32; 8], e: usize) -> [u32; 2] {
    EDGE2NODE[e].map(|k| cell[k])
}

fn face(cell: &[u32; 8], f: usize) -> [u32; 4] {
    std::array::from_fn(|j| cell[IDX2NODE[4 * f + j]])
}

/// Of two faces with the same nodes: the rings agree where the same node stands opposite the first.
fn same_ring(a: [u32; 4], b: [u32; 4]) -> bool {
    (0..4).any(|j| b[j] == a[0] && b[(j + 2) % 4] == a[2])
}

/// The earlier cell, and which of its edges or faces, where these nodes are first met.
fn find<const W: usize, const N: usize>(
    own: [u32; N],
    earlier: &[[u32; 8]],
    nodes: impl Fn(&[u32; 8], usize) -> [u32; N],
) -> Option<(usize, usize)> {
    for (d, cell) in earlier.iter().enumerate() {
        for f in 0..W {
            if same(own, nodes(cell, f)) {
                return Some((d, f));
            }
        }
    }
    None
}

/// The numbers of a cell's edges or faces. One that is found by its nodes has to agree, or is
/// twisted.
fn number<const W: usize, const N: usize>(
    cells: &[[u32; 8]],
    numbers: &mut Vec<[u32; W]>,
    nodes: impl Fn(&[u32; 8], usize) -> [u32; N],
    agree: impl Fn([u32; N], [u32; N]) -> bool,
    next: &mut u32,
) -> Result<(), u32> {
    let (earlier, cell) = (&cells[..numbers.len()], &cells[numbers.len()]);
    let mut mine = [0; W];
    for (e, number) in mine.iter_mut().enumerate() {
        let own = nodes(cell, e);
        if let Some((d, f)) = find::<W, N>(own, earlier, &nodes) {
            if !agree(own, nodes(&earlier[d], f)) {
                return Err(14);
            }
            *number = numbers[d][f];
        } else {
            *number = *next;
            *next += 1;
        }
    }
    numbers.push(mine);
    Ok(())
}

#[inline(never)]
pub fn refine(n: u32, cells: &[u32], out: &mut [u32]) -> Result<u32, u32> {
    if n > 1024 || cells.len() > 1024 {
        return Err(7);
    }
    if !cells.len().is_multiple_of(8) || out.len() < 8 * cells.len() {
        return Err(8);
    }
    let (cells, _) = cells.as_chunks::<8>();
    faults(n, cells.iter().copied())?;
    let (mut edges, mut faces) = (Vec::with_capacity(128), Vec::with_capacity(128));
    let mut centers = Vec::with_capacity(128);
    let mut next = n;
    for _ in cells {
        number(cells, &mut edges, edge, |_, _| true, &mut next)?;
        number(cells, &mut faces, face, same_ring, &mut next)?;
        centers.push(next);
        next += 1;
    }
    for (c, cell) in cells.iter().enumerate() {
        let children = subdivide(cell, &edges[c], &faces[c], centers[c]);
        out[64 * c..64 * c + 64].copy_from_slice(children.as_flattened());
    }
    Ok(next)
}

fn number_at(bytes: &[u8], at: usize) -> u32 {
    u32::from_le_bytes(bytes[at..at + 4].try_into().expect("four bytes"))
}

/// A good file: its counts, and where its nodes and cells stand.
struct File<'a> {
    counts: [u32; 2],
    nodes: &'a [u8],
    cells: &'a [u8],
}

#[inline(always)]
fn judged(bytes: &[u8]) -> Result<File<'_>, u32> {
    if bytes.len() < 13 {
        return Err(13);
    }
    if !bytes.starts_with(b"HXM") {
        return Err(11);
    }
    if bytes[3..5] != [1, 0] {
        return Err(12);
    }
    let (n, c) = (number_at(bytes, 5), number_at(bytes, 9));
    if n > 1024 || c > 128 {
        return Err(7);
    }
    let (coords, corners) = (3 * n as usize, 8 * c as usize);
    if bytes.len() != 13 + 8 * coords + 4 * corners {
        return Err(13);
    }
    let (nodes, cells) = bytes[13..].split_at(8 * coords);
    faults(n, cells.as_chunks::<32>().0.iter().map(cell))?;
    Ok(File { counts: [n, c], nodes, cells })
}

#[inline(never)]
pub fn read(bytes: &[u8], nodes: &mut [u64], cells: &mut [u32]) -> Result<[u32; 2], u32> {
    let file = judged(bytes)?;
    if nodes.len() < file.nodes.len() / 8 || cells.len() < file.cells.len() / 4 {
        return Err(8);
    }
    for (word, pattern) in nodes.iter_mut().zip(file.nodes.as_chunks::<8>().0) {
        *word = u64::from_le_bytes(*pattern);
    }
    for (number, four) in cells.iter_mut().zip(file.cells.as_chunks::<4>().0) {
        *number = u32::from_le_bytes(*four);
    }
    Ok(file.counts)
}

fn cell(bytes: &[u8; 32]) -> [u32; 8] {
    std::array::from_fn(|k| number_at(bytes, 4 * k))
}

#[inline(never)]
pub fn write(nodes: &[u64], cells: &[u32], out: &mut [u8]) -> Result<u32, u32> {
    if nodes.len() > 3072 || cells.len() > 1024 {
        return Err(7);
    }
    if !nodes.len().is_multiple_of(3) || !cells.len().is_multiple_of(8) {
        return Err(8);
    }
    let (n, c) = (nodes.len() as u32 / 3, cells.len() as u32 / 8);
    faults(n, cells.as_chunks::<8>().0.iter().copied())?;
    let length = 13 + 8 * nodes.len() + 4 * cells.len();
    if out.len() < length {
        return Err(8);
    }
    out[..5].copy_from_slice(b"HXM\x01\0");
    out[5..9].copy_from_slice(&n.to_le_bytes());
    out[9..13].copy_from_slice(&c.to_le_bytes());
    let mut at = 13;
    for word in nodes {
        out[at..at + 8].copy_from_slice(&word.to_le_bytes());
        at += 8;
    }
    for number in cells {
        out[at..at + 4].copy_from_slice(&number.to_le_bytes());
        at += 4;
    }
    Ok(length as u32)
}

/// The whole number that a coordinate is, where its size is at most 1,024.
fn on_grid(pattern: &[u8; 8]) -> Result<i64, u32> {
    let x = f64::from_le_bytes(*pattern);
    let whole = x as i64;
    if x.abs() <= 1024.0 && whole as f64 == x { Ok(whole) } else { Err(15) }
}

fn determinant([x, y, z]: [[i64; 3]; 3]) -> i64 {
    x[0] * (y[1] * z[2] - y[2] * z[1]) - x[1] * (y[0] * z[2] - y[2] * z[0])
        + x[2] * (y[0] * z[1] - y[1] * z[0])
}

/// 216 times the signed volume.
fn volume(corners: &[[i64; 3]; 8]) -> i64 {
    let at = |k: usize, axis: usize| corners[k][axis];
    let parts = [[3, 1, 7, 2], [4, 3, 5, 7], [1, 4, 2, 5]].map(|[p, q, u, v]| {
        determinant([0, 1, 2].map(|i| {
            [at(p, i) - at(q, i) + at(u, i) - at(v, i), at(6, i) - at(p, i), at(v, i) - at(0, i)]
        }))
    });
    18 * (parts[0] + parts[1] + parts[2])
}

/// The total and both counts: how many cells there are, and which is the first not above zero.
#[inline(never)]
pub fn volume_report(bytes: &[u8], volumes: &mut [i64]) -> Result<(i64, [u32; 2]), u32> {
    let file = judged(bytes)?;
    let mut nodes = [[0; 3]; 1024];
    for (x, pattern) in nodes.as_flattened_mut().iter_mut().zip(file.nodes.as_chunks::<8>().0) {
        *x = on_grid(pattern)?;
    }
    let [_, c] = file.counts;
    if volumes.len() < c as usize {
        return Err(8);
    }
    let (mut total, mut first) = (0, c);
    for (k, (numbers, out)) in file.cells.as_chunks::<32>().0.iter().zip(volumes).enumerate() {
        *out = volume(&cell(numbers).map(|node| nodes[node as usize]));
        total += *out;
        if *out <= 0 && first == c {
            first = k as u32;
        }
    }
    Ok((total, [c, first]))
}
