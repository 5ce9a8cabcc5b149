//! Lists at their limits, each allocated to the element, so that valgrind sees a step beyond one
//! (`make sanitize`).

use isnemgul::hex::{self, Proposal, SIGNS};
use isnemgul::mesh::{self, Counts, VolumeReport};
use isnemgul::{Refusal, prism};

fn boxed<T: Clone>(list: &[T]) -> Box<[T]> {
    list.into()
}

/// 1,024 nodes, and 128 cells that share nothing.
fn cells() -> Box<[u32]> {
    (0..1024).collect()
}

/// Three words for each of the nodes, all different.
fn coordinates() -> Box<[u64]> {
    (0..3072u64).map(|i| i.wrapping_mul(0x0123_4567_89ab_cdef)).collect()
}

/// The file of these nodes and cells.
fn full_file() -> Box<[u8]> {
    let head = b"HXM\x01\0\0\x04\0\0\x80\0\0\0".iter().copied();
    let (nodes, cells) = (coordinates(), cells());
    let words = nodes.iter().flat_map(|word| word.to_le_bytes());
    head.chain(words).chain(cells.iter().flat_map(|node| node.to_le_bytes())).collect()
}

#[test]
fn quadrature_points() {
    for points in 1..=16 {
        let (line, triangle) = (boxed(&vec![0.5; 2 * points]), boxed(&vec![0.25; 3 * points]));
        assert!(hex::volume(&SIGNS, &line).is_ok());
        assert!(prism::volume(&prism::PLACES, &line, &triangle).is_ok());
        assert!(hex::grad_shapefunc(&SIGNS, &line, [points as u32 - 1; 3]).is_ok());
        assert!(hex::grad_shapefunc(&SIGNS, &line, [points as u32; 3]).is_err());
    }
}

#[test]
fn proposals() {
    let list = boxed(&[Proposal { at: [0.; 3], tolerance: 1. }; 256]);
    let mut out = boxed(&[77; 256]);
    assert_eq!(hex::check_proposals(&SIGNS, &list, &mut out), Ok(256));
    assert_eq!(out, boxed(&[0; 256]));
}

/// Every edge, face and centre of 128 cells that share nothing is new.
#[test]
fn refine() {
    let mut out = boxed(&[0; 8192]);
    assert_eq!(mesh::refine(1024, &cells(), &mut out), Ok(1024 + 128 * 19));
    let mut seen = out.to_vec();
    seen.sort_unstable();
    seen.dedup();
    assert_eq!(seen, (0..1024 + 128 * 19).collect::<Vec<u32>>());
}

/// The last cell has the first one's nodes 1, 2, 6, 5: in its ring, and in another.
#[test]
fn a_face_of_the_first_and_the_last_cell() {
    let ending =
        |ring: [u32; 4]| boxed(&[&cells()[..1016], &ring, &[1020, 1021, 1022, 1023]].concat());
    let mut out = boxed(&[77; 8192]);
    let twisted = ending([1, 6, 2, 5]);
    assert_eq!(mesh::refine(1024, &twisted, &mut out), Err(Refusal::Twisted));
    assert_eq!(mesh::refine(1024, &twisted, &mut out[1..]), Err(Refusal::Length));
    assert_eq!(out, boxed(&[77; 8192]));
    let next = mesh::refine(1024, &ending([6, 2, 1, 5]), &mut out);
    assert_eq!(next, Ok(1024 + 128 * 19 - 5));
}

#[test]
fn descendant() {
    for depth in 0..=20 {
        assert_eq!(mesh::descendant(&boxed(&vec![0; depth]), 0), Ok([-1 << depth; 3]));
    }
}

/// The full file, and every shorter one.
#[test]
fn read() {
    let file = full_file();
    assert_eq!(file.len(), 28_685);
    let (mut nodes, mut numbers) = (boxed(&[0; 3072]), boxed(&[0; 1024]));
    let counts = mesh::read(&file, &mut nodes, &mut numbers);
    assert_eq!(counts, Ok(Counts { nodes: 1024, cells: 128 }));
    assert_eq!((nodes, numbers), (coordinates(), cells()));
    for length in (0..file.len()).filter(|length| *length < 40 || length % 997 == 0) {
        assert!(mesh::read(&boxed(&file[..length]), &mut [], &mut []).is_err());
    }
}

/// The full mesh into a buffer of its file's length, into one that is a byte short, and with one
/// word or number more.
#[test]
fn write() {
    let (nodes, numbers) = (coordinates(), cells());
    let mut out = boxed(&[77; 28_684]);
    assert_eq!(mesh::write(&nodes, &numbers, &mut out), Err(Refusal::Length));
    let (more_nodes, more_numbers) = (boxed(&[0; 3073]), boxed(&[0; 1025]));
    assert_eq!(mesh::write(&more_nodes, &numbers, &mut out), Err(Refusal::Limit));
    assert_eq!(mesh::write(&nodes, &more_numbers, &mut out), Err(Refusal::Limit));
    assert_eq!(out, boxed(&[77; 28_684]));
    let mut out = boxed(&[77; 28_685]);
    assert_eq!(mesh::write(&nodes, &numbers, &mut out), Ok(28_685));
    assert_eq!(out, full_file());
}

/// What is written is read back: nodes alone, and every number of cells with their nodes.
#[test]
fn write_and_read() {
    let nodes_alone = (0..=1024).filter(|n| *n < 40 || n % 31 == 1).map(|n| (n, 0));
    for (n, c) in nodes_alone.chain((1..=128).map(|c| (8 * c, c))) {
        let (nodes, numbers) = (boxed(&coordinates()[..3 * n]), boxed(&cells()[..8 * c]));
        let mut file = boxed(&vec![77; 13 + 24 * n + 32 * c]);
        assert_eq!(mesh::write(&nodes, &numbers, &mut file), Ok(file.len() as u32));
        let (mut same_nodes, mut same_numbers) = (boxed(&vec![0; 3 * n]), boxed(&vec![0; 8 * c]));
        let counts = mesh::read(&file, &mut same_nodes, &mut same_numbers);
        assert_eq!(counts, Ok(Counts { nodes: n as u32, cells: c as u32 }));
        assert_eq!((same_nodes, same_numbers), (nodes, numbers));
    }
}

/// The largest cells: 128 times the cube of side 2,048, and with every corner negated. The list has
/// one number a cell, or one less.
#[test]
fn volumes() {
    const LARGEST: i64 = 216 << 33;
    for sign in [1., -1.] {
        let corners = SIGNS.map(|corner| corner.map(|x| (1024. * sign * x).to_bits()));
        let (nodes, mut file) = (boxed(&corners.as_flattened().repeat(128)), boxed(&[0; 28_685]));
        assert_eq!(mesh::write(&nodes, &cells(), &mut file), Ok(28_685));
        let mut volumes = boxed(&[77; 127]);
        assert_eq!(mesh::volume_report(&file, &mut volumes), Err(Refusal::Length));
        assert_eq!(volumes, boxed(&[77; 127]));
        let mut volumes = boxed(&[77; 128]);
        let total = 128 * LARGEST * sign as i64;
        let report = VolumeReport { total, cells: 128, first: (sign < 0.).then_some(0) };
        assert_eq!(mesh::volume_report(&file, &mut volumes), Ok(report));
        assert_eq!(volumes, boxed(&[LARGEST * sign as i64; 128]));
        for length in (0..file.len()).filter(|length| *length < 40 || length % 997 == 0) {
            assert!(mesh::volume_report(&boxed(&file[..length]), &mut []).is_err());
        }
        let longer = boxed(&[&file[..], b"\n"].concat());
        assert_eq!(mesh::volume_report(&longer, &mut []), Err(Refusal::FileLength));
    }
}

/// Every number of cells, with nodes that no cell uses, into a list of their number.
#[test]
fn volumes_of_cells() {
    for (n, c) in (0..=128).map(|c| (8 * c, c)).chain([(1024, 0), (1024, 1), (9, 1)]) {
        let nodes: Box<[u64]> = (0..3 * n).map(|i| ((i % 1025) as f64).to_bits()).collect();
        let mut file = boxed(&vec![77; 13 + 24 * n + 32 * c]);
        mesh::write(&nodes, &cells()[..8 * c], &mut file).unwrap();
        let mut volumes = boxed(&vec![77; c]);
        let report = mesh::volume_report(&file, &mut volumes).unwrap();
        assert_eq!((report.cells, report.total), (c as u32, volumes.iter().sum()));
    }
}
