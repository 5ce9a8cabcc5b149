//! Every refusal of every function, in the order in which they are looked for, and that nothing is
//! written then.

use std::collections::BTreeMap;

use isnemgul::hex::{self, Proposal, SIGNS};
use isnemgul::mesh::{self, Counts, VolumeReport};
use isnemgul::{Point, Refusal, mat3, prism};

use Refusal::*;

const CELL: [u32; 8] = [0, 1, 2, 3, 4, 5, 6, 7];

/// Of the second cell a face runs 5, 1, 6, 2, of the first one 1, 2, 6, 5.
const TWISTED: [u32; 16] = [0, 1, 2, 3, 4, 5, 6, 7, 1, 8, 9, 5, 6, 11, 10, 2];

/// Two cells, edited.
fn two_cells(edit: fn(&mut [u32])) -> Vec<u32> {
    let mut cells = [CELL, CELL].concat();
    edit(&mut cells);
    cells
}

/// The words of each number in docs/REFUSALS.md. `make words` holds that page to the header.
fn page() -> BTreeMap<u32, &'static str> {
    let row = |line: &'static str| {
        let mut cells = line.strip_prefix("| ")?.split(" | ");
        Some((cells.next()?.parse().ok()?, cells.next()?))
    };
    include_str!("../../../docs/REFUSALS.md").lines().filter_map(row).collect()
}

/// A number of the page has its words, and any other has none: the numbers may have gaps.
#[test]
fn numbers_and_words() {
    let mut words = page();
    assert_eq!(words.remove(&0), Some("answered"));
    assert!(words.len() >= 15);
    for number in (0..1000).chain(words.keys().copied()).chain([u32::MAX]) {
        let refusal = Refusal::from_number(number);
        assert_eq!(refusal.map(Refusal::words), words.get(&number).copied(), "{number}");
        assert!(refusal.is_none_or(|refusal| refusal.number() == number), "{number}");
    }
    assert_eq!(Twice.to_string(), "refused 10: a node stands twice in one cell");
    let _: &dyn std::error::Error = &Flat;
}

#[test]
fn inverse() {
    assert_eq!(mat3::try_inverse(&[-0.0; 9]), Err(Flat));
    assert!(mat3::try_inverse(&[f64::NAN; 9]).is_ok());
}

#[test]
fn locators() {
    assert_eq!(hex::parametric_coord_for_origin(&[[1.; 3]; 8]), Err(Flat));
    assert_eq!(prism::parametric_coord_for_origin(&[[1.; 3]; 6]), Err(Flat));
    let beside = |places: &Point| [places[0] + 5., places[1], places[2]];
    assert_eq!(hex::parametric_coord_for_origin(&SIGNS.each_ref().map(beside)), Err(Outside));
    let prism = prism::PLACES.each_ref().map(beside);
    assert_eq!(prism::parametric_coord_for_origin(&prism), Err(Outside));
    assert_eq!(hex::parametric_coord_for_origin(&[[f64::NAN; 3]; 8]), Err(Outside));
}

fn with_corner(value: f64) -> hex::Corners {
    let mut corners = SIGNS;
    corners[7][2] = value;
    corners
}

#[test]
fn check() {
    let small = 2f64.powi(-101);
    for bad in [f64::NAN, f64::INFINITY, small, -2f64.powi(101)] {
        assert_eq!(hex::check(&with_corner(bad), &[9.; 3], -1.), Err(Corner));
    }
    assert_eq!(hex::check(&with_corner(2f64.powi(100)), &[1., 1., -1.], 3.), Ok(()));
    assert_eq!(hex::check(&with_corner(-0.0), &[0.; 3], 1.), Ok(()));
    for bad in [f64::NAN, f64::INFINITY, -1e-300] {
        assert_eq!(hex::check(&SIGNS, &[9.; 3], bad), Err(Tolerance));
    }
    for bad in [1. + f64::EPSILON, -2., f64::NAN] {
        assert_eq!(hex::check(&SIGNS, &[0., bad, 0.], 0.), Err(Coordinate));
    }
    assert_eq!(hex::check(&SIGNS, &[0., 0., 1.], 0.5), Err(TooFar));
    assert_eq!(hex::check(&SIGNS, &[0.; 3], -0.0), Ok(()));
}

#[test]
fn locate_checked() {
    assert_eq!(hex::locate_checked(&with_corner(f64::NAN), -1.), Err(Corner));
    assert_eq!(hex::locate_checked(&[[1.; 3]; 8], -1.), Err(Tolerance));
    assert_eq!(hex::locate_checked(&[[1.; 3]; 8], 1.), Err(Flat));
    assert_eq!(hex::locate_checked(&SIGNS.map(|[x, y, z]| [x + 5., y, z]), 9.), Err(Outside));
    // Newton's place is inside, and its image (-1,-1,0).
    let mut folded = SIGNS.map(|corner| corner.map(|x| (x - 1.) / 2.));
    folded[6] = folded[4];
    assert_eq!(hex::parametric_coord_for_origin(&folded), Ok([1.; 3]));
    assert_eq!(hex::locate_checked(&folded, 0.5), Err(TooFar));
}

#[test]
fn proposals() {
    let proposal = Proposal { at: [0.; 3], tolerance: 1. };
    let mut out = [77; 257];
    assert_eq!(hex::check_proposals(&SIGNS, &[proposal; 257], &mut []), Err(Limit));
    assert_eq!(hex::check_proposals(&SIGNS, &[proposal; 256], &mut out[..255]), Err(Length));
    assert_eq!(out, [77; 257]);
    assert_eq!(hex::check_proposals(&SIGNS, &[proposal; 256], &mut out), Ok(256));
}

/// Lists of floats, and what they are refused by: (2 floats an item, 3 floats an item).
#[test]
fn quadrature_points() {
    let lists = [0, 1, 3, 33, 34, 36].map(|length| vec![0.5; length]);
    let by_two = [Limit, Length, Length, Length, Limit, Limit];
    let good = [0.5; 6];
    for (list, refusal) in lists.iter().zip(by_two) {
        assert_eq!(hex::volume(&SIGNS, list), Err(refusal));
        assert_eq!(hex::grad_shapefunc(&SIGNS, list, [99; 3]), Err(refusal));
        assert_eq!(prism::volume(&prism::PLACES, list, &good), Err(refusal));
    }
    for (length, refusal) in [(0, Limit), (1, Length), (50, Length), (51, Limit)] {
        assert_eq!(prism::volume(&prism::PLACES, &good, &vec![0.5; length]), Err(refusal));
    }
    assert_eq!(prism::volume(&prism::PLACES, &[], &[0.5]), Err(Length));
    for indices in [[3, 0, 0], [0, 3, 0], [0, 0, u32::MAX]] {
        assert_eq!(hex::grad_shapefunc(&SIGNS, &good, indices), Err(Range));
    }
}

#[test]
fn iso() {
    assert_eq!(hex::iso_mask(256), Err(Range));
    for nodes in [[8, 0], [0, 8]] {
        assert_eq!(hex::iso_position_on_edge(&[0.; 3], 1., nodes, [-1., 1.]), Err(Range));
    }
}

#[test]
fn refine() {
    let many = CELL.repeat(129);
    let cases: [(u32, Vec<u32>, usize, Refusal); 8] = [
        (1025, vec![9; 1025], 0, Limit),
        (1024, many[..1025].to_vec(), 0, Limit),
        (8, vec![9; 7], 0, Length),
        (8, vec![9; 8], 63, Length),
        (8, two_cells(|c| c[3] = 8), 128, Range),
        (8, two_cells(|c| (c[2], c[15]) = (c[1], 8)), 128, Twice),
        (8, two_cells(|c| (c[8], c[9], c[15]) = (0, 0, 8)), 128, Range),
        (0, CELL.to_vec(), 64, Range),
    ];
    for (n, cells, room, refusal) in cases {
        refine_refuses(n, &cells, room, refusal);
    }
    assert!(mesh::refine(8, &many[..1024], &mut vec![0; 8192]).is_ok());
    assert_eq!(mesh::refine(5, &[], &mut []), Ok(5));
}

fn refine_refuses(n: u32, cells: &[u32], room: usize, refusal: Refusal) {
    let mut out = vec![77; room];
    assert_eq!(mesh::refine(n, cells, &mut out), Err(refusal));
    assert_eq!(out, vec![77; room]);
}

/// The last refusal: a short output comes before it, and what is wrong with a cell, also with one
/// that stands behind the twisted pair.
#[test]
fn twisted() {
    let with = |third: [u32; 8]| [&TWISTED[..], &third].concat();
    refine_refuses(12, &TWISTED, 128, Twisted);
    refine_refuses(12, &TWISTED, 129, Twisted);
    refine_refuses(12, &with(CELL), 192, Twisted);
    refine_refuses(12, &TWISTED, 127, Length);
    refine_refuses(11, &TWISTED, 128, Range);
    refine_refuses(12, &with([0, 1, 2, 3, 4, 5, 6, 12]), 192, Range);
    refine_refuses(12, &with([0, 0, 2, 3, 4, 5, 6, 7]), 192, Twice);
    let glued = [0, 1, 2, 3, 4, 5, 6, 7, 1, 8, 9, 2, 5, 11, 10, 6];
    assert_eq!(mesh::refine(12, &glued, &mut [0; 128]), Ok(45));
}

/// A face with the nodes 1, 2, 6, 5 in each of their 24 orders: the eight turns of this ring are one
/// face with it, the other orders are twisted. One with three of the nodes is another face.
#[test]
fn rings() {
    let ways = [[1, 2, 6, 5], [5, 6, 2, 1]];
    let turn = |ring: [u32; 4], start| std::array::from_fn(|k| ring[(start + k) % 4]);
    let turns: Vec<[u32; 4]> = (0..8).map(|i| turn(ways[i / 4], i % 4)).collect();
    let lists = (0..256).map(|i| [i / 64, i / 16, i / 4, i].map(|k| ways[0][k % 4]));
    let orders = lists.filter(|list| ways[0].iter().all(|node| list.contains(node)));
    let (same, others): (Vec<_>, Vec<_>) = orders.partition(|order| turns.contains(order));
    assert_eq!((same.len(), others.len()), (8, 16));
    let glued = |ring: [u32; 4]| [&CELL[..], &ring, &[8, 9, 10, 11]].concat();
    assert_eq!(mesh::refine(13, &glued([1, 2, 6, 12]), &mut [0; 128]), Ok(49));
    for ring in same {
        assert_eq!(mesh::refine(12, &glued(ring), &mut [0; 128]), Ok(45), "{ring:?}");
    }
    for ring in others {
        refine_refuses(12, &glued(ring), 128, Twisted);
    }
}

#[test]
fn descendant() {
    assert_eq!(mesh::descendant(&[9; 21], 9), Err(Limit));
    assert_eq!(mesh::descendant(&[0, 8], 0), Err(Range));
    assert_eq!(mesh::descendant(&[0; 20], 8), Err(Range));
    assert_eq!(mesh::descendant(&[6; 20], 6), Ok([1 << 20; 3]));
}

/// A file of `n` nodes at zero and these cells.
fn file(n: u32, cells: &[u32]) -> Vec<u8> {
    let mut bytes = b"HXM\x01\0".to_vec();
    bytes.extend([n, cells.len() as u32 / 8].iter().flat_map(|count| count.to_le_bytes()));
    bytes.resize(13 + 24 * n as usize, 0);
    bytes.extend(cells.iter().flat_map(|node| node.to_le_bytes()));
    bytes
}

/// Files that the reader refuses, whatever the lists.
fn bad_files() -> [(Vec<u8>, Refusal); 9] {
    let good = file(8, &CELL);
    let edited = |at: usize, byte: u8| {
        let mut bytes = good.clone();
        bytes[at] = byte;
        bytes
    };
    let (nodes_at, cells_at) = (5, 13 + 24 * 8);
    [
        (b"hxm\x02\0\0\0\0\0\0\0\0".to_vec(), FileLength),
        (edited(2, b'N'), Mark),
        (edited(4, 1), Version),
        (edited(nodes_at + 1, 0x10), Limit),
        (file(8, &CELL.repeat(129)), Limit),
        (good[..good.len() - 1].to_vec(), FileLength),
        ([&good[..], b"\n"].concat(), FileLength),
        (edited(cells_at, 8), Range),
        (edited(cells_at, 1), Twice),
    ]
}

#[test]
fn read() {
    let good = file(8, &CELL);
    let (mut nodes, mut cells) = ([77; 24], [77; 8]);
    for (bytes, refusal) in bad_files() {
        assert_eq!(mesh::read(&bytes, &mut nodes, &mut cells), Err(refusal));
        assert_eq!(mesh::read(&bytes, &mut [], &mut []), Err(refusal));
    }
    assert_eq!(mesh::read(&good, &mut nodes[..23], &mut cells), Err(Length));
    assert_eq!(mesh::read(&good, &mut nodes, &mut cells[..7]), Err(Length));
    assert_eq!((nodes, cells), ([77; 24], [77; 8]));
}

/// A mesh file may be twisted: neither the writer nor the reader nor the report looks at faces.
#[test]
fn twisted_file() {
    let nodes = [0; 36];
    let mut out = [77; 365];
    assert_eq!(mesh::write(&nodes, &TWISTED, &mut out), Ok(365));
    assert_eq!(out[..], file(12, &TWISTED));
    let (mut same_nodes, mut same_cells) = ([77; 36], [77; 16]);
    let counts = mesh::read(&out, &mut same_nodes, &mut same_cells);
    assert_eq!(counts, Ok(Counts { nodes: 12, cells: 2 }));
    assert_eq!((same_nodes, same_cells), (nodes, TWISTED));
    let report = VolumeReport { total: 0, cells: 2, first: Some(0) };
    assert_eq!(mesh::volume_report(&out, &mut [77; 2]), Ok(report));
}

/// Each refusal has one later in the order beside it where there can be one; there is no room, or
/// more than enough.
#[test]
fn write() {
    let many = CELL.repeat(129);
    let cases: [(usize, Vec<u32>, Refusal); 15] = [
        (3073, vec![], Limit),
        (3075, vec![9; 7], Limit),
        (3075, two_cells(|c| c[0] = u32::MAX), Limit),
        (4, many[..1025].to_vec(), Limit),
        (24, many.clone(), Limit),
        (1, vec![], Length),
        (3071, vec![9; 7], Length),
        (4, CELL.to_vec(), Length),
        (24, vec![9; 7], Length),
        (0, many[..1023].to_vec(), Length),
        (0, CELL.to_vec(), Range),
        (21, two_cells(|c| c[1] = 0), Range),
        (24, two_cells(|c| (c[8], c[9], c[15]) = (0, 0, 8)), Range),
        (24, two_cells(|c| (c[2], c[15]) = (c[1], u32::MAX)), Twice),
        (24, two_cells(|c| c[15] = c[8]), Twice),
    ];
    for (words, cells, refusal) in cases {
        for room in [0, 40_000] {
            let mut out = vec![77; room];
            assert_eq!(mesh::write(&vec![0; words], &cells, &mut out), Err(refusal));
            assert_eq!(out, vec![77; room]);
        }
    }
}

/// The last refusal: a byte short of the file.
#[test]
fn room_for_a_file() {
    for (n, cells) in [(0, vec![]), (1, vec![]), (8, CELL.to_vec()), (1024, CELL.repeat(128))] {
        let (nodes, file) = (vec![0; 3 * n as usize], file(n, &cells));
        let length = file.len();
        let mut out = vec![77; length + 1];
        for room in [0, 12, length - 1] {
            assert_eq!(mesh::write(&nodes, &cells, &mut out[..room]), Err(Length));
        }
        assert_eq!(out, vec![77; length + 1]);
        assert_eq!(mesh::write(&nodes, &cells, &mut out[..length]), Ok(length as u32));
        assert_eq!(out, [&file[..], &[77]].concat());
    }
}

/// The file with this word in the place of coordinate i.
fn with_word(file: &[u8], i: usize, word: u64) -> Vec<u8> {
    let mut bytes = file.to_vec();
    bytes[13 + 8 * i..21 + 8 * i].copy_from_slice(&word.to_le_bytes());
    bytes
}

fn report_refuses(file: &[u8], room: usize, refusal: Refusal) {
    let mut volumes = vec![77; room];
    assert_eq!(mesh::volume_report(file, &mut volumes), Err(refusal));
    assert_eq!(volumes, vec![77; room]);
}

const HALF: u64 = 0x3fe0_0000_0000_0000;

/// What the reader refuses comes first, with a node off the grid too, and no room.
#[test]
fn report_of_a_bad_file() {
    for (bytes, refusal) in bad_files() {
        for room in [0, 8] {
            report_refuses(&bytes, room, refusal);
            if bytes.len() > 20 {
                report_refuses(&with_word(&bytes, 0, HALF), room, refusal);
            }
        }
    }
    for (cells, refusal) in [(two_cells(|c| c[15] = 8), Range), (two_cells(|c| c[15] = 0), Twice)] {
        report_refuses(&with_word(&file(8, &cells), 0, HALF), 0, refusal);
    }
}

/// Every coordinate of every node is looked at, of the unused last one too, before the room is.
#[test]
fn off_the_grid() {
    let nine = file(9, &CELL);
    let bad = [f64::NAN, f64::INFINITY, -f64::INFINITY, 0.5, -1023.5, 1025., -1025., 2e300, 5e-324];
    let patterns = [0x7ff0_0000_0000_0001, 0x4090_0000_0000_0001, 0xc090_0000_0000_0001, u64::MAX];
    for i in 0..27 {
        for word in bad.map(f64::to_bits).into_iter().chain(patterns) {
            for room in [0, 1, 2] {
                report_refuses(&with_word(&nine, i, word), room, OffGrid);
            }
        }
        for good in [0f64, -0., 1., -1., 1023., 1024., -1024.] {
            let bytes = with_word(&nine, i, good.to_bits());
            assert_eq!(mesh::volume_report(&bytes, &mut [77]).map(|report| report.cells), Ok(1));
            report_refuses(&bytes, 0, Length);
        }
    }
    report_refuses(&with_word(&file(1, &[]), 0, HALF), 0, OffGrid);
}

/// The last refusal: a number short of the cells.
#[test]
fn room_for_a_report() {
    for c in [1, 2, 127, 128] {
        let bytes = file(8, &CELL.repeat(c));
        for room in [0, c - 1] {
            report_refuses(&bytes, room, Length);
        }
        let mut volumes = vec![77; c + 2];
        let report = VolumeReport { total: 0, cells: c as u32, first: Some(0) };
        assert_eq!(mesh::volume_report(&bytes, &mut volumes[..c]), Ok(report));
        assert_eq!(mesh::volume_report(&bytes, &mut volumes), Ok(report));
        assert_eq!(volumes, [&vec![0; c][..], &[77; 2]].concat());
    }
    let none = VolumeReport { total: 0, cells: 0, first: None };
    assert_eq!(mesh::volume_report(&file(0, &[]), &mut []), Ok(none));
}
