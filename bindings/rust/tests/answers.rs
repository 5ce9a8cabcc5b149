//! What each function answers, held against a plain rule.

use isnemgul::hex::{self, Proposal, SIGNS};
use isnemgul::mesh::{self, Counts, VolumeReport};
use isnemgul::{Point, mat3, prism};

/// A skewed block around the origin, and the place of the origin in it.
const SKEW: [Point; 3] = [[2., 0.5, 0.], [0., 3., 0.25], [0.125, 0., 4.]];
const AT: Point = [0.5, -0.25, 0.125];

fn times(rows: &[Point; 3], v: &Point) -> Point {
    rows.map(|row| row[0] * v[0] + row[1] * v[1] + row[2] * v[2])
}

/// The cell whose image of `at` is the origin.
fn skewed<const N: usize>(places: &[Point; N], at: &Point) -> [Point; N] {
    places.map(|place| times(&SKEW, &std::array::from_fn(|i| place[i] - at[i])))
}

fn near(a: &[f64], b: &[f64]) {
    assert_eq!(a.len(), b.len());
    assert!(a.iter().zip(b).all(|(x, y)| (x - y).abs() < 1e-12), "{a:?} is not near {b:?}");
}

fn unit_at(k: usize, i: usize) -> f64 {
    if i == k { 1. } else { 0. }
}

#[test]
fn matrices() {
    let m = [2., 1., 0., 0., 3., 1., 1., 0., 4.];
    assert_eq!(mat3::transpose(&mat3::transpose(&m)), m);
    assert_eq!(mat3::determinant(&m), 25.);
    let inverse = mat3::try_inverse(&m).unwrap();
    let v = [1., -2., 3.];
    near(&mat3::mult_vec(&inverse, &mat3::mult_vec(&m, &v)), &v);
}

#[test]
fn shape_values_at_the_corners() {
    for (k, place) in SIGNS.iter().enumerate() {
        assert_eq!(hex::shapefunc(place), std::array::from_fn(|i| unit_at(k, i)));
    }
    for (k, place) in prism::PLACES.iter().enumerate() {
        assert_eq!(prism::shapefunc(place), std::array::from_fn(|i| unit_at(k, i)));
    }
}

#[test]
fn slopes_and_jacobians() {
    for slopes in [&hex::dndr(&AT)[..], &prism::dndr(&AT)[..]] {
        let sum = slopes.iter().fold([0.; 3], |s, d| std::array::from_fn(|i| s[i] + d[i]));
        near(&sum, &[0.; 3]);
    }
    near(hex::dxdr(&skewed(&SIGNS, &AT), &AT).as_flattened(), SKEW.as_flattened());
    near(prism::dxdr(&skewed(&prism::PLACES, &AT), &AT).as_flattened(), SKEW.as_flattened());
}

/// The gradient of x, from the corners' x, is (1,0,0).
#[test]
fn slopes_in_space() {
    let corners = skewed(&SIGNS, &AT);
    let (shape, gradient) = hex::dndx(&corners, &AT);
    assert_eq!(shape, hex::shapefunc(&AT));
    assert_eq!(hex::grad_shapefunc_from_dndr(&corners, &hex::dndr(&AT)), gradient);
    let slope =
        |j: usize| gradient.dndx.iter().zip(&corners).map(|(d, corner)| d[j] * corner[0]).sum();
    near(&[slope(0), slope(1), slope(2)], &[1., 0., 0.]);
    let points = [AT[0], 2., AT[1], 3., AT[2], 5.];
    let weighted = hex::grad_shapefunc(&corners, &points, [0, 1, 2]).unwrap();
    assert_eq!(weighted.dndx, gradient.dndx);
    near(&[weighted.det], &[30. * gradient.det]);
}

#[test]
fn volumes() {
    let determinant = mat3::determinant(SKEW.as_flattened().try_into().unwrap());
    let root = 1. / 3f64.sqrt();
    let line = [-root, 1., root, 1.];
    near(&[hex::volume(&skewed(&SIGNS, &AT), &line).unwrap()], &[8. * determinant]);
    let triangle = [1. / 3., 1. / 3., 1.];
    let volume = prism::volume(&skewed(&prism::PLACES, &AT), &line, &triangle).unwrap();
    near(&[volume], &[determinant / 2.]);
}

#[test]
fn located() {
    let corners = skewed(&SIGNS, &AT);
    near(&hex::parametric_coord_for_origin(&corners).unwrap(), &AT);
    near(&hex::locate_checked(&corners, 1e-12).unwrap(), &AT);
    assert_eq!(hex::check(&corners, &AT, 1e-12), Ok(()));
    let place = [0.25, 0.5, 0.75];
    near(&prism::parametric_coord_for_origin(&skewed(&prism::PLACES, &place)).unwrap(), &place);
}

#[test]
fn proposals() {
    let cube = SIGNS.map(|corner| corner.map(|x| 2. * x));
    let proposal = |x, tolerance| Proposal { at: [x, 0., 0.], tolerance };
    let list = [proposal(0.5, 1.), proposal(0.5, 0.5), proposal(2., 1.), proposal(0., -1.)];
    let mut out = [77; 6];
    assert_eq!(hex::check_proposals(&cube, &list, &mut out), Ok(1));
    assert_eq!(out, [0, 6, 5, 4, 77, 77]);
    assert_eq!(hex::check_proposals(&[[f64::NAN; 3]; 8], &list, &mut out), Ok(0));
    assert_eq!(out, [3, 3, 3, 3, 77, 77]);
    assert_eq!(hex::check_proposals(&cube, &[], &mut []), Ok(0));
}

#[test]
fn cut_edges() {
    let values = [-1., 3., 1., 1., -3., 1., 1., 1.];
    let (index, cuts) = hex::iso_edges(&[10., 0., 0.], 1., &values);
    assert_eq!(index, 0b1_0001);
    let mask = hex::iso_mask(index).unwrap();
    assert_eq!(mask, 0x99);
    for (e, cut) in cuts.iter().enumerate() {
        assert_eq!(cut.iter().all(|x| x.is_finite()), mask >> e & 1 == 1);
    }
    let alone = hex::iso_position_on_edge(&[10., 0., 0.], 1., [0, 1], [values[0], values[1]]);
    assert_eq!(alone, Ok(cuts[0]));
}

#[test]
fn children() {
    let mut out = [77; 65];
    assert_eq!(mesh::refine(8, &[0, 1, 2, 3, 4, 5, 6, 7], &mut out), Ok(27));
    let (corner, edge) = (std::array::from_fn(|i| i as u32), std::array::from_fn(|i| 8 + i as u32));
    let children = hex::subdivide(&corner, &edge, &[20, 21, 22, 23, 24, 25], 26);
    assert_eq!((&out[..64], out[64]), (children.as_flattened(), 77));
    assert_eq!(children[7], [24, 26, 23, 19, 15, 25, 14, 7]);
    let columns = prism::subdivide(
        &[0, 1, 2, 3, 4, 5],
        &std::array::from_fn(|i| 6 + i as u32),
        &[15, 16, 17],
    );
    assert_eq!(columns[3][..3].iter().collect::<std::collections::BTreeSet<_>>().len(), 3);
    assert!(columns[3][..3].iter().all(|node| (6..9).contains(node)));
}

/// Corner k of child o stands in the middle of the parent's corners o and k.
#[test]
fn descendants() {
    let path = [6, 0, 3, 5, 1];
    for depth in 0..path.len() {
        for k in 0..8 {
            let [own, other] =
                [path[depth], k].map(|corner| mesh::descendant(&path[..depth], corner).unwrap());
            let middle = std::array::from_fn(|i| own[i] + other[i]);
            assert_eq!(mesh::descendant(&path[..=depth], k), Ok(middle));
        }
    }
}

#[test]
fn files() {
    let patterns = [0x7ff0_0000_0000_0001, u64::MAX, 1 << 63].repeat(8);
    let mut file = b"HXM\x01\0\x08\0\0\0\x01\0\0\0".to_vec();
    file.extend(patterns.iter().flat_map(|word| word.to_le_bytes()));
    file.extend((0..8u32).rev().flat_map(|node| node.to_le_bytes()));
    let (mut nodes, mut cells) = ([77; 25], [77; 9]);
    assert_eq!(mesh::read(&file, &mut nodes, &mut cells), Ok(Counts { nodes: 8, cells: 1 }));
    assert_eq!((&nodes[..24], nodes[24]), (&patterns[..], 77));
    assert_eq!(cells, [7, 6, 5, 4, 3, 2, 1, 0, 77]);
    let mut out = [77; 240];
    assert_eq!(mesh::write(&nodes[..24], &cells[..8], &mut out), Ok(237));
    assert_eq!((&out[..237], &out[237..]), (&file[..], &[77; 3][..]));
}

/// The counts are those of the lists.
#[test]
fn small_files() {
    let mut out = [77; 38];
    assert_eq!(mesh::write(&[], &[], &mut out), Ok(13));
    assert_eq!((&out[..13], &out[13..]), (&b"HXM\x01\0\0\0\0\0\0\0\0\0"[..], &[77; 25][..]));
    assert_eq!(mesh::write(&[0x7ff0_0000_0000_0001, 1 << 63, 0], &[], &mut out), Ok(37));
    let head = b"HXM\x01\0\x01\0\0\0\0\0\0\0";
    let node = b"\x01\0\0\0\0\0\xf0\x7f\0\0\0\0\0\0\0\x80\0\0\0\0\0\0\0\0";
    assert_eq!(out[..], [&head[..], node, &[77]].concat());
}

/// The volumes of cells that share no node, by the file of them. A number behind the list stays.
fn reported(cells: &[hex::Corners]) -> (Vec<i64>, VolumeReport) {
    let nodes: Vec<u64> = cells.as_flattened().as_flattened().iter().map(|x| x.to_bits()).collect();
    let numbers: Vec<u32> = (0..8 * cells.len() as u32).collect();
    let mut file = vec![0; 13 + 8 * nodes.len() + 4 * numbers.len()];
    mesh::write(&nodes, &numbers, &mut file).unwrap();
    let mut volumes = vec![77; cells.len() + 1];
    let report = mesh::volume_report(&file, &mut volumes).unwrap();
    assert_eq!(volumes.pop(), Some(77));
    (volumes, report)
}

/// A box at any place, a corner drawn onto another, a block with slanted sides; a mirrored cell and
/// a flat one are not above zero. The total is the same whatever the order.
#[test]
fn exact_volumes() {
    let cube = SIGNS.map(|corner| corner.map(|x| x + 1.));
    let brick = SIGNS.map(|[x, y, z]| [(x + 1.) / 2. - 7., y + 1., (3. * z + 3.) / 2. + 100.]);
    let mut drawn = SIGNS.map(|corner| corner.map(|x| (x + 1.) / 2.));
    drawn[6] = drawn[0];
    let block = [
        [0., 0., 0.],
        [4., 0., 0.],
        [5., 3., 0.],
        [0., 3., 1.],
        [0., 0., 6.],
        [4., 1., 6.],
        [5., 4., 7.],
        [0., 3., 6.],
    ];
    let mirrored = [0, 3, 2, 1, 4, 7, 6, 5].map(|k| cube[k]);
    let flat = cube.map(|[x, y, _]| [x, y, -0.]);
    let mut cells = vec![cube, brick, drawn, block, mirrored, flat];
    let mut wanted = vec![216 * 8, 216 * 6, 54, 16_920, -216 * 8, 0];
    for first in [4, 3, 2, 1, 0, 0] {
        let (volumes, report) = reported(&cells);
        assert_eq!(volumes, wanted);
        assert_eq!(report, VolumeReport { total: 18_270, cells: 6, first: Some(first) });
        cells.rotate_left(1);
        wanted.rotate_left(1);
    }
    let (_, report) = reported(&[cube, brick, drawn, block]);
    assert_eq!(report, VolumeReport { total: 19_998, cells: 4, first: None });
    assert_eq!(reported(&[]), (vec![], VolumeReport { total: 0, cells: 0, first: None }));
}

/// Two points a line are exact to degree three, so that the rounded volume is nearest to the exact
/// one, of folded cells too.
#[test]
fn rounded_volumes() {
    let root = 1. / 3f64.sqrt();
    let mut state = 1u64;
    let mut whole = || {
        state = state.wrapping_mul(6_364_136_223_846_793_005).wrapping_add(1);
        (state >> 33) as i64 % 21 - 10
    };
    let cells: Vec<hex::Corners> =
        (0..128).map(|_| SIGNS.map(|corner| corner.map(|_| whole() as f64))).collect();
    let rounded = |p| (216. * hex::volume(p, &[-root, 1., root, 1.]).unwrap()).round() as i64;
    let (volumes, report) = reported(&cells);
    assert_eq!(volumes, cells.iter().map(rounded).collect::<Vec<_>>());
    assert_eq!((report.total, report.cells), (volumes.iter().sum(), 128));
    assert_eq!(report.first, volumes.iter().position(|volume| *volume <= 0).map(|k| k as u32));
    assert!(volumes.iter().any(|volume| *volume > 0));
}

/// The example of docs/VOLUMES.md: boxes that hold 8, 6 and 1, in two orders.
#[test]
fn a_sum_in_two_orders() {
    let root = 1. / 3f64.sqrt();
    let sides = |a: f64, b: f64, c: f64| {
        SIGNS.map(|[x, y, z]| [a * (x + 1.) / 2., b * (y + 1.) / 2., c * (z + 1.) / 2.])
    };
    let [eight, six, one] = [sides(2., 2., 2.), sides(1., 2., 3.), sides(1., 1., 1.)];
    for (order, sum) in
        [([eight, six, one], 14.999999999999998), ([eight, one, six], 14.999999999999996)]
    {
        let rounded = order.iter().map(|p| hex::volume(p, &[-root, 1., root, 1.]).unwrap());
        assert_eq!(rounded.fold(0., |sum, volume| sum + volume), sum);
        assert_eq!(reported(&order).1.total, 216 * 15);
    }
}

/// Cells that share their nodes: each is read by its own numbers.
#[test]
fn volumes_of_a_file() {
    let nodes = SIGNS.map(|corner| corner.map(|x| (x + 1.).to_bits()));
    let cells = [0, 1, 2, 3, 4, 5, 6, 7, 0, 3, 2, 1, 4, 7, 6, 5];
    let mut file = [0; 269];
    assert_eq!(mesh::write(nodes.as_flattened(), &cells, &mut file), Ok(269));
    let mut volumes = [77; 4];
    let report = VolumeReport { total: 0, cells: 2, first: Some(1) };
    assert_eq!(mesh::volume_report(&file, &mut volumes), Ok(report));
    assert_eq!(volumes, [1728, -1728, 77, 77]);
}
