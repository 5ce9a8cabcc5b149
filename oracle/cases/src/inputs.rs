//! Inputs of every function: all the boundary ones in turn, and random ones one at a time.

use reference::hex;

use crate::answers::{line_table, triangle_table};
use crate::cells::{HEXES, PRISMS, Shape, triples};
use crate::chance::Chance;
use crate::floats::{self, MIN_SUBNORMAL, Mood, SPECIALS};
use crate::original::Place;
use crate::words::Input;

pub type Meet<'a> = &'a mut dyn FnMut(Input);

fn given() -> Input {
    Input::default()
}

// Matrices.

/// All matrices of signed zeros and ones, diagonals of special values, one special value among
/// plain ones.
fn boundary_matrices(meet: &mut dyn FnMut([f64; 9])) {
    for code in 0..4usize.pow(9) {
        meet(std::array::from_fn(|i| [0.0, -0.0, 1.0, -1.0][code >> (2 * i) & 3]));
    }
    for [a, b, c] in triples(&SPECIALS) {
        meet([a, 0.0, 0.0, 0.0, b, 0.0, 0.0, 0.0, c]);
        meet([1.0, a, b, 2.0, c, a, 4.0, 3.0, -b]);
    }
    for special in SPECIALS {
        for i in 0..9 {
            let mut m = [1.5, 0.25, -3.0, 0.5, 7.0, 1.0, -2.0, 0.125, 5.0];
            m[i] = special;
            meet(m);
        }
    }
}

fn any_matrix(chance: &mut Chance) -> [f64; 9] {
    let mut m: [f64; 9] = floats::any(chance);
    if chance.one_in(4) {
        let (from, to) = (chance.below(3) as usize, chance.below(3) as usize);
        let times = chance.whole(2);
        for i in 0..3 {
            m[3 * to + i] = m[3 * from + i] * times;
        }
    }
    m
}

pub fn matrices(meet: Meet) {
    boundary_matrices(&mut |m| meet(given().floats(&m)));
}

pub fn matrix(chance: &mut Chance) -> Input {
    given().floats(&any_matrix(chance))
}

pub fn matrices_and_vectors(meet: Meet) {
    let vectors: [Place; 4] =
        [[1.0, -0.0, 0.0], [-0.0, -0.0, -0.0], [0.1, 1e308, -3.0], [f64::INFINITY, 1.0, f64::NAN]];
    let mut count = 0;
    boundary_matrices(&mut |m| {
        count += 1;
        meet(given().floats(&m).floats(&vectors[count % 4]));
    });
    for vector in triples(&SPECIALS) {
        meet(given().floats(&[1.0, -2.0, 0.0, 0.1, -0.0, 4.0, 0.3, 1.0, -1.0]).floats(&vector));
    }
}

pub fn matrix_and_vector(chance: &mut Chance) -> Input {
    given().floats(&floats::any::<12>(chance))
}

// Places in a cell.

pub fn places(meet: Meet) {
    for at in triples(&SPECIALS) {
        meet(given().floats(&at));
    }
}

pub fn hex_place(chance: &mut Chance) -> Input {
    given().floats(&HEXES.any_place(chance))
}

pub fn prism_place(chance: &mut Chance) -> Input {
    given().floats(&PRISMS.any_place(chance))
}

// Cells.

fn boundary_cells<const N: usize>(shape: &Shape<N>, meet: Meet) {
    shape.boundaries(&mut |corners| meet(given().corners(&corners)));
}

/// Every boundary cell at the start of Newton and at one more place, the plain cell at every
/// special place.
fn boundary_cells_and_places<const N: usize>(
    shape: &Shape<N>,
    meet: &mut dyn FnMut([Place; N], Place),
) {
    let mut chance = Chance::new(1);
    shape.boundaries(&mut |corners| {
        meet(corners, shape.cell.start);
        meet(corners, shape.any_place(&mut chance));
    });
    for at in triples(&SPECIALS) {
        meet(shape.unit(), at);
    }
}

/// A cell of a known shape, or floats in any mood.
fn any_corners<const N: usize>(shape: &Shape<N>, chance: &mut Chance) -> [Place; N] {
    if chance.one_in(4) {
        let mood = Mood::any(chance);
        std::array::from_fn(|_| mood.floats(chance))
    } else {
        shape.any(chance)
    }
}

pub fn hex_cells(meet: Meet) {
    boundary_cells(&HEXES, meet);
}

pub fn prism_cells(meet: Meet) {
    boundary_cells(&PRISMS, meet);
}

pub fn hex_cell(chance: &mut Chance) -> Input {
    given().corners(&any_corners(&HEXES, chance))
}

pub fn prism_cell(chance: &mut Chance) -> Input {
    given().corners(&any_corners(&PRISMS, chance))
}

pub fn hex_cells_and_places(meet: Meet) {
    boundary_cells_and_places(&HEXES, &mut |p, at| meet(given().corners(&p).floats(&at)));
}

pub fn prism_cells_and_places(meet: Meet) {
    boundary_cells_and_places(&PRISMS, &mut |p, at| meet(given().corners(&p).floats(&at)));
}

pub fn hex_cell_and_place(chance: &mut Chance) -> Input {
    hex_cell(chance).floats(&HEXES.any_place(chance))
}

pub fn prism_cell_and_place(chance: &mut Chance) -> Input {
    prism_cell(chance).floats(&PRISMS.any_place(chance))
}

pub fn hex_cells_and_slopes(meet: Meet) {
    boundary_cells_and_places(&HEXES, &mut |p, at| {
        meet(given().corners(&p).corners(&hex::dndr(&at)));
    });
}

/// Slopes of a place, or eight times three floats that are slopes of nothing.
pub fn hex_cell_and_slopes(chance: &mut Chance) -> Input {
    let cell = hex_cell(chance);
    if chance.one_in(3) {
        cell.floats(&floats::any::<24>(chance))
    } else {
        cell.corners(&hex::dndr(&HEXES.any_place(chance)))
    }
}

// Lists of points.

/// A list of `length` floats that are neither whole nor alike.
fn plain_list(length: usize) -> Vec<f64> {
    (0..length).map(|i| 0.9 - 0.37 * ((i * 5 % 7) as f64)).collect()
}

/// The original's own points of a line, degrees 0 to 6.
fn line(degree: usize) -> &'static [f64] {
    line_table(degree).expect("degrees 0 to 6").as_flattened()
}

/// The original's own points of a triangle, degrees 0 to 2.
fn triangle(degree: usize) -> &'static [f64] {
    triangle_table(degree).expect("degrees 0 to 2").as_flattened()
}

/// Lists of 1 to 16 points, mostly short ones: a volume takes the cube of their number.
fn any_length(chance: &mut Chance, item: usize) -> usize {
    let points = match chance.below(100) {
        0 => 8 + chance.below(9),
        1..=9 => 4 + chance.below(4),
        _ => 1 + chance.below(3),
    } as usize;
    match chance.below(40) {
        0 => chance.below(60) as usize,
        1 => points * item + 1,
        _ => points * item,
    }
}

fn any_list(
    chance: &mut Chance,
    item: usize,
    table: impl FnOnce(&mut Chance) -> Vec<f64>,
) -> Vec<f64> {
    if chance.one_in(2) {
        return table(chance);
    }
    let length = any_length(chance, item);
    let mood = Mood::any(chance);
    (0..length).map(|_| mood.float(chance)).collect()
}

/// The points of a degree: low degrees often, high ones seldom.
fn any_line_table(chance: &mut Chance) -> Vec<f64> {
    let degree = if chance.one_in(12) { chance.below(7) } else { chance.below(3) };
    line(degree as usize).to_vec()
}

pub fn hex_cells_and_points(meet: Meet) {
    let plain = HEXES.plain_inside(&mut Chance::new(5));
    for length in (0..70).chain([1000, 1001]) {
        meet(given().corners(&HEXES.unit()).list(&plain_list(length)));
        meet(given().corners(&plain).list(&plain_list(length)));
    }
    for table in (0..7).map(line) {
        meet(given().corners(&plain).list(table));
        for nudged in 0..table.len() {
            let mut list = table.to_vec();
            list[nudged] = list[nudged].next_up();
            meet(given().corners(&plain).list(&list));
        }
    }
    for [a, b, c] in triples(&SPECIALS) {
        meet(given().corners(&HEXES.unit()).list(&[a, b]));
        meet(given().corners(&plain).list(&[a, b, 0.5, c]));
    }
    let mut turn = 0;
    HEXES.boundaries(&mut |corners| {
        turn += 1;
        let degree = if turn % 64 == 0 { turn / 64 % 7 } else { turn % 3 };
        meet(given().corners(&corners).list(line(degree)));
    });
    for corners in underflowing_boxes() {
        for table in (0..7).map(line) {
            meet(given().corners(&corners).list(table));
        }
        meet(given().corners(&corners).list(&[0.0, -1.0]));
        meet(given().corners(&corners).list(&[0.0, 0.0, 0.5, -1.0]));
    }
}

/// Boxes, some inside out, whose determinant is at the small end of the floats.
fn underflowing_boxes() -> impl Iterator<Item = [Place; 8]> {
    let small = floats::two_to(-400);
    [floats::two_to(-273), floats::two_to(-274), floats::two_to(-275), -floats::two_to(-274)]
        .into_iter()
        .map(move |last| HEXES.unit().map(|[x, y, z]| [-x * small, y * small, z * last]))
}

pub fn hex_cell_and_points(chance: &mut Chance) -> Input {
    hex_cell(chance).list(&any_list(chance, 2, any_line_table))
}

pub fn hex_cells_points_and_indexes(meet: Meet) {
    let plain = HEXES.plain_inside(&mut Chance::new(5));
    for length in 0..41 {
        let n = length as u32 / 2;
        let indexes = [0, n.wrapping_sub(1), n, n + 1, 16, u32::MAX];
        for indexes in triples(&indexes) {
            meet(given().corners(&plain).list(&plain_list(length)).numbers(&indexes));
        }
    }
    for indexes in triples(&[0, 1, 2, 3, 4, 5]) {
        meet(given().corners(&plain).list(line(3)).numbers(&indexes));
    }
    let mut turn = 0;
    HEXES.boundaries(&mut |corners| {
        turn += 1;
        let indexes = [turn % 3, turn / 3 % 3, turn / 9 % 3];
        meet(given().corners(&corners).list(line(2)).numbers(&indexes));
    });
    for [a, b, c] in triples(&SPECIALS) {
        meet(given().corners(&plain).list(&[a, b, 0.5, c]).numbers(&[0, 1, 0]));
    }
}

pub fn hex_cell_points_and_indexes(chance: &mut Chance) -> Input {
    let list = any_list(chance, 2, any_line_table);
    let n = (list.len() as u64 / 2).max(1);
    let within = if chance.one_in(30) { n + 2 } else { n };
    let indexes: [u32; 3] = std::array::from_fn(|_| match chance.below(200) {
        0 => chance.bits() as u32,
        _ => chance.below(within) as u32,
    });
    hex_cell(chance).list(&list).numbers(&indexes)
}

pub fn prism_cells_and_points(meet: Meet) {
    let plain = PRISMS.plain_inside(&mut Chance::new(5));
    for on_line in (0..42).chain([1000, 1001]) {
        for on_triangle in (0..60).chain([1000, 1001, 1002]) {
            let (on_line, on_triangle) = (plain_list(on_line), plain_list(on_triangle));
            meet(given().corners(&plain).list(&on_line).list(&on_triangle));
        }
    }
    for on_line in (0..7).map(line) {
        for on_triangle in (0..3).map(triangle) {
            meet(given().corners(&plain).list(on_line).list(on_triangle));
            meet(given().corners(&PRISMS.unit()).list(on_line).list(on_triangle));
        }
    }
    for [a, b, c] in triples(&SPECIALS) {
        meet(given().corners(&PRISMS.unit()).list(&[0.0, 2.0]).list(&[a, b, c]));
        meet(given().corners(&plain).list(&[a, b]).list(&[0.25, c, 1.0]));
    }
    let mut turn = 0;
    PRISMS.boundaries(&mut |corners| {
        turn += 1;
        meet(given().corners(&corners).list(line(turn % 3)).list(triangle(turn % 3)));
    });
    for x in [1e-108, -1e-108, MIN_SUBNORMAL, -MIN_SUBNORMAL] {
        let corners = PRISMS.unit().map(|p| [p[0] * x, p[1], p[2]]);
        meet(given().corners(&corners).list(&[0.0, 2.0]).list(&[0.25, 0.25, 1.0]));
        meet(given().corners(&corners).list(&[0.0, 2.0]).list(&[0.25, 0.25, -1.0]));
    }
}

pub fn prism_cell_and_points(chance: &mut Chance) -> Input {
    let cell = prism_cell(chance);
    if chance.one_in(2) {
        let degree = chance.below(3) as usize;
        return cell.list(line(degree)).list(triangle(degree));
    }
    let on_line = any_list(chance, 2, any_line_table);
    let on_triangle = any_list(chance, 3, |chance| triangle(chance.below(3) as usize).to_vec());
    cell.list(&on_line).list(&on_triangle)
}

// Iso surface.

const NODES: [u32; 14] = [0, 1, 2, 3, 4, 5, 6, 7, 8, 9, 100, 256, 1 << 31, u32::MAX];

pub fn edges_of_a_cube(meet: Meet) {
    for i0 in NODES {
        for i1 in NODES {
            for val0 in SPECIALS {
                for val1 in SPECIALS {
                    let input = given().floats(&[0.25, -3.0, 7.0, 0.1]).numbers(&[i0, i1]);
                    meet(input.floats(&[val0, val1]));
                }
            }
        }
    }
    for [center, half_width, value] in triples(&SPECIALS) {
        let input = given().floats(&[center, -center, 1.0, half_width]).numbers(&[3, 6]);
        meet(input.floats(&[value, 2.0]));
    }
    for center in triples(&SPECIALS) {
        let input = given().floats(&center).floats(&[0.5]).numbers(&[0, 1]);
        meet(input.floats(&[-1.0, 3.0]));
    }
}

pub fn edge_of_a_cube(chance: &mut Chance) -> Input {
    let nodes: [u32; 2] = std::array::from_fn(|_| {
        if chance.one_in(40) { chance.bits() as u32 } else { chance.below(8) as u32 }
    });
    let place: [f64; 4] = floats::any(chance);
    let values: [f64; 2] = floats::any(chance);
    given().floats(&place).numbers(&nodes).floats(&values)
}

/// Every way to give eight corners one of four values: all sign patterns, with minus zero and NaN.
pub fn cubes_with_values(meet: Meet) {
    let mut chance = Chance::new(7);
    for four in [
        [-1.5, 2.0, -0.0, f64::NAN],
        [f64::NEG_INFINITY, 0.0, -MIN_SUBNORMAL, 1.0],
        [-f64::MAX, f64::MAX, f64::INFINITY, -1e-3],
    ] {
        for code in 0..4usize.pow(8) {
            let values: [f64; 8] = std::array::from_fn(|i| four[code >> (2 * i) & 3]);
            let place: [f64; 4] = std::array::from_fn(|_| chance.between(-2.0, 2.0));
            meet(given().floats(&place).floats(&values));
        }
    }
    for [center, half_width, value] in triples(&SPECIALS) {
        let values = [value, -1.0, 1.0, -value, 0.5, -0.0, value, -2.0];
        meet(given().floats(&[center, 1.0, -center, half_width]).floats(&values));
    }
}

pub fn cube_with_values(chance: &mut Chance) -> Input {
    let place: [f64; 4] = floats::any(chance);
    let values: [f64; 8] = floats::any(chance);
    given().floats(&place).floats(&values)
}

pub fn sign_indexes(meet: Meet) {
    for index in (0..600).chain((9..32).map(|k| 1 << k)).chain([u32::MAX - 1, u32::MAX]) {
        meet(given().numbers(&[index]));
    }
}

pub fn sign_index(chance: &mut Chance) -> Input {
    let index = match chance.below(4) {
        0 => chance.bits() as u32,
        1 => chance.below(300) as u32,
        _ => chance.below(256) as u32,
    };
    given().numbers(&[index])
}

// Children.

/// Nodes told apart, all alike, and each one marked in turn.
fn node_numbers<const N: usize>(meet: Meet) {
    meet(given().numbers(&std::array::from_fn::<u32, N, _>(|i| i as u32)));
    meet(given().numbers(&std::array::from_fn::<u32, N, _>(|i| u32::MAX - i as u32)));
    for same in [0, 1, u32::MAX, 1 << 31] {
        meet(given().numbers(&[same; N]));
        for marked in 0..N {
            let mut numbers = [same; N];
            numbers[marked] = 77;
            meet(given().numbers(&numbers));
        }
    }
}

fn any_node_numbers<const N: usize>(chance: &mut Chance) -> Input {
    let small = chance.one_in(3);
    given().numbers(&std::array::from_fn::<u32, N, _>(|_| {
        if small { chance.below(64) as u32 } else { chance.bits() as u32 }
    }))
}

pub fn hex_nodes(meet: Meet) {
    node_numbers::<27>(meet);
}

pub fn hex_node(chance: &mut Chance) -> Input {
    any_node_numbers::<27>(chance)
}

pub fn prism_nodes(meet: Meet) {
    node_numbers::<18>(meet);
}

pub fn prism_node(chance: &mut Chance) -> Input {
    any_node_numbers::<18>(chance)
}
