//! What is timed: each row has the original's side, or a plain program's, and ours, on the same inputs.

use std::cell::RefCell;
use std::hint::black_box;
use std::rc::Rc;

use cases::answers::{line_table, triangle_table};
use cases::cells::{HEXES, PRISMS, Shape};
use cases::chance::Chance;
use cases::original::{Hex, Place, Prism};
use reference::{hex, hex_opened, prism};

use crate::ours::{self, *};
use crate::plain::{self, Proposal};

/// Calls one side with every input in turn.
pub type Pass = Box<dyn Fn()>;

pub struct Row {
    pub name: &'static str,
    pub against: &'static str,
    pub calls: usize,
    /// What part of a call of theirs one of ours is held against.
    pub part: f64,
    pub theirs: Pass,
    pub ours: Pass,
    /// Stops where the two sides do not agree.
    pub agree: Pass,
}

const INPUTS: usize = 64;
const TOLERANCE: f64 = 1e-9;
const DEGREE: usize = 2;

/// From the start of a cache line, so that a short output lies in one.
#[repr(align(64))]
struct Aligned<T>(T);

/// A side of a row: a function of an input, and a buffer that it may write to.
struct Side<B, F> {
    buffer: RefCell<Aligned<B>>,
    call: F,
}

/// What the original answers, beside the number that ours returns and what it has written.
trait Agrees<B> {
    fn agrees(&self, number: u32, value: &B) -> bool;
}

impl<T: PartialEq> Agrees<T> for T {
    fn agrees(&self, number: u32, value: &T) -> bool {
        number == 0 && self == value
    }
}

impl<T: PartialEq> Agrees<T> for Option<T> {
    fn agrees(&self, number: u32, value: &T) -> bool {
        self.as_ref().map_or(number != 0, |answer| answer.agrees(number, value))
    }
}

/// A row against a function that returns its answer.
fn row<I: 'static, A: Agrees<B> + 'static, B: 'static>(
    name: &'static str,
    against: &'static str,
    inputs: &Rc<[I]>,
    theirs: impl Fn(&I) -> A + 'static,
    empty: B,
    ours: impl Fn(&I, &mut B) -> u32 + 'static,
) -> Row {
    let agree = |theirs: &A, (): &(), number: &u32, value: &B| theirs.agrees(*number, value);
    let kept = (|answer: &A| _ = black_box(answer), |_: &u32| ());
    row_of(name, against, inputs, ((), move |i, _| theirs(i)), (empty, ours), kept, agree)
}

/// A row against a function that returns a number and writes to a buffer, as ours does.
fn row_into<I: 'static, B: Clone + PartialEq + 'static>(
    name: &'static str,
    against: &'static str,
    inputs: &Rc<[I]>,
    empty: B,
    theirs: impl Fn(&I, &mut B) -> u32 + 'static,
    ours: impl Fn(&I, &mut B) -> u32 + 'static,
) -> Row {
    let agree = |number: &u32, one: &B, of_ours: &u32, other: &B| number == of_ours && one == other;
    let kept = |number: &u32| _ = black_box(number);
    row_of(name, against, inputs, (empty.clone(), theirs), (empty, ours), (kept, kept), agree)
}

fn row_of<I: 'static, A: 'static, B: 'static, C: 'static>(
    name: &'static str,
    against: &'static str,
    inputs: &Rc<[I]>,
    theirs: (B, impl Fn(&I, &mut B) -> A + 'static),
    ours: (C, impl Fn(&I, &mut C) -> u32 + 'static),
    kept: (impl Fn(&A) + 'static, impl Fn(&u32) + 'static),
    agree: impl Fn(&A, &B, &u32, &C) -> bool + 'static,
) -> Row {
    let theirs = Rc::new(Side { buffer: RefCell::new(Aligned(theirs.0)), call: theirs.1 });
    let ours = Rc::new(Side { buffer: RefCell::new(Aligned(ours.0)), call: ours.1 });
    let passes = (pass(inputs, &theirs, kept.0), pass(inputs, &ours, kept.1));
    let inputs = Rc::clone(inputs);
    let calls = inputs.len();
    let agree = move || {
        let (one, other) = (&mut theirs.buffer.borrow_mut().0, &mut ours.buffer.borrow_mut().0);
        for input in inputs.iter() {
            let (answer, number) = ((theirs.call)(input, one), (ours.call)(input, other));
            assert!(agree(&answer, one, &number, other), "{name}: the two sides do not agree");
        }
    };
    let (theirs, ours) = passes;
    Row { name, against, calls, part: 1.0, theirs, ours, agree: Box::new(agree) }
}

/// Answers stay where the call has put them, so that nothing but the call is timed. What has to be
/// `kept` is a side's answer: the original's value, beside it our buffer; of two numbers both.
fn pass<I: 'static, B: 'static, A: 'static>(
    inputs: &Rc<[I]>,
    side: &Rc<Side<B, impl Fn(&I, &mut B) -> A + 'static>>,
    kept: impl Fn(&A) + 'static,
) -> Pass {
    let (inputs, side) = (Rc::clone(inputs), Rc::clone(side));
    Box::new(move || {
        let buffer = &mut side.buffer.borrow_mut().0;
        for input in inputs.iter() {
            let answer = (side.call)(black_box(input), buffer);
            kept(&answer);
            black_box(&mut *buffer);
        }
    })
}

// The original's functions, each compiled once and called: ours are behind one call too.

macro_rules! of_hex {
    ($function:path, $p:ident $(, $more:expr)*) => {
        $function(&$p[0], &$p[1], &$p[2], &$p[3], &$p[4], &$p[5], &$p[6], &$p[7] $(, $more)*)
    };
}

macro_rules! of_prism {
    ($function:path, $p:ident $(, $more:expr)*) => {
        $function(&$p[0], &$p[1], &$p[2], &$p[3], &$p[4], &$p[5] $(, $more)*)
    };
}

#[inline(never)]
fn hex_locate(corners: &Hex) -> Option<Place> {
    of_hex!(hex::parametric_coord_for_origin, corners)
}

#[inline(never)]
fn prism_locate(corners: &Prism) -> Option<Place> {
    of_prism!(prism::parametric_coord_for_origin, corners)
}

#[inline(never)]
fn hex_shapefunc(at: &Place) -> [f64; 8] {
    hex::shapefunc(at)
}

#[inline(never)]
fn prism_shapefunc(at: &Place) -> [f64; 6] {
    prism::shapefunc(at)
}

#[inline(never)]
fn hex_dxdr(corners: &Hex, at: &Place) -> [Place; 3] {
    of_hex!(hex::dxdr, corners, at)
}

#[inline(never)]
fn prism_dxdr(corners: &Prism, at: &Place) -> [Place; 3] {
    of_prism!(prism::dxdr, corners, at)
}

#[inline(never)]
fn hex_gradient(corners: &Hex, points: &[[f64; 2]], indices: [u32; 3]) -> Gradient {
    let [i1, i2, i3] = indices.map(|i| i as usize);
    hex::grad_shapefunc(corners, points, i1, i2, i3)
}

#[inline(never)]
fn hex_volume(corners: &Hex, degree: usize) -> f64 {
    of_hex!(hex::volume, corners, degree)
}

#[inline(never)]
fn iso_position((center, i0, i1, [val0, val1]): &Cut, half_width: f64) -> Place {
    let mut at = [0.0; 3];
    let (i0, i1) = (*i0 as usize, *i1 as usize);
    hex::iso_position_on_edge(&mut at, *center, half_width, i0, i1, *val0, *val1);
    at
}

#[inline(never)]
fn iso_edges(center: &Place, half_width: f64, values: &[f64; 8]) -> Edges {
    let (index, positions) = hex_opened::iso_surface_first_half(*center, half_width, values);
    (index as u32, positions)
}

#[inline(never)]
fn hex_subdivide((corner, edge, quad, center): &HexNodes) -> [[u32; 8]; 8] {
    hex::subdivide(corner, edge, quad, *center)
}

#[inline(never)]
fn prism_subdivide((corner, edge, quad): &PrismNodes) -> [[u32; 6]; 8] {
    prism::subdivide(corner, edge, quad)
}

#[inline(never)]
fn prism_volume(corners: &Prism, degree: usize) -> f64 {
    of_prism!(prism::volume, corners, degree)
}

/// The original's locator, and then the check in plain Rust.
fn locate_checked(corners: &Hex) -> Option<Place> {
    hex_locate(corners).filter(|at| plain::check(corners, at, TOLERANCE) == 0)
}

/// An edge that a surface cuts: the cube's centre, the ends and their values.
type Cut = (Place, u32, u32, [f64; 2]);
/// A cube's centre and the values at its corners; the sign index and where its edges are cut.
type Cube = (Place, [f64; 8]);
type Edges = (u32, [Place; 12]);
type HexNodes = ([u32; 8], [u32; 12], [u32; 6], u32);
type PrismNodes = ([u32; 6], [u32; 9], [u32; 3]);

const HALF_WIDTH: f64 = 0.75;
const UNCUT: Edges = (0, [[0.0; 3]; 12]);

fn numbers<const N: usize>(chance: &mut Chance) -> [u32; N] {
    std::array::from_fn(|_| chance.below(1024) as u32)
}

fn floats<const N: usize>(chance: &mut Chance) -> [f64; N] {
    std::array::from_fn(|_| chance.between(-1.0, 1.0))
}

/// A cell with the origin inside, and where the original locates it.
type Located<const N: usize> = ([Place; N], Place);

fn located<const N: usize>(shape: &Shape<N>, chance: &mut Chance) -> Rc<[Located<N>]> {
    let cells = std::iter::repeat_with(|| shape.plain_inside(chance));
    let located = cells.filter_map(|corners| Some((corners, (shape.cell.locate)(&corners)?)));
    located.take(INPUTS).collect()
}

pub fn all() -> Vec<Row> {
    let chance = &mut Chance::new(1);
    let mut rows = locators(chance);
    rows.extend(hexahedron(chance));
    rows.extend(surfaces(chance));
    rows.extend(prism(chance));
    rows.extend(children(chance));
    rows.push(proposals(chance));
    rows.extend(meshes(chance));
    rows.extend(files(chance));
    rows.push(volumes(chance));
    #[cfg(before)]
    rows.extend(earlier(chance));
    rows
}

fn locators(chance: &mut Chance) -> Vec<Row> {
    let hexes = located(&HEXES, chance);
    let inside: Rc<[Hex]> = hexes.iter().map(|(corners, _)| *corners).collect();
    let outside: Rc<[Hex]> = (0..INPUTS).map(|_| HEXES.plain_outside(chance)).collect();
    let prisms: Rc<[Prism]> = (0..INPUTS).map(|_| PRISMS.plain_inside(chance)).collect();
    let beside: Rc<[Prism]> = (0..INPUTS).map(|_| PRISMS.plain_outside(chance)).collect();
    let hex = |p: &Hex, at: &mut Place| isn_hex_parametric_coord_for_origin(p, at);
    let prism = |p: &Prism, at: &mut Place| isn_prism_parametric_coord_for_origin(p, at);
    let checked = |p: &Hex, at: &mut Place| isn_hex_locate_checked(p, TOLERANCE, at);
    let at = [0.0; 3];
    vec![
        row("hex locate, inside", "original", &inside, hex_locate, at, hex),
        row("hex locate, outside", "original", &outside, hex_locate, at, hex),
        row("prism locate, inside", "original", &prisms, prism_locate, at, prism),
        row("prism locate, outside", "original", &beside, prism_locate, at, prism),
        row("checked locate", "original + check", &inside, locate_checked, at, checked),
        newton_step(&hexes),
        row_into(
            "check",
            "plain Rust",
            &hexes,
            (),
            |(corners, at), ()| plain::check(corners, at, TOLERANCE),
            |(corners, at), ()| isn_hex_check(corners, at, TOLERANCE),
        ),
    ]
}

/// The check beside one of the twenty steps of the original's locator.
fn newton_step(inside: &Rc<[Located<8>]>) -> Row {
    let row = row_into(
        "check",
        "a Newton step",
        inside,
        (),
        |(corners, _), ()| u32::from(hex_locate(corners).is_none()),
        |(corners, at), ()| isn_hex_check(corners, at, TOLERANCE),
    );
    Row { part: 1.0 / 20.0, ..row }
}

fn hexahedron(chance: &mut Chance) -> Vec<Row> {
    let cells = located(&HEXES, chance);
    let at_points: Rc<[(Hex, [u32; 3])]> =
        cells.iter().map(|(corners, at)| (*corners, at.map(|x| u32::from(x > 0.0)))).collect();
    let line = line_table(DEGREE).expect("a degree of the original");
    vec![
        row(
            "hex shapefunc",
            "original",
            &cells,
            |(_, at)| hex_shapefunc(at),
            [0.0; 8],
            |(_, at), out| isn_hex_shapefunc(at, out),
        ),
        row(
            "hex dxdr",
            "original",
            &cells,
            |(corners, at)| hex_dxdr(corners, at),
            [[0.0; 3]; 3],
            |(corners, at), out| isn_hex_dxdr(corners, at, out),
        ),
        row(
            "hex gradient",
            "original",
            &at_points,
            |(corners, indices)| hex_gradient(corners, black_box(line), *indices),
            ([[0.0; 3]; 8], 0.0),
            |(corners, indices), out| ours::hex_gradient(corners, black_box(line), *indices, out),
        ),
        row(
            "hex volume",
            "original",
            &cells,
            |(corners, _)| hex_volume(corners, black_box(DEGREE)),
            0.0,
            |(corners, _), out| ours::hex_volume(corners, black_box(line), out),
        ),
    ]
}

/// A surface that cuts a cube.
fn surfaces(chance: &mut Chance) -> Vec<Row> {
    let cuts: Rc<[Cut]> = (0..INPUTS)
        .map(|k| {
            let [i0, i1] = hex::EDGE2NODE[k % 12].map(|i| i as u32);
            (floats(chance), i0, i1, [chance.between(-1.0, 0.0), chance.between(0.0, 1.0)])
        })
        .collect();
    vec![
        row(
            "hex iso position",
            "original",
            &cuts,
            |cut| iso_position(cut, black_box(HALF_WIDTH)),
            [0.0; 3],
            |(center, i0, i1, [val0, val1]), out| {
                let half_width = black_box(HALF_WIDTH);
                isn_hex_iso_position_on_edge(center, half_width, *i0, *i1, *val0, *val1, out)
            },
        ),
        row(
            "hex iso edges",
            "original",
            &cubes(chance),
            |(center, values)| iso_edges(center, black_box(HALF_WIDTH), values),
            UNCUT,
            edges_of,
        ),
        row_into(
            "hex iso mask",
            "a static table",
            &indices(),
            0,
            |index, mask| plain::iso_mask(*index, mask),
            |index, mask| isn_hex_iso_mask(*index, mask),
        ),
    ]
}

fn cubes(chance: &mut Chance) -> Rc<[Cube]> {
    (0..INPUTS).map(|_| (floats(chance), floats(chance))).collect()
}

/// Every sign index.
fn indices() -> Rc<[u32]> {
    (0..256).collect()
}

fn edges_of((center, values): &Cube, (index, positions): &mut Edges) -> u32 {
    isn_hex_iso_edges(center, black_box(HALF_WIDTH), values, index, positions)
}

/// What is worked out otherwise than before, beside an earlier archive.
#[cfg(before)]
fn earlier(chance: &mut Chance) -> Vec<Row> {
    vec![
        row_into(
            "hex iso edges",
            "the archive before",
            &cubes(chance),
            UNCUT,
            |(center, values), (index, positions)| {
                before_isn_hex_iso_edges(center, black_box(HALF_WIDTH), values, index, positions)
            },
            edges_of,
        ),
        row_into(
            "hex iso mask",
            "the archive before",
            &indices(),
            0,
            |index, mask| before_isn_hex_iso_mask(*index, mask),
            |index, mask| isn_hex_iso_mask(*index, mask),
        ),
    ]
}

fn children(chance: &mut Chance) -> Vec<Row> {
    let hexes: Rc<[HexNodes]> = (0..INPUTS)
        .map(|_| (numbers(chance), numbers(chance), numbers(chance), chance.below(1024) as u32))
        .collect();
    let prisms: Rc<[PrismNodes]> =
        (0..INPUTS).map(|_| (numbers(chance), numbers(chance), numbers(chance))).collect();
    vec![
        row(
            "hex subdivide",
            "original",
            &hexes,
            hex_subdivide,
            [[0; 8]; 8],
            |(corner, edge, quad, center), out| isn_hex_subdivide(corner, edge, quad, *center, out),
        ),
        row(
            "prism subdivide",
            "original",
            &prisms,
            prism_subdivide,
            [[0; 6]; 8],
            |(corner, edge, quad), out| isn_prism_subdivide(corner, edge, quad, out),
        ),
    ]
}

fn prism(chance: &mut Chance) -> Vec<Row> {
    let cells = located(&PRISMS, chance);
    let line = line_table(DEGREE).expect("a degree of the original");
    let triangle = triangle_table(DEGREE).expect("a degree of the original");
    vec![
        row(
            "prism shapefunc",
            "original",
            &cells,
            |(_, at)| prism_shapefunc(at),
            [0.0; 6],
            |(_, at), out| isn_prism_shapefunc(at, out),
        ),
        row(
            "prism dxdr",
            "original",
            &cells,
            |(corners, at)| prism_dxdr(corners, at),
            [[0.0; 3]; 3],
            |(corners, at), out| isn_prism_dxdr(corners, at, out),
        ),
        row(
            "prism volume",
            "original",
            &cells,
            |(corners, _)| prism_volume(corners, black_box(DEGREE)),
            0.0,
            |(corners, _), out| {
                ours::prism_volume(corners, black_box(line), black_box(triangle), out)
            },
        ),
    ]
}

/// The number that the C face returns, with the answer written.
fn put<T>(answer: Result<T, u32>, out: &mut T) -> u32 {
    match answer {
        Ok(value) => {
            *out = value;
            0
        }
        Err(number) => number,
    }
}

/// Lists of 256 places: near, too far and outside.
fn proposals(chance: &mut Chance) -> Row {
    let lists: Rc<[(Hex, Vec<Proposal>)]> = (0..8)
        .map(|_| {
            let corners = HEXES.plain_inside(chance);
            let list = (0..256).map(|_| Proposal {
                at: std::array::from_fn(|_| chance.between(-1.02, 1.02)),
                tolerance: chance.between(0.0, 2.0),
            });
            (corners, list.collect())
        })
        .collect();
    row_into(
        "256 proposals",
        "plain Rust",
        &lists,
        ([0; 256], 0),
        |(corners, list), (out, count)| put(plain::check_proposals(corners, list, out), count),
        |(corners, list), (out, count)| ours::check_proposals(corners, list, out, count),
    )
}

/// A node count and cells.
type Mesh = (u32, Vec<u32>);

/// A block of 4 by 4 by 8 cells, its nodes numbered at random.
fn block(chance: &mut Chance) -> Mesh {
    let names = shuffled(chance, 5 * 5 * 9);
    let node = |x: usize, y: usize, z: usize| names[x + 5 * (y + 5 * z)];
    let cells = (0..128).flat_map(|i| {
        let (x, y, z) = (i % 4, i / 4 % 4, i / 16);
        let ring = [(0, 0), (1, 0), (1, 1), (0, 1)];
        std::array::from_fn::<u32, 8, _>(|k| {
            let (dx, dy) = ring[k % 4];
            node(x + dx, y + dy, z + k / 4)
        })
    });
    (225, cells.collect())
}

/// 128 cells that share nothing, so that every search goes to its end.
fn apart(chance: &mut Chance) -> Mesh {
    (1024, shuffled(chance, 1024))
}

fn shuffled(chance: &mut Chance, n: u32) -> Vec<u32> {
    let mut names: Vec<u32> = (0..n).collect();
    for i in (1..names.len()).rev() {
        names.swap(i, chance.below(i as u64 + 1) as usize);
    }
    names
}

fn meshes(chance: &mut Chance) -> Vec<Row> {
    let blocks: Rc<[Mesh]> = (0..4).map(|_| block(chance)).collect();
    let parts: Rc<[Mesh]> = (0..4).map(|_| apart(chance)).collect();
    let in_rust = |n: u32, cells: &[u32], out: &mut [u32], next: &mut u32| {
        put(plain::refine(n, cells, out), next)
    };
    vec![
        refinement("refine a block of 128", "plain C, -O3", &blocks, refine_in_c),
        refinement("refine a block of 128", "plain Rust", &blocks, in_rust),
        refinement("refine 128 apart", "plain C, -O3", &parts, refine_in_c),
        refinement("refine 128 apart", "plain Rust", &parts, in_rust),
    ]
}

fn refinement(
    name: &'static str,
    against: &'static str,
    meshes: &Rc<[Mesh]>,
    theirs: fn(u32, &[u32], &mut [u32], &mut u32) -> u32,
) -> Row {
    row_into(
        name,
        against,
        meshes,
        (vec![0; 8192], 0),
        move |(n, cells), (out, next)| theirs(*n, cells, out, next),
        |(n, cells), (out, next)| ours::refine(*n, cells, out, next),
    )
}

/// Files of 1,024 nodes and 128 cells, and the lists that are read from them.
fn files(chance: &mut Chance) -> Vec<Row> {
    let files: Rc<[Vec<u8>]> = (0..4)
        .map(|_| {
            let mut file = b"HXM\x01\0\0\x04\0\0\x80\0\0\0".to_vec();
            file.extend((0..3072).flat_map(|_| chance.bits().to_le_bytes()));
            file.extend(apart(chance).1.iter().flat_map(|node| node.to_le_bytes()));
            file
        })
        .collect();
    let read = row_into(
        "read a full file",
        "plain Rust",
        &files,
        (vec![0; 3072], vec![0; 1024], [0; 2]),
        |file, (nodes, cells, counts)| put(plain::read(file, nodes, cells), counts),
        |file, (nodes, cells, counts)| ours::read(file, nodes, cells, counts),
    );
    let lists: Rc<[(Vec<u64>, Vec<u32>)]> = files
        .iter()
        .map(|file| {
            let (mut nodes, mut cells) = (vec![0; 3072], vec![0; 1024]);
            plain::read(file, &mut nodes, &mut cells).expect("a good file");
            (nodes, cells)
        })
        .collect();
    let write = row_into(
        "write a full file",
        "plain Rust",
        &lists,
        (vec![0; 28_685], 0),
        |(nodes, cells), (out, length)| put(plain::write(nodes, cells, out), length),
        |(nodes, cells), (out, length)| ours::write(nodes, cells, out, length),
    );
    vec![read, write]
}

/// Files of 1,024 nodes on the grid and 128 cells apart: boxes whose corners are moved a little, so
/// that all are above zero.
fn volumes(chance: &mut Chance) -> Row {
    let files: Rc<[Vec<u8>]> = (0..4)
        .map(|_| {
            let (_, cells) = apart(chance);
            let mut nodes = vec![[0; 3]; 1024];
            for cell in cells.as_chunks::<8>().0 {
                let middle: Place = std::array::from_fn(|_| chance.whole(900));
                for (node, sign) in cell.iter().zip(hex::HEX_SIGN) {
                    let moved = |i| middle[i] + 100.0 * sign[i] + chance.whole(20);
                    nodes[*node as usize] = std::array::from_fn(moved).map(f64::to_bits);
                }
            }
            let mut file = vec![0; 28_685];
            plain::write(nodes.as_flattened(), &cells, &mut file).expect("a good mesh");
            file
        })
        .collect();
    row_into(
        "volumes of a full file",
        "plain Rust",
        &files,
        (vec![0; 128], (0, [0; 2])),
        |file, (volumes, report)| put(plain::volume_report(file, volumes), report),
        |file, (volumes, report)| ours::volume_report(file, volumes, report),
    )
}
