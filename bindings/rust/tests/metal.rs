//! Refining makes no metal: the eight children of a cell hold together what the cell holds. Each
//! mesh goes once round through the archive: it is written, read and refined, each number gets its
//! place, the children are written, and both files are reported. The children's coordinates are
//! times eight, so that every middle is a whole number, and so their volumes are times 512.

use std::array::from_fn;
use std::collections::{BTreeMap, BTreeSet};
use std::sync::LazyLock;

use isnemgul::hex::{self, SIGNS};
use isnemgul::{Point, Refusal, mesh};

/// Where a node stands on the grid.
type Place = [i64; 3];
type Cell = [u32; 8];

const CELL: Cell = [0, 1, 2, 3, 4, 5, 6, 7];
/// With eight times as many children and eight times as fine a grid the limits are just met.
const MOST_CELLS: usize = 16;
const MOST_SIZE: i64 = 128;

#[derive(Debug, PartialEq)]
struct Mesh {
    nodes: Vec<Place>,
    cells: Vec<Cell>,
}

/// What a file reports: 216 times the volume of each cell, and the total.
#[derive(Debug, PartialEq)]
struct Held {
    cells: Vec<i64>,
    total: i64,
}

/// The corner that has these sides.
fn corner(sides: Point) -> usize {
    SIGNS.iter().position(|signs| *signs == sides).unwrap()
}

/// For child i and corner k, at 8 i + k: the corners of the cell that have on each axis the side of
/// corner i or of corner k. Half way between these two each of the eight counts one eighth, and a
/// corner of an edge or a face is among them more than once.
static BETWEEN: LazyLock<[[usize; 8]; 64]> = LazyLock::new(|| {
    let side = |at: usize, way: usize, axis: usize| SIGNS[[at / 8, at % 8][way >> axis & 1]][axis];
    from_fn(|at| from_fn(|way| corner(from_fn(|axis| side(at, way, axis)))))
});

impl Mesh {
    fn file(&self) -> Result<Vec<u8>, Refusal> {
        let nodes = self.nodes.as_flattened().iter().map(|x| (*x as f64).to_bits());
        let (nodes, cells) = (nodes.collect::<Vec<_>>(), self.cells.as_flattened());
        let mut file = vec![0; 13 + 8 * nodes.len() + 4 * cells.len()];
        let length = mesh::write(&nodes, cells, &mut file)?;
        assert_eq!(length as usize, file.len());
        Ok(file)
    }

    fn read(file: &[u8]) -> Mesh {
        let (mut nodes, mut cells) = (vec![0; 3072], vec![0; 1024]);
        let counts = mesh::read(file, &mut nodes, &mut cells).unwrap();
        let nodes = nodes.chunks(3).map(|node| from_fn(|axis| f64::from_bits(node[axis]) as i64));
        let cells = cells.chunks(8).map(|cell| from_fn(|k| cell[k]));
        Mesh {
            nodes: nodes.take(counts.nodes as usize).collect(),
            cells: cells.take(counts.cells as usize).collect(),
        }
    }

    /// The children, eight a cell, and the places of their numbers times eight. What a number is,
    /// a node or the middle of something, is not asked of it: the children that name it say where it
    /// stands, and all of them have to say the same.
    fn refined(&self) -> Result<Mesh, Refusal> {
        let mut numbers = vec![0; 64 * self.cells.len()];
        let n = self.nodes.len() as u32;
        let next = mesh::refine(n, self.cells.as_flattened(), &mut numbers)?;
        let mut places: Vec<Option<Place>> =
            self.nodes.iter().map(|node| Some(node.map(|x| 8 * x))).collect();
        places.resize(next as usize, None);
        for (at, number) in numbers.iter().enumerate() {
            let corners = BETWEEN[at % 64].map(|k| self.nodes[self.cells[at / 64][k] as usize]);
            let place = from_fn(|axis| corners.iter().map(|corner| corner[axis]).sum());
            let known = *places[*number as usize].get_or_insert(place);
            let (cell, child, k) = (at / 64, at / 8 % 8, at % 8);
            assert_eq!(
                known, place,
                "{number} is at two places: cell {cell}, child {child}, corner {k}"
            );
        }
        let unmet = places.iter().position(Option::is_none);
        assert_eq!(unmet, None, "a number that no child names");
        let cells = numbers.chunks(8).map(|child| from_fn(|k| child[k])).collect();
        Ok(Mesh { nodes: places.into_iter().flatten().collect(), cells })
    }
}

fn reported(file: &[u8], cells: usize) -> Held {
    let mut volumes = vec![77; cells];
    let report = mesh::volume_report(file, &mut volumes).unwrap();
    assert_eq!(report.cells as usize, cells);
    Held { cells: volumes, total: report.total }
}

/// What a mesh holds, and what its children hold. The refusals are that it is twisted, or that its
/// children have more nodes than a file can.
fn circle(mesh: &Mesh) -> Result<[Held; 2], Refusal> {
    let file = mesh.file()?;
    let read = Mesh::read(&file);
    assert_eq!(read, *mesh);
    let refined = read.refined()?;
    let parents = reported(&file, mesh.cells.len());
    let children = reported(&refined.file()?, 8 * mesh.cells.len());
    for (cell, (parent, eight)) in parents.cells.iter().zip(children.cells.chunks(8)).enumerate() {
        let together = eight.iter().sum::<i64>();
        assert_eq!(together, 512 * parent, "cell {cell} and its children, of {mesh:?}");
    }
    assert_eq!(children.total, 512 * parents.total, "all cells and all children, of {mesh:?}");
    Ok([parents, children])
}

/// The same numbers in every run.
struct Draw(u64);

impl Draw {
    fn below(&mut self, count: usize) -> usize {
        self.0 = self.0.wrapping_mul(6_364_136_223_846_793_005).wrapping_add(1);
        (self.0 >> 33) as usize % count
    }

    fn of<T: Copy>(&mut self, list: &[T]) -> T {
        list[self.below(list.len())]
    }

    /// A whole number of at most this size.
    fn whole(&mut self, most: i64) -> i64 {
        self.below(2 * most as usize + 1) as i64 - most
    }

    fn place(&mut self) -> Place {
        from_fn(|_| self.whole(MOST_SIZE))
    }
}

/// The 48 ways to lay a cube onto itself, as orders of its corners: axes changed over, then turned
/// round. Those that leave it as it is, and then those that leave it as in a mirror.
static TURNS: LazyLock<[Vec<[usize; 8]>; 2]> = LazyLock::new(|| {
    let axes = [[0, 1, 2], [1, 2, 0], [2, 0, 1], [0, 2, 1], [1, 0, 2], [2, 1, 0]];
    let mut turns = [vec![], vec![]];
    for (order, flips) in (0..48).map(|i| (i / 8, i % 8)) {
        let sign = |i: usize| if flips >> i & 1 == 0 { 1. } else { -1. };
        let turned = |signs: Point| corner(from_fn(|i| sign(i) * signs[axes[order][i]]));
        let hand = (order / 3 + flips.count_ones() as usize) % 2;
        turns[hand].push(SIGNS.map(turned));
    }
    turns
});

fn turned(draw: &mut Draw, cell: Cell, hands: &[usize]) -> Cell {
    let hand = draw.of(hands);
    draw.of(&TURNS[hand]).map(|k| cell[k])
}

/// At most 16 cells in a block, its nodes moved a little or not at all. Each cell is turned, as it is
/// or as in a mirror.
fn block(draw: &mut Draw, hands: &[usize]) -> Mesh {
    let mut shape = [1; 3];
    for axis in 0..3 {
        let cells: usize = shape.iter().product();
        shape[axis] = 1 + draw.below(MOST_CELLS / cells);
    }
    shape.rotate_left(draw.below(3));
    let far = draw.of(&[0, 1, 8]);
    let room = 2 * (MOST_SIZE - far);
    let steps = shape.map(|count| 1 + draw.below(room as usize / count) as i64);
    let ends = shape.map(|count| count + 1);
    let starts: Place = from_fn(|i| {
        let rest = room - steps[i] * shape[i] as i64;
        far - MOST_SIZE + draw.below(rest as usize + 1) as i64
    });
    let nodes = all_below(ends)
        .map(|at| from_fn(|i| starts[i] + steps[i] * at[i] as i64 + draw.whole(far)));
    let nodes = nodes.collect();
    let node = |at: [usize; 3]| (at[0] + ends[0] * (at[1] + ends[1] * at[2])) as u32;
    let cells = all_below(shape).map(|at| {
        let cell = SIGNS.map(|signs| node(from_fn(|i| at[i] + (signs[i] > 0.) as usize)));
        turned(draw, cell, hands)
    });
    Mesh { nodes, cells: cells.collect() }
}

/// All triples below these three, the first runs fastest.
fn all_below([a, b, c]: [usize; 3]) -> impl Iterator<Item = [usize; 3]> {
    (0..a * b * c).map(move |at| [at % a, at / a % b, at / a / b])
}

/// What a cell shares with an earlier one: a bit for each axis on which the shared corners are all on
/// one side. One axis leaves a face, two leave an edge and three a node.
const ALL: &[Option<usize>] = &[Some(0)];
const FACE: &[Option<usize>] = &[Some(1), Some(2), Some(4)];
const EDGE: &[Option<usize>] = &[Some(3), Some(5), Some(6)];
const NODE: &[Option<usize>] = &[Some(7)];
const NOTHING: &[Option<usize>] = &[None];

/// Cells with nodes anywhere. Each shares one of these with an earlier one and is turned, so that a
/// shared face is gone round from another start and the other way too.
fn grown(draw: &mut Draw, count: usize, shares: &[&[Option<usize>]]) -> Mesh {
    let mut mesh = Mesh { nodes: CELL.map(|_| draw.place()).to_vec(), cells: vec![CELL] };
    while mesh.cells.len() < count {
        let (old, at) = (draw.of(&mesh.cells), draw.below(8));
        let kind = draw.of(shares);
        let share = draw.of(kind);
        let shared = |k: usize, axes: usize| {
            (0..3).all(|axis| axes >> axis & 1 == 0 || SIGNS[k][axis] == SIGNS[at][axis])
        };
        let cell = from_fn(|k| {
            if share.is_some_and(|axes| shared(k, axes)) {
                return old[k];
            }
            mesh.nodes.push(draw.place());
            mesh.nodes.len() as u32 - 1
        });
        mesh.cells.push(turned(draw, cell, &[0, 1]));
    }
    mesh
}

fn several(draw: &mut Draw, shares: &[&[Option<usize>]]) -> Mesh {
    let count = 2 + draw.below(7);
    grown(draw, count, shares)
}

/// A box of which two corners have changed places, or twice two.
fn folded(draw: &mut Draw) -> Mesh {
    let steps: Place = from_fn(|_| 1 + draw.below(128) as i64);
    let mut nodes = SIGNS.map(|signs| from_fn(|i| steps[i] * signs[i] as i64));
    for _ in 0..1 + draw.below(2) {
        let k = draw.below(8);
        nodes.swap(k, (k + 1 + draw.below(7)) % 8);
    }
    Mesh { nodes: nodes.to_vec(), cells: vec![CELL] }
}

/// All nodes at one height on some axis.
fn flat(draw: &mut Draw) -> Mesh {
    let mut mesh = several(draw, &[FACE, EDGE, NODE]);
    let (axis, height) = (draw.below(3), draw.whole(MOST_SIZE));
    mesh.nodes.iter_mut().for_each(|node| node[axis] = height);
    mesh
}

/// Nodes with numbers of their own that stand at one place.
fn drawn_together(draw: &mut Draw) -> Mesh {
    let mut mesh = several(draw, &[FACE]);
    for _ in 0..1 + draw.below(2 * mesh.nodes.len()) {
        let (from, to) = (draw.below(mesh.nodes.len()), draw.below(mesh.nodes.len()));
        mesh.nodes[to] = mesh.nodes[from];
    }
    mesh
}

/// All coordinates at the limits: the largest cube, and with any signs.
fn largest(draw: &mut Draw) -> Mesh {
    let mut mesh = several(draw, &[ALL, FACE, EDGE]);
    mesh.nodes.iter_mut().for_each(|node| *node = from_fn(|_| draw.of(&[-MOST_SIZE, MOST_SIZE])));
    if draw.below(2) == 0 {
        mesh.nodes.splice(..8, SIGNS.map(|signs| signs.map(|x| MOST_SIZE * x as i64)));
    }
    mesh
}

/// Any eight of few nodes, in any order. Some such meshes are twisted.
fn any(draw: &mut Draw) -> Mesh {
    let nodes = (0..9 + draw.below(12)).map(|_| draw.place()).collect::<Vec<_>>();
    let mut cells = vec![];
    for _ in 0..2 + draw.below(4) {
        let mut numbers: Vec<u32> = (0..nodes.len() as u32).collect();
        cells.push(from_fn(|_| numbers.swap_remove(draw.below(numbers.len()))));
    }
    Mesh { nodes, cells }
}

fn no_cell(draw: &mut Draw) -> Mesh {
    let count = draw.of(&[0, 1, 8, 40, 1024]);
    Mesh { nodes: (0..count).map(|_| draw.place()).collect(), cells: vec![] }
}

type Make = fn(&mut Draw) -> Mesh;

const KINDS: [(&str, Make); 15] = [
    ("a block", |draw| block(draw, &[0])),
    ("a block, mirrored", |draw| block(draw, &[1])),
    ("a block, both ways round", |draw| block(draw, &[0, 1])),
    ("one cell", |draw| grown(draw, 1, &[])),
    ("folded", folded),
    ("flat", flat),
    ("drawn together", drawn_together),
    ("the largest", largest),
    ("faces shared", |draw| several(draw, &[FACE])),
    ("edges shared", |draw| several(draw, &[EDGE])),
    ("nodes shared", |draw| several(draw, &[NODE])),
    ("nothing shared", |draw| several(draw, &[NOTHING])),
    ("any cells", any),
    ("16 cells", |draw| grown(draw, MOST_CELLS, &[ALL, FACE, FACE, EDGE, NODE, NOTHING])),
    ("no cell", no_cell),
];
const EACH: usize = 140;

/// What is there to be seen in a mesh and in what it and its children hold, however it was made.
fn sights(mesh: &Mesh, parents: &Held, children: &Held) -> BTreeSet<&'static str> {
    let mut seen = BTreeSet::new();
    for (parent, eight) in parents.cells.iter().zip(children.cells.chunks(8)) {
        seen.insert(match parent.signum() {
            -1 => "a cell below zero",
            0 => "a cell of zero",
            _ => "a cell above zero",
        });
        if eight.iter().any(|child| child.signum() == -parent.signum() && *child != 0) {
            seen.insert("a child that takes away");
        }
    }
    for (i, cell) in mesh.cells.iter().enumerate() {
        for other in &mesh.cells[..i] {
            seen.insert(match cell.iter().filter(|node| other.contains(node)).count() {
                0 => "no node shared",
                1 => "one node shared",
                2 => "two nodes shared",
                4 => "four nodes shared",
                8 => "eight nodes shared",
                _ => "another number of nodes shared",
            });
        }
    }
    if mesh.nodes.as_flattened().iter().any(|x| x.abs() == MOST_SIZE) {
        seen.insert("a coordinate at the limit");
    }
    seen
}

#[test]
fn children_hold_what_their_parents_do() {
    let mut draw = Draw(5);
    let (mut made, mut seen) = (BTreeMap::new(), BTreeMap::new());
    for (kind, make) in KINDS.repeat(EACH) {
        let (mesh, [parents, children]) = loop {
            let mesh = make(&mut draw);
            assert!(mesh.cells.len() <= MOST_CELLS);
            match circle(&mesh) {
                Err(Refusal::Twisted) => continue,
                held => break (mesh, held.unwrap()),
            }
        };
        *made.entry(kind).or_insert(0) += 1;
        for sight in sights(&mesh, &parents, &children) {
            *seen.entry(sight).or_insert(0) += 1;
        }
    }
    println!("made: {made:?}\nseen: {seen:?}");
    assert!(made.values().sum::<usize>() >= 2000);
    assert_eq!((made.len(), seen.len()), (KINDS.len(), 11));
    assert!(made.values().chain(seen.values()).all(|count| *count >= 100));
}

/// From 0 to 2 on each axis.
fn cube() -> [Place; 8] {
    SIGNS.map(|signs| signs.map(|x| x as i64 + 1))
}

fn one_cell(nodes: [Place; 8]) -> Mesh {
    Mesh { nodes: nodes.to_vec(), cells: vec![CELL] }
}

fn holds(mesh: &Mesh, parent: i64, children: [i64; 8], together: i64) {
    let held = [
        Held { cells: vec![parent], total: parent },
        Held { cells: children.to_vec(), total: together },
    ];
    assert_eq!(circle(mesh), Ok(held));
}

#[test]
fn a_cube() {
    holds(&one_cell(cube()), 1728, [110_592; 8], 884_736);
}

/// Corner 6 is drawn out, and the child there has most of what is added.
#[test]
fn a_bent_cube() {
    let mut bent = cube();
    bent[6] = [3; 3];
    let mesh = one_cell(bent);
    let children = [120_960, 134_784, 162_432, 134_784, 134_784, 162_432, 203_904, 162_432];
    holds(&mesh, 2376, children, 1_216_512);
    let refined = mesh.refined().unwrap();
    let at = refined.cells[6].map(|number| refined.nodes[number as usize]);
    let stands = [
        [9, 9, 9],
        [18, 10, 10],
        [20, 20, 12],
        [10, 18, 10],
        [10, 10, 18],
        [20, 12, 20],
        [24, 24, 24],
        [12, 20, 20],
    ];
    assert_eq!(at, stands);
}

/// The same at a tenth of its size, where no node is on the grid: the rounded volumes of the children
/// do not add up to the cell's.
#[test]
fn a_rounded_sum_moves() {
    let mut bent = cube().map(|node| node.map(|x| x as f64 / 10.));
    bent[6] = [0.3; 3];
    let root = 1. / 3f64.sqrt();
    let volume = |corners: &[Point; 8]| hex::volume(corners, &[-root, 1., root, 1.]).unwrap();
    let child = |i: usize| {
        let middle = |k: usize, axis: usize| BETWEEN[8 * i + k].map(|corner| bent[corner][axis]);
        from_fn(|k| from_fn(|axis| middle(k, axis).iter().sum::<f64>() / 8.))
    };
    let together = (0..8).fold(0., |sum, i| sum + volume(&child(i)));
    assert_eq!((volume(&bent), together), (0.010999999999999998, 0.010999999999999996));
}

/// Corners 0 and 6 have changed places.
#[test]
fn a_folded_cube() {
    let mut folded = cube();
    folded.swap(0, 6);
    let mut children = [-41_472; 8];
    (children[0], children[6]) = (-96_768, -96_768);
    holds(&one_cell(folded), -864, children, -442_368);
}

#[test]
fn a_flat_cube() {
    holds(&one_cell(cube().map(|[x, y, _]| [x, y, 0])), 0, [0; 8], 0);
}

fn two_cells() -> Mesh {
    let nodes = vec![
        [-5, -4, -4],
        [0, -3, 5],
        [-1, -1, 4],
        [-2, 4, -5],
        [4, 5, -3],
        [1, 5, 1],
        [3, 0, 3],
        [2, 3, -1],
        [-5, -5, 0],
        [2, 0, 1],
        [1, 3, -3],
        [3, -3, -2],
    ];
    Mesh { nodes, cells: vec![CELL, [1, 8, 9, 2, 5, 11, 10, 6]] }
}

/// The middle of the face that they share, 1 2 6 5, is number 26.
#[test]
fn two_cells_with_a_face() {
    let mesh = two_cells();
    let [parents, children] = circle(&mesh).unwrap();
    assert_eq!((parents.total, children.total), (-5724, -2_930_688));
    assert_eq!((parents.cells.len(), children.cells.len()), (2, 16));
    let refined = mesh.refined().unwrap();
    let middle = from_fn(|axis| {
        2 * [1, 2, 6, 5].map(|node: usize| mesh.nodes[node][axis]).iter().sum::<i64>()
    });
    assert_eq!((refined.cells[1][6], refined.cells[8][7]), (26, 26));
    assert_eq!(refined.nodes[26], middle);
}

/// The second cell in every turn, either first: the face is gone round from each start, either way.
/// A cell as in a mirror holds as much below zero.
#[test]
fn a_face_in_every_turn() {
    let [first, second]: [i64; 2] = circle(&two_cells()).unwrap()[0].cells[..].try_into().unwrap();
    for (hand, sign) in [(0, 1), (1, -1)] {
        for turn in &TURNS[hand] {
            let mut mesh = two_cells();
            mesh.cells[1] = turn.map(|k| mesh.cells[1][k]);
            for wanted in [[first, sign * second], [sign * second, first]] {
                assert_eq!(circle(&mesh).unwrap()[0].cells, wanted);
                assert_eq!(mesh.refined().unwrap().nodes.len(), 45);
                mesh.cells.reverse();
            }
        }
    }
    assert_eq!(TURNS.each_ref().map(Vec::len), [24, 24]);
}

/// Sixteen cells that share nothing, and nodes that no cell uses, as many as there can be: the
/// children's file is the longest there is. With one node more it cannot be written.
#[test]
fn the_longest_file() {
    let mut draw = Draw(16);
    let mut mesh = grown(&mut draw, MOST_CELLS, &[NOTHING]);
    mesh.nodes.resize_with(1024 - 19 * MOST_CELLS, || draw.place());
    circle(&mesh).unwrap();
    assert_eq!(mesh.refined().unwrap().file().unwrap().len(), 28_685);
    mesh.nodes.push([0; 3]);
    assert_eq!(circle(&mesh), Err(Refusal::Limit));
}
