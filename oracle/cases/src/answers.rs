//! What the original answers to an input, with the refusals of document 01 where it would panic
//! or say None.

use reference::{hex, hex_opened, mat3_col_major, prism, quadrature_line, quadrature_tri};

use crate::original::{self, Cell, HEX, PRISM, Place};
use crate::words::{Reader, canonical};

const FLAT: u32 = 1;
const OUTSIDE: u32 = 2;
const TOO_MANY_OR_NONE: u32 = 7;
const NOT_WHOLE: u32 = 8;
const OUT_OF_RANGE: u32 = 9;

/// Zero and the outputs in the order of the C arguments, or a refusal's number and nothing.
#[derive(Clone)]
pub struct Answer {
    pub outcome: u32,
    pub words: Vec<u64>,
}

impl Answer {
    fn refused(number: u32) -> Answer {
        Answer { outcome: number, words: Vec::new() }
    }

    fn floats(values: &[f64]) -> Answer {
        Answer { outcome: 0, words: Vec::new() }.then(values)
    }

    fn numbers(values: &[u32]) -> Answer {
        Answer { outcome: 0, words: values.iter().map(|&n| u64::from(n)).collect() }
    }

    fn then(mut self, values: &[f64]) -> Answer {
        self.words.extend(values.iter().map(|x| x.to_bits()));
        self
    }
}

pub fn mat3_transpose(given: &mut Reader) -> Answer {
    Answer::floats(&mat3_col_major::transpose(&given.floats::<9>()))
}

pub fn mat3_mult_vec(given: &mut Reader) -> Answer {
    let a: [f64; 9] = given.floats();
    Answer::floats(&mat3_col_major::mult_vec(&a, &given.floats()))
}

pub fn mat3_determinant(given: &mut Reader) -> Answer {
    Answer::floats(&[mat3_col_major::determinant(&given.floats::<9>())])
}

pub fn mat3_try_inverse(given: &mut Reader) -> Answer {
    match mat3_col_major::try_inverse(&given.floats::<9>()) {
        Some(inverse) => Answer::floats(&inverse),
        None => Answer::refused(FLAT),
    }
}

pub fn hex_shapefunc(given: &mut Reader) -> Answer {
    Answer::floats(&hex::shapefunc(&given.floats()))
}

pub fn hex_dndr(given: &mut Reader) -> Answer {
    Answer::floats(hex::dndr(&given.floats()).as_flattened())
}

pub fn hex_dxdr(given: &mut Reader) -> Answer {
    Answer::floats(original::hex_dxdr(&given.corners(), &given.floats()).as_flattened())
}

pub fn hex_grad_shapefunc_from_dndr(given: &mut Reader) -> Answer {
    let corners = given.corners();
    let (dndx, detjac) = hex::grad_shapefunc_from_dndr(&corners, &given.corners());
    Answer::floats(dndx.as_flattened()).then(&[detjac])
}

pub fn hex_dndx(given: &mut Reader) -> Answer {
    let corners = given.corners();
    let [r0, r1, r2] = given.floats();
    let (shape, dndx, detjac) = hex::dndx(&corners, r0, r1, r2);
    Answer::floats(&shape).then(dndx.as_flattened()).then(&[detjac])
}

pub fn hex_grad_shapefunc(given: &mut Reader) -> Answer {
    let corners = given.corners();
    let list = given.list();
    let [i1, i2, i3] = given.numbers().map(|i: u32| i as usize);
    if let Some(number) = refusal_of_lists(&[(list.len(), 2)]) {
        return Answer::refused(number);
    }
    let points = items::<2>(&list);
    if [i1, i2, i3].iter().any(|&i| i >= points.len()) {
        return Answer::refused(OUT_OF_RANGE);
    }
    let (dndx, detwei) = hex::grad_shapefunc(&corners, &points, i1, i2, i3);
    Answer::floats(dndx.as_flattened()).then(&[detwei])
}

pub fn hex_volume(given: &mut Reader) -> Answer {
    let corners = given.corners();
    let list = given.list();
    if let Some(number) = refusal_of_lists(&[(list.len(), 2)]) {
        return Answer::refused(number);
    }
    let points = items::<2>(&list);
    let restated = restated_hex_volume(&corners, &points);
    let degree = points.len() - 1;
    if line_table(degree).is_some_and(|table| are_same(table, &points)) {
        return table_volume(original::hex_volume(&corners, degree), restated);
    }
    Answer::floats(&[restated])
}

pub fn hex_parametric_coord_for_origin(given: &mut Reader) -> Answer {
    located(&HEX, &given.corners())
}

pub fn hex_iso_position_on_edge(given: &mut Reader) -> Answer {
    let center = given.floats();
    let half_width = given.float();
    let [i0, i1] = given.numbers().map(|i: u32| i as usize);
    let [val0, val1] = given.floats();
    if i0 > 7 || i1 > 7 {
        return Answer::refused(OUT_OF_RANGE);
    }
    let mut position = [0.0; 3];
    hex::iso_position_on_edge(&mut position, center, half_width, i0, i1, val0, val1);
    Answer::floats(&position)
}

pub fn hex_iso_edges(given: &mut Reader) -> Answer {
    let center = given.floats();
    let half_width = given.float();
    let values = given.floats();
    let (index, positions) = hex_opened::iso_surface_first_half(center, half_width, &values);
    Answer::numbers(&[index as u32]).then(positions.as_flattened())
}

pub fn hex_iso_mask(given: &mut Reader) -> Answer {
    match hex_opened::iso_edge().get(given.number() as usize) {
        Some(&mask) => Answer::numbers(&[mask as u32]),
        None => Answer::refused(OUT_OF_RANGE),
    }
}

pub fn hex_subdivide(given: &mut Reader) -> Answer {
    let (corner, edge, quad, center) =
        (given.numbers(), given.numbers(), given.numbers(), given.number());
    Answer::numbers(hex::subdivide(&corner, &edge, &quad, center).as_flattened())
}

pub fn prism_shapefunc(given: &mut Reader) -> Answer {
    Answer::floats(&prism::shapefunc(&given.floats()))
}

pub fn prism_dndr(given: &mut Reader) -> Answer {
    Answer::floats(prism::dndr(&given.floats()).as_flattened())
}

pub fn prism_dxdr(given: &mut Reader) -> Answer {
    Answer::floats(original::prism_dxdr(&given.corners(), &given.floats()).as_flattened())
}

pub fn prism_volume(given: &mut Reader) -> Answer {
    let corners = given.corners();
    let (line, triangle) = (given.list(), given.list());
    if let Some(number) = refusal_of_lists(&[(line.len(), 2), (triangle.len(), 3)]) {
        return Answer::refused(number);
    }
    let (line, triangle) = (items::<2>(&line), items::<3>(&triangle));
    let restated = restated_prism_volume(&corners, &line, &triangle);
    let degree = line.len() - 1;
    if line_table(degree).is_some_and(|table| are_same(table, &line))
        && triangle_table(degree).is_some_and(|table| are_same(table, &triangle))
    {
        return table_volume(original::prism_volume(&corners, degree), restated);
    }
    Answer::floats(&[restated])
}

pub fn prism_parametric_coord_for_origin(given: &mut Reader) -> Answer {
    located(&PRISM, &given.corners())
}

pub fn prism_subdivide(given: &mut Reader) -> Answer {
    let (corner, edge, quad) = (given.numbers(), given.numbers(), given.numbers());
    Answer::numbers(prism::subdivide(&corner, &edge, &quad).as_flattened())
}

/// The original's coordinate, or which of the two refusals its None is: flat exactly when Newton,
/// gone through again, meets a matrix without inverse.
fn located<const N: usize>(cell: &Cell<N>, corners: &[Place; N]) -> Answer {
    let places = cell.newton(corners);
    match (cell.locate)(corners) {
        Some(at) => {
            assert_eq!(places.len(), 21, "Newton gone through again stops early: {corners:?}");
            assert!(are_same(&[at], &places[20..]), "Newton gone through again: {corners:?}");
            Answer::floats(&at)
        }
        None if places.len() < 21 => Answer::refused(FLAT),
        None => Answer::refused(OUTSIDE),
    }
}

/// The refusal of lists of points, each with its length and how many floats make an item.
fn refusal_of_lists(lists: &[(usize, usize)]) -> Option<u32> {
    if lists.iter().any(|(length, item)| length % item != 0) {
        return Some(NOT_WHOLE);
    }
    if lists.iter().any(|(length, item)| !(1..=16).contains(&(length / item))) {
        return Some(TOO_MANY_OR_NONE);
    }
    None
}

fn items<const N: usize>(list: &[f64]) -> Vec<[f64; N]> {
    list.as_chunks().0.to_vec()
}

/// The original's own points of a line; a degree above 6 has none.
pub fn line_table(degree: usize) -> Option<&'static [[f64; 2]]> {
    use quadrature_line::QuadratureLine;
    (degree < 7).then(|| quadrature_line::Quad::<f64>::hoge(degree))
}

/// The original's own points of a triangle; a degree above 2 has none.
pub fn triangle_table(degree: usize) -> Option<&'static [[f64; 3]]> {
    use quadrature_tri::QuadratureTri;
    (degree < 3).then(|| quadrature_tri::Quad::<f64>::hoge(degree))
}

fn are_same<const N: usize>(a: &[[f64; N]], b: &[[f64; N]]) -> bool {
    let words = |list: &[[f64; N]]| -> Vec<u64> {
        list.as_flattened().iter().map(|x| canonical(x.to_bits())).collect()
    };
    words(a) == words(b)
}

/// The original's volume with its own points; ours, with the same points, has to be equal to it.
fn table_volume(original: f64, restated: f64) -> Answer {
    let equal = original == restated || (original.is_nan() && restated.is_nan());
    assert!(equal, "the restated volume {restated:e} is not the original's {original:e}");
    Answer::floats(&[original])
}

/// Document 01's order for any points: three indices, the last one fastest, from plus zero.
fn restated_hex_volume(corners: &[Place; 8], points: &[[f64; 2]]) -> f64 {
    let mut volume = 0.0;
    for [r0, w0] in points {
        for [r1, w1] in points {
            for [r2, w2] in points {
                let determinant = HEX.volume_determinant(corners, &[*r0, *r1, *r2]);
                volume += determinant * (w0 * w1 * w2);
            }
        }
    }
    volume
}

/// Document 01's order for any points: line points outer, triangle points inner, from plus zero.
fn restated_prism_volume(corners: &[Place; 6], line: &[[f64; 2]], triangle: &[[f64; 3]]) -> f64 {
    let mut volume = 0.0;
    for [l, line_weight] in line {
        for [r, s, triangle_weight] in triangle {
            let determinant = PRISM.volume_determinant(corners, &[*r, *s, (l + 1.0) * 0.5]);
            volume += determinant * (line_weight * triangle_weight);
        }
    }
    volume * 0.25
}
