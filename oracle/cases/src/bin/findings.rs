//! Prints inputs at which the original behaves in a way that a caller may not expect, with what it
//! answers.

use std::panic;

use cases::cells::triples;
use cases::floats::two_to;
use cases::noted;
use cases::original::{self, Cell, HEX, PRISM, Place, flat};
use reference::{hex, hex_opened, mat3_col_major, prism};

fn main() {
    located_far_from_the_origin();
    located_by_overflow();
    missed_inside();
    missed_on_the_border();
    located_after_wandering();
    missed_when_small();
    rounded_sum();
    inverse_out_of_range();
    volume_zero();
    volume_digits();
    gradient_of_a_flat_cell();
    iso_positions();
    minus_zeros();
    panics();
    face_directions();
}

fn title(text: &str) {
    println!("\n# {text}");
}

/// A cell, what its locator answers, and what can be said about the answer.
fn show<const N: usize>(cell: &Cell<N>, corners: &[Place; N]) {
    println!("corners {corners:?}");
    let places = cell.newton(corners);
    let answer = (cell.locate)(corners);
    println!("  answers {answer:?}");
    match answer {
        Some(at) => println!("  image {:?}", cell.image(corners, &at)),
        None if places.len() < 21 => println!("  zero determinant at step {}", places.len()),
        None => println!("  after 20 steps {:?}", places[20]),
    }
    let (low, high) = determinants(cell, corners);
    println!("  determinant from {low:e} to {high:e} over the cell");
}

fn show_image<const N: usize>(cell: &Cell<N>, corners: &[Place; N], at: &Place) {
    println!("  image of {at:?} is {:?}", cell.image(corners, at));
}

/// The least and the greatest determinant on a grid over the cell, its border included.
fn determinants<const N: usize>(cell: &Cell<N>, corners: &[Place; N]) -> (f64, f64) {
    let steps: Vec<f64> = (0..=24).map(|i| f64::from(i) / 24.0).collect();
    let (mut low, mut high) = (f64::INFINITY, f64::NEG_INFINITY);
    for [r, s, t] in triples(&steps) {
        let at = match N {
            8 => [2.0 * r - 1.0, 2.0 * s - 1.0, 2.0 * t - 1.0],
            _ if r + s <= 1.0 => [r, s, t],
            _ => continue,
        };
        let determinant = cell.volume_determinant(corners, &at);
        low = low.min(determinant);
        high = high.max(determinant);
    }
    (low, high)
}

fn located_far_from_the_origin() {
    title("Some, although the image is far from the origin");
    println!("hex: the cube [-1,0]^3 with corner 6 drawn onto corner 4; Newton goes to and fro");
    show(&HEX, &noted::FOLDED_HEX);
    println!("  last places {:?}", &HEX.newton(&noted::FOLDED_HEX)[17..]);
    let [p0, p1, p2, p3, p4, p5, p6, p7] = &noted::FOLDED_HEX;
    let nearest = hex::nearest_to_origin(p0, p1, p2, p3, p4, p5, p6, p7);
    println!("  so nearest_to_origin answers {nearest:?}");
    println!("hex: two coordinates of a cube moved, the determinant positive, the origin outside");
    show(&HEX, &noted::RESTLESS_HEX);
    println!("prism: two coordinates moved, the determinant positive, the origin outside");
    show(&PRISM, &noted::RESTLESS_PRISM);
}

fn located_by_overflow() {
    title("Some at the start of Newton, wherever a large cell lies: its determinant is infinite");
    show(&HEX, &noted::overflowing(HEX.places));
    show(&PRISM, &noted::overflowing(PRISM.places));
}

fn missed_inside() {
    title("None, although the origin is well inside and the determinant positive");
    show(&HEX, &noted::MISSED_HEX);
    show_image(&HEX, &noted::MISSED_HEX, &noted::MISSED_HEX_PLACE);
    show(&PRISM, &noted::MISSED_PRISM);
    show_image(&PRISM, &noted::MISSED_PRISM, &noted::MISSED_PRISM_PLACE);
}

fn missed_on_the_border() {
    title("None, although the origin is exactly on the border");
    println!("prism of sides 1, 7, 15: the origin is its corner 0");
    show(&PRISM, &noted::prism_missed_at_corner());
    println!("hex, a skewed box: the origin is on a face");
    show(&HEX, &noted::SKEWED_HEX);
    show_image(&HEX, &noted::SKEWED_HEX, &noted::SKEWED_HEX_PLACE);
    println!("hex, a wedge: the origin is on the edge that one face has shrunk to");
    show(&HEX, &noted::wedge());
}

fn located_after_wandering() {
    title("Some, after Newton has been far away");
    show(&HEX, &noted::WANDERING_HEX);
    println!("  farthest coordinate {:e}", farthest(&HEX, &noted::WANDERING_HEX));
    show(&PRISM, &noted::WANDERING_PRISM);
    println!("  farthest coordinate {:e}", farthest(&PRISM, &noted::WANDERING_PRISM));
}

fn farthest<const N: usize>(cell: &Cell<N>, corners: &[Place; N]) -> f64 {
    cell.newton(corners).as_flattened().iter().fold(0.0, |most, x| x.abs().max(most))
}

fn missed_when_small() {
    title("None for a small cube around the origin");
    for half_width in [1e-102, 1e-103, 1e-107, 1e-108] {
        let cube = HEX.places.map(|p| p.map(|x| x * half_width));
        let determinant = HEX.volume_determinant(&cube, &HEX.start);
        println!("half width {half_width:e}: {:?}", original::hex_locate(&cube));
        println!("  determinant at the centre {determinant:e}");
    }
}

fn rounded_sum() {
    title("prism: inside, although r + s is above 1 before it is rounded");
    show(&PRISM, &noted::prism_beyond_face());
    println!("  the floats 0.8 and 0.2 add up to 1 + 2^-54 before rounding");
    show(&PRISM, &noted::prism_beyond_corner());
}

fn inverse_out_of_range() {
    title("try_inverse of diagonal matrices that have an inverse");
    for x in [1e103, 1e155, 1e-103, 1e-105, 1e-109] {
        let m = [x, 0.0, 0.0, 0.0, x, 0.0, 0.0, 0.0, x];
        println!(
            "{x:e}: determinant {:e}, {:?}",
            mat3_col_major::determinant(&m),
            mat3_col_major::try_inverse(&m)
        );
    }
    title("try_inverse of a matrix that has none, rounded");
    let m = [0.1, 0.2, 0.3, 0.4, 0.5, 0.6, 0.7, 0.8, 0.9];
    println!(
        "{m:?}: determinant {:e}, {:?}",
        mat3_col_major::determinant(&m),
        mat3_col_major::try_inverse(&m)
    );
}

fn volume_zero() {
    title("hex volume: minus zero, because std's sum starts there");
    println!("box of half widths -2^-400, 2^-400, 2^-274: turned inside out, tiny");
    let inside_out = HEX.places.map(tiny_and_inside_out);
    for degree in 0..7 {
        println!("  degree {degree}: {:e}", original::hex_volume(&inside_out, degree));
    }
    println!("all corners zero, degree 0: {:e}", original::hex_volume(&[[0.0; 3]; 8], 0));
    title("prism volume: minus zero, because the last product underflows");
    println!("prism of sides -2^-400, 2^-400, 2^-274");
    let inside_out = PRISM.places.map(tiny_and_inside_out);
    for degree in 0..3 {
        println!("  degree {degree}: {:e}", original::prism_volume(&inside_out, degree));
    }
}

fn tiny_and_inside_out([x, y, z]: Place) -> Place {
    [-x * two_to(-400), y * two_to(-400), z * two_to(-274)]
}

fn volume_digits() {
    title("volumes of the straight cells: the tables have 15 digits for a line, 10 for a triangle");
    for degree in 0..7 {
        println!("hex [-1,1]^3, degree {degree}: {:?}", original::hex_volume(&HEX.places, degree));
    }
    for degree in 0..3 {
        println!(
            "prism of volume 1/2, degree {degree}: {:?}",
            original::prism_volume(&PRISM.places, degree)
        );
    }
}

fn gradient_of_a_flat_cell() {
    title("gradients of a flat cell are not refused");
    let flat_cell = HEX.places.map(|[x, y, _]| [x, y, 0.0]);
    let (_, gradients, determinant) = hex::dndx(&flat_cell, 0.0, 0.0, 0.0);
    println!(
        "cube with z = 0 at the centre: determinant {determinant:?}, first {:?}",
        gradients[0]
    );
    println!(
        "  its inverse: {:?}",
        mat3_col_major::try_inverse(&flat(&original::hex_dxdr(&flat_cell, &[0.0; 3])))
    );
}

fn iso_positions() {
    title("positions on a cut edge, nodes 0 and 1");
    for (center, half_width, values) in [
        ([5.0, 5.0, 5.0], 1.0, [-1e308, 1e308]),
        ([5.0, 5.0, 5.0], 1.0, [f64::NEG_INFINITY, 1.0]),
        ([5.0, 5.0, 5.0], 1.0, [-1.0, f64::INFINITY]),
        ([5.0, 5.0, 5.0], 1.0, [-1.0, f64::NAN]),
        ([0.0, -2.0, 0.0], 1.0, [-1.0, 4.0]),
        ([2e15, 0.0, 0.0], 1.0, [-1.0, 26.0]),
    ] {
        let mut position = [0.0; 3];
        hex::iso_position_on_edge(&mut position, center, half_width, 0, 1, values[0], values[1]);
        println!("centre {center:?}, half width {half_width:?}, values {values:?}: {position:?}");
    }
    title("the sign index: NaN and minus zero are not below zero");
    let mut values = [1.0; 8];
    values[0] = f64::NAN;
    values[1] = -1.0;
    values[2] = -0.0;
    let (index, positions) = hex_opened::iso_surface_first_half([0.0; 3], 1.0, &values);
    println!(
        "values {values:?}: index {index}, edge 0 {:?}, edge 1 {:?}, edge 2 {:?}",
        positions[0], positions[1], positions[2]
    );
}

fn minus_zeros() {
    title("minus zeros in slopes and shape values");
    println!("hex dndr at (1,1,1), corner 0: {:?}", hex::dndr(&[1.0, 1.0, 1.0])[0]);
    println!(
        "prism dndr at (0,0,0), corners 1 and 3: {:?}, {:?}",
        prism::dndr(&[0.0; 3])[1],
        prism::dndr(&[0.0; 3])[3]
    );
    println!("prism shapefunc at (0,0,-0): {:?}", prism::shapefunc(&[0.0, 0.0, -0.0]));
}

fn panics() {
    title("panics");
    panic::set_hook(Box::new(|_| {}));
    tell("hex volume, degree 6", || original::hex_volume(&HEX.places, 6));
    tell("hex volume, degree 7", || original::hex_volume(&HEX.places, 7));
    tell("prism volume, degree 2", || original::prism_volume(&PRISM.places, 2));
    tell("prism volume, degree 3", || original::prism_volume(&PRISM.places, 3));
    tell("edge position, node 8", || {
        hex::iso_position_on_edge(&mut [0.0; 3], [0.0; 3], 1.0, 0, 8, -1.0, 1.0)
    });
    tell("gradient, point 1 of 1", || hex::grad_shapefunc(&HEX.places, &[[0.0, 2.0]], 0, 0, 1));
    let _ = panic::take_hook();
}

/// Whether a call answers or panics.
fn tell<T>(text: &str, call: impl FnOnce() -> T + panic::UnwindSafe) {
    let outcome = if panic::catch_unwind(call).is_err() { "panics" } else { "answers" };
    println!("{text}: {outcome}");
}

fn face_directions() {
    title("faces of IDX2NODE: the hex's turn outward, the prism's inward");
    println!("hex {:?}", directions(&HEX.places, &hex::FACE2IDX, &hex::IDX2NODE));
    println!("prism {:?}", directions(&PRISM.places, &prism::FACE2IDX, &prism::IDX2NODE));
}

/// For each face whether its ring, by the right-hand rule, points away from the cell's middle.
fn directions(corners: &[Place], face2idx: &[usize], idx2node: &[usize]) -> Vec<&'static str> {
    use reference::vec3::Vec3;
    let count = corners.len() as f64;
    let middle = corners.iter().fold([0.0; 3], |sum: Place, p| sum.add(p)).scale(1.0 / count);
    face2idx
        .windows(2)
        .map(|range| {
            let ring: Vec<&Place> =
                idx2node[range[0]..range[1]].iter().map(|&n| &corners[n]).collect();
            let normal = ring[1].sub(ring[0]).cross(&ring[2].sub(ring[0]));
            if normal.dot(&ring[0].sub(&middle)) > 0.0 { "outward" } else { "inward" }
        })
        .collect()
}
