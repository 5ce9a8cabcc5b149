//! Makes the two copies that need more than the unchanged text, in the build's own folder.

use std::path::Path;
use std::{env, fs};

const ORIGINAL: &str = "../del-geo-core/src";

/// The functions that other files call and edge3.rs does not have. Nothing in scope calls them.
const EDGE3_LACKS: &str = "
pub fn nearest_to_origin3<T>(_p0: &[T; 3], _p1: &[T; 3]) -> ([T; 3], T, T) {
    unimplemented!(\"edge3.rs has no nearest_to_origin3\")
}

pub fn nearest_to_point3<T>(_p0: &[T; 3], _p1: &[T; 3], _point_pos: &[T; 3]) -> (T, T) {
    unimplemented!(\"edge3.rs has no nearest_to_point3\")
}

pub fn squared_distance_against_point<T>(_p0: &[T; 3], _p1: &[T; 3], _point_pos: &[T; 3]) -> T {
    unimplemented!(\"edge3.rs has no squared_distance_against_point\")
}

pub fn squared_distance_against_edge<T>(_p0: &[T; 3], _p1: &[T; 3], _q0: &[T; 3], _q1: &[T; 3]) -> T {
    unimplemented!(\"edge3.rs has no squared_distance_against_edge\")
}
";

const ISO_EDGE_SHOWN: &str = "
pub fn iso_edge() -> &'static [i32; 256] {
    &ISO_EDGE
}
";

const ISO_SURFACE_HEAD: &str = "
pub fn iso_surface(
    tri2xyz: &mut Vec<[f64; 3]>,
    center: [f64; 3],
    half_width: f64,
    corner_value: &[f64; 8],
) {
";

const ISO_SURFACE_TRIANGLES: &str = "
    let ti = &ISO_TRI[cubeindex];
";

const FIRST_HALF_HEAD: &str = "
pub fn iso_surface_first_half(
    center: [f64; 3],
    half_width: f64,
    corner_value: &[f64; 8],
) -> (usize, [[f64; 3]; 12]) {
";

const FIRST_HALF_END: &str = "
    (cubeindex, vert_list)
}
";

fn main() {
    println!("cargo:rerun-if-changed=build.rs");
    let hex = original("hex.rs");
    let edge3 = original("edge3.rs") + EDGE3_LACKS;
    let hex_opened = format!("{hex}{ISO_EDGE_SHOWN}{}", first_half_of_iso_surface(&hex));
    write("edge3.rs", &edge3);
    write("hex_opened.rs", &hex_opened);
    write(
        "copies.rs",
        "#[path = \"edge3.rs\"]\npub mod edge3;\n#[path = \"hex_opened.rs\"]\npub mod hex_opened;\n",
    );
}

/// The text of `iso_surface` up to its triangles, answering what it has worked out so far.
fn first_half_of_iso_surface(hex: &str) -> String {
    let (_, from_body) = split_at_only(hex, ISO_SURFACE_HEAD);
    let (body, _) = split_at_only(from_body, ISO_SURFACE_TRIANGLES);
    format!("{FIRST_HALF_HEAD}{body}{FIRST_HALF_END}")
}

/// What stands before and after the one place where `mark` stands.
fn split_at_only<'a>(text: &'a str, mark: &str) -> (&'a str, &'a str) {
    let places = text.matches(mark).count();
    assert_eq!(places, 1, "hex.rs holds this text {places} times, not once:{mark}");
    text.split_once(mark).unwrap()
}

fn original(name: &str) -> String {
    let path = Path::new(ORIGINAL).join(name);
    println!("cargo:rerun-if-changed={}", path.display());
    fs::read_to_string(&path).unwrap_or_else(|e| panic!("{}: {e}", path.display()))
}

fn write(name: &str, text: &str) {
    let folder = env::var("OUT_DIR").expect("cargo sets OUT_DIR");
    fs::write(Path::new(&folder).join(name), text).unwrap_or_else(|e| panic!("{name}: {e}"));
}
