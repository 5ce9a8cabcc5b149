//! The original files, compiled as they are.
//!
//! The original root names modules that were not handed over, so this file is the root instead.
//! Two modules are copies that build.rs makes from the unchanged text: `edge3`, with the four
//! functions it lacks, and `hex_opened`, which shows the private items of `hex`.

// Warnings about the original text are not ours to settle.
#![allow(dead_code, unused_imports, unused_doc_comments, clippy::all)]

include!(concat!(env!("OUT_DIR"), "/copies.rs"));

#[path = "../../del-geo-core/src/aabb.rs"]
pub mod aabb;
#[path = "../../del-geo-core/src/aabb2.rs"]
pub mod aabb2;
#[path = "../../del-geo-core/src/aabb3.rs"]
pub mod aabb3;
#[path = "../../del-geo-core/src/hex.rs"]
pub mod hex;
#[path = "../../del-geo-core/src/mat2_col_major.rs"]
pub mod mat2_col_major;
#[path = "../../del-geo-core/src/mat2_sym.rs"]
pub mod mat2_sym;
#[path = "../../del-geo-core/src/mat2x3_col_major.rs"]
pub mod mat2x3_col_major;
#[path = "../../del-geo-core/src/mat3_col_major.rs"]
pub mod mat3_col_major;
#[path = "../../del-geo-core/src/mat3_row_major.rs"]
pub mod mat3_row_major;
#[path = "../../del-geo-core/src/mat3_sym.rs"]
pub mod mat3_sym;
#[path = "../../del-geo-core/src/mat4_col_major.rs"]
pub mod mat4_col_major;
#[path = "../../del-geo-core/src/matn_row_major.rs"]
pub mod matn_row_major;
#[path = "../../del-geo-core/src/prism.rs"]
pub mod prism;
#[path = "../../del-geo-core/src/quad3.rs"]
pub mod quad3;
#[path = "../../del-geo-core/src/quadrature_line.rs"]
pub mod quadrature_line;
#[path = "../../del-geo-core/src/quadrature_tri.rs"]
pub mod quadrature_tri;
#[path = "../../del-geo-core/src/quaternion.rs"]
pub mod quaternion;
#[path = "../../del-geo-core/src/range.rs"]
pub mod range;
#[path = "../../del-geo-core/src/sphere.rs"]
pub mod sphere;
#[path = "../../del-geo-core/src/tet.rs"]
pub mod tet;
#[path = "../../del-geo-core/src/tri2.rs"]
pub mod tri2;
#[path = "../../del-geo-core/src/tri3.rs"]
pub mod tri3;
#[path = "../../del-geo-core/src/vec2.rs"]
pub mod vec2;
#[path = "../../del-geo-core/src/vec3.rs"]
pub mod vec3;
#[path = "../../del-geo-core/src/vec4.rs"]
pub mod vec4;
#[path = "../../del-geo-core/src/vecn.rs"]
pub mod vecn;
