//! The carried functions, one row each. A later function is a further row.

use crate::answers::{self, Answer};
use crate::chance::Chance;
use crate::inputs::{self, Meet};
use crate::words::{Input, Reader};

pub struct Row {
    /// The C name.
    pub name: &'static str,
    /// What the original answers.
    pub answer: fn(&mut Reader) -> Answer,
    /// All boundary inputs in turn.
    pub boundaries: fn(Meet),
    /// One random input.
    pub random: fn(&mut Chance) -> Input,
}

macro_rules! rows {
    ($($name:ident $boundaries:ident $random:ident;)*) => {
        [$(Row {
            name: concat!("isn_", stringify!($name)),
            answer: answers::$name,
            boundaries: inputs::$boundaries,
            random: inputs::$random,
        }),*]
    };
}

/// A function's number in the stored sample is its place here, from 1.
pub const ROWS: [Row; 22] = rows! {
    mat3_transpose matrices matrix;
    mat3_mult_vec matrices_and_vectors matrix_and_vector;
    mat3_determinant matrices matrix;
    mat3_try_inverse matrices matrix;
    hex_shapefunc places hex_place;
    hex_dndr places hex_place;
    hex_dxdr hex_cells_and_places hex_cell_and_place;
    hex_grad_shapefunc_from_dndr hex_cells_and_slopes hex_cell_and_slopes;
    hex_dndx hex_cells_and_places hex_cell_and_place;
    hex_grad_shapefunc hex_cells_points_and_indexes hex_cell_points_and_indexes;
    hex_volume hex_cells_and_points hex_cell_and_points;
    hex_parametric_coord_for_origin hex_cells hex_cell;
    hex_iso_position_on_edge edges_of_a_cube edge_of_a_cube;
    hex_iso_edges cubes_with_values cube_with_values;
    hex_iso_mask sign_indexes sign_index;
    hex_subdivide hex_nodes hex_node;
    prism_shapefunc places prism_place;
    prism_dndr places prism_place;
    prism_dxdr prism_cells_and_places prism_cell_and_place;
    prism_volume prism_cells_and_points prism_cell_and_points;
    prism_parametric_coord_for_origin prism_cells prism_cell;
    prism_subdivide prism_nodes prism_node;
};

impl Row {
    /// The original's answer to an input, which has to be read to its end.
    pub fn answer_to(&self, input: &Input) -> Answer {
        let mut reader = Reader::new(&input.0);
        let answer = (self.answer)(&mut reader);
        assert!(reader.is_done(), "{} leaves words unread", self.name);
        answer
    }

    /// A word of this function's answer as it is compared: all NaNs one, and for the hex volume
    /// alone the two zeros one, because the original's sum starts at minus zero.
    pub fn canonical(&self, word: u64) -> u64 {
        if self.name == "isn_hex_volume" && f64::from_bits(word) == 0.0 {
            return 0;
        }
        crate::words::canonical(word)
    }
}
