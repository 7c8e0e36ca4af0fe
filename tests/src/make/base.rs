//! Members of document 01's kinds, 1 to 3. The stored runs and the first rows of the benchmark are made
//! of them, so that later kinds change none of these.

use super::{hugging_beams, hugging_columns, hugging_meshes, Random, Record};
use super::{random_beam, random_column, random_mesh};

/// A likely accepted member.
pub fn random_member(random: &Random) -> Record {
    match random.below(5) {
        0..=2 => random_beam(random),
        3 => random_column(random),
        _ => random_mesh(random),
    }
}

/// A member and its neighbours, with loads and lengths at, below and above the figures.
pub fn hugging_members(random: &Random) -> Vec<Record> {
    match random.below(4) {
        0 | 1 => hugging_beams(&random_beam(random)),
        2 => hugging_columns(&random_column(random)),
        _ => hugging_meshes(&random_mesh(random)),
    }
}
