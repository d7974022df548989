//! Surveys of meshes of every kind, a corpus of their own.

pub mod apart;
pub mod bridged;
pub mod doubled;
pub mod largest;
#[cfg(test)]
pub mod met;
pub mod named;
pub mod random_ones;
pub mod smallest;
pub mod trees;
pub mod wrong;

use super::graphs::Graph;
use super::meshes::plain;
use crate::case::Case;
use crate::mesh::Mesh;
use crate::random::Random;

/// Keeps the numbers of these cases apart from those of all others.
const STREAM: u64 = 0x616c_6c5f_6661_756c;

pub fn cases(seed: u64) -> Vec<Case> {
    let random = &mut Random::new(seed ^ STREAM);
    let mut meshes = smallest::meshes();
    meshes.extend(trees::graphs(random).iter().map(bare));
    meshes.extend(bridged::graphs(random).iter().map(bare));
    meshes.extend(apart::graphs(random).iter().map(bare));
    meshes.extend(doubled::graphs(random).iter().map(bare));
    meshes.extend(named::graphs(random).iter().map(bare));
    meshes.extend(largest::graphs(random).iter().map(bare));
    meshes.extend(random_ones::meshes(random));
    meshes.extend(wrong::meshes(random));
    meshes.into_iter().map(case).collect()
}

pub fn case(mesh: Mesh) -> Case {
    let mesh = Box::new(mesh);
    Case::Survey { mesh }
}

/// Without lengths, fibre pairs and ducts.
fn bare((nodes, shape): &Graph) -> Mesh {
    plain(*nodes, shape)
}
