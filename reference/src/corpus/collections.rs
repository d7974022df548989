//! Collection routes: meshes, roots and outputs of every kind.

pub mod apart;
pub mod fields;
pub mod largest;
#[cfg(test)]
pub mod met;
pub mod named;
pub mod no_roots;
pub mod random_ones;
pub mod smallest;
pub mod wrong;

use crate::case::{Case, MOST_ENTRIES};
use crate::mesh::Mesh;
use crate::random::Random;

/// Keeps the numbers of these cases apart from those of all others.
const STREAM: u64 = 0x666f_6c64_5f62_7573;

pub fn cases(seed: u64) -> Vec<Case> {
    let random = &mut Random::new(seed ^ STREAM);
    let mut cases = smallest::cases();
    cases.extend(named::cases(random));
    cases.extend(apart::cases(random));
    cases.extend(no_roots::cases());
    cases.extend(wrong::cases(random));
    cases.extend(fields::cases(random));
    cases.extend(random_ones::cases(random));
    cases.extend(largest::cases(random));
    cases
}

pub fn case(room: usize, root: u8, mesh: &Mesh) -> Case {
    Case::Collection {
        room: room.min(MOST_ENTRIES) as u16,
        root,
        mesh: Box::new(mesh.clone()),
    }
}

/// How many entries a route over all nodes has.
pub fn needed(mesh: &Mesh) -> usize {
    (2 * usize::from(mesh.nodes)).saturating_sub(1)
}
