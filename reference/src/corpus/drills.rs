//! Drills: inputs of the program, meshes, and scripts on these meshes.

pub mod inputs;
pub mod meshes;
pub mod scripts;

use crate::case::Case;
use crate::random::Random;

/// Keeps the numbers of these cases apart from those of all others.
const STREAM: u64 = 0x6865_6176_6965_7374;

pub fn cases(seed: u64) -> Vec<Case> {
    let random = &mut Random::new(seed ^ STREAM);
    let mut cases = inputs::cases(random);
    cases.extend(meshes::cases());
    cases.extend(scripts::cases(random));
    cases
}
