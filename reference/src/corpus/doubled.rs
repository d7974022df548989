//! Cases about several links between the same nodes: of every kind but those of
//! drills, in the order of the kinds.

pub mod books;
pub mod collections;
pub mod graphs;
pub mod grounds;
pub mod listings;
pub mod orders;
pub mod planning;
pub mod queries;
pub mod records;
pub mod scripts;
pub mod two_links;
pub mod upgrades;

use crate::case::Case;
use crate::random::Random;

/// Keeps the numbers of these cases apart from those of all others.
const STREAM: u64 = 0x7477_6f5f_6669_6272;

pub fn cases(seed: u64) -> Vec<Case> {
    let random = &mut Random::new(seed ^ STREAM);
    let mut cases = books::cases(random);
    cases.extend(records::cases(random));
    cases.extend(planning::cases(random));
    cases.extend(scripts::cases(random));
    cases.extend(listings::cases(random));
    cases.extend(upgrades::cases(random));
    cases.extend(queries::cases(random));
    cases.extend(collections::cases(random));
    cases
}
