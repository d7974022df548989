//! Old sessions of every kind carried over, and calls on what they become.

pub mod behind;
pub mod faults;
pub mod ill_formed;
pub mod lists;
pub mod odd;
pub mod old_caller;
pub mod smallest;
pub mod stages;

use crate::case::Case;
use crate::random::Random;

/// Keeps the numbers of these cases apart from those of all others.
const STREAM: u64 = 0x6f6c_645f_7365_7373;

pub fn cases(seed: u64) -> Vec<Case> {
    let random = &mut Random::new(seed ^ STREAM);
    let mut upgrades = stages::upgrades(random);
    upgrades.extend(smallest::upgrades(random));
    upgrades.extend(lists::upgrades(random));
    upgrades.extend(odd::upgrades(random));
    upgrades.extend(ill_formed::upgrades(random));
    let case = |upgrade| Case::Upgrade(Box::new(upgrade));
    upgrades.into_iter().map(case).collect()
}
