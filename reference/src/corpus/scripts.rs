//! Scripts: lists of calls on sessions of every kind.

pub mod caller;
pub mod examples;
pub mod exercise;
pub mod faults;
pub mod grounds;
pub mod ill_formed;
pub mod lengths;
pub mod lists;
pub mod long_lists;
pub mod numbers;
pub mod odd;
pub mod odd_lengths;
pub mod plans;
pub mod smallest;
pub mod sweeps;
pub mod wavelengths;

use crate::case::Case;
use crate::random::Random;

pub fn cases(random: &mut Random) -> Vec<Case> {
    let mut scripts = examples::scripts();
    scripts.extend(exercise::scripts());
    scripts.extend(lists::scripts(random));
    scripts.extend(plans::scripts(random));
    scripts.extend(ill_formed::scripts(random));
    scripts.extend(odd::scripts(random));
    scripts.extend(smallest::scripts(random));
    scripts.extend(sweeps::scripts(random));
    scripts.extend(wavelengths::scripts(random));
    scripts.extend(lengths::scripts(random));
    scripts.extend(odd_lengths::scripts(random));
    scripts.extend(long_lists::scripts(random));
    scripts.into_iter().map(Case::Script).collect()
}
