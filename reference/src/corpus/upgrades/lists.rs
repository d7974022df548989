//! Old sessions that lists of old calls give from a fresh one on the mesh's
//! plan.

use super::super::meshes::partly_filled;
use super::super::scripts::grounds::{largest, middle, parted, small};
use super::super::shapes;
use super::behind::{self, with_calls};
use super::old_caller::OldCaller;
use crate::mesh::{Mesh, MOST_NODES};
use crate::random::Random;
use crate::upgrade::Upgrade;

/// Old calls before the carry-over.
pub type Before = fn(&mut OldCaller);

/// A mesh of a size.
pub type Ground = fn(&mut Random) -> Mesh;

/// How many on small, middle and the largest meshes.
type Times = [usize; 3];

const KINDS: [(Before, behind::Part, Times); 12] = [
    (fresh, behind::cuts, [5, 2, 1]),
    (fresh, behind::jumble, [3, 2, 0]),
    (under_way, behind::deliveries, [24, 8, 1]),
    (under_way, behind::runs, [17, 6, 1]),
    (under_way, behind::waiting, [10, 4, 1]),
    (under_way, behind::jumble, [12, 4, 0]),
    (at_rest, behind::waiting, [26, 8, 2]),
    (at_rest, behind::deliveries, [10, 4, 1]),
    (mended, behind::cuts, [10, 3, 1]),
    (cut_again, behind::deliveries, [10, 4, 1]),
    (jumble, behind::jumble, [14, 5, 1]),
    (jumble, behind::waiting, [8, 3, 0]),
];

pub fn upgrades(random: &mut Random) -> Vec<Upgrade> {
    let grounds: [Ground; 3] = [small, middle, largest];
    let mut upgrades = Vec::new();
    for (before, behind, times) in KINDS {
        for (ground, times) in grounds.into_iter().zip(times) {
            upgrades.extend(many(times, ground, before, behind, random));
        }
    }
    upgrades.extend(many(2, ring, at_rest, behind::waiting, random));
    // Planning refuses these meshes, so all directions are 0.
    upgrades.extend(many(5, parted, jumble, behind::jumble, random));
    upgrades.extend(many(5, parted, at_rest, behind::waiting, random));
    upgrades
}

pub fn many(
    times: usize,
    ground: Ground,
    before: Before,
    part: behind::Part,
    random: &mut Random,
) -> Vec<Upgrade> {
    let mut upgrades = Vec::new();
    for _ in 0..times {
        let mesh = ground(random);
        let mut caller = OldCaller::new(&mesh, random);
        before(&mut caller);
        let old = caller.session;
        upgrades.push(with_calls(old, part, random));
    }
    upgrades
}

/// A ring of 64 nodes, so that a route has 63 links.
fn ring(random: &mut Random) -> Mesh {
    partly_filled(MOST_NODES, &shapes::ring(MOST_NODES), random)
}

fn fresh(_: &mut OldCaller) {}

/// A cut and some deliveries, mostly fewer than lead to rest.
pub fn under_way(caller: &mut OldCaller) {
    caller.cut_any();
    let most = caller.random.below(usize::from(caller.session.count) + 1);
    caller.flood(most);
}

/// A cut and deliveries up to rest, the last ones by a run, and refused calls.
pub fn at_rest(caller: &mut OldCaller) {
    under_way(caller);
    caller.run(u32::MAX);
    caller.hindrance();
}

pub fn mended(caller: &mut OldCaller) {
    at_rest(caller);
    if let Some(link) = caller.session.cut {
        caller.mend(link);
    }
    caller.hindrance();
}

/// Cuts that were mended, and one that stands.
pub fn cut_again(caller: &mut OldCaller) {
    for _ in 0..caller.random.between(1, 3) {
        mended(caller);
    }
    under_way(caller);
}

/// Old calls of all kinds.
pub fn jumble(caller: &mut OldCaller) {
    let times = caller.random.between(4, 40);
    caller.jumble(times);
}
