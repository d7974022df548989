//! The plan: a direction for each link.

use std::ops::Range;

use crate::arcs::Arcs;
use crate::mesh::{Mesh, MOST_LINKS};
use crate::refusal::{Answer, Reason, Refusal};
use crate::tree::Tree;

/// For each link 0 (low to high) or 1 (high to low); 0 past the last link.
#[derive(Clone, Debug, PartialEq, Eq)]
pub struct Plan {
    pub directions: [u8; MOST_LINKS],
}

impl Plan {
    pub const ZERO: Plan = Plan {
        directions: [0; MOST_LINKS],
    };

    /// One digit for each of the first `count` links.
    pub fn digits(&self, count: usize) -> String {
        let directions = self.directions[..count].iter();
        directions.map(u8::to_string).collect()
    }
}

/// Plans a mesh. A refused plan is all zeros.
pub fn plan(mesh: &Mesh) -> (Plan, Answer) {
    match check(mesh) {
        Ok(arcs) => (first_admissible(mesh, arcs), Ok(())),
        Err(refusal) => (Plan::ZERO, Err(refusal)),
    }
}

/// Order of planning: mesh, 20, 21. Gives every link both ways.
fn check(mesh: &Mesh) -> Result<Arcs, Refusal> {
    mesh.check()?;
    let arcs = Arcs::both_ways(mesh.counted());
    let tree = Tree::from_0(arcs.leaving());
    tree.check_nodes(mesh.nodes)?;
    // 21: the place is the lowest link whose removal parts the mesh.
    let is_single = |ends| span_of(mesh, ends).len() == 1;
    if let Some(ends) = tree.lowest_parting(is_single) {
        let link = span_of(mesh, ends).start;
        return Err(Refusal::new(Reason::RemovalParts, link));
    }
    Ok(arcs)
}

/// The numbers of the links with these ends: equal pairs are neighbours.
fn span_of(mesh: &Mesh, (low, high): (u8, u8)) -> Range<usize> {
    let ends = (low.into(), high.into());
    let links = mesh.counted();
    let start = links.partition_point(|link| link.ends() < ends);
    let above = links[start..].iter().position(|link| link.ends() != ends);
    start..above.map_or(links.len(), |count| start + count)
}

/// The first admissible assignment, 0 before 1, link by link. Directions for
/// some links can be completed to an admissible assignment exactly if every
/// node reaches every other along these and the remaining links both ways, and
/// no remaining link's removal parts the mesh (Boesch and Tindell, 1980).
fn first_admissible(mesh: &Mesh, mut arcs: Arcs) -> Plan {
    let mut plan = Plan::ZERO;
    let links = mesh.counted();
    for (number, direction) in plan.directions[..links.len()].iter_mut().enumerate() {
        *direction = arcs.direct(links, number);
    }
    plan
}
