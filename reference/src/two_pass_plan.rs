//! A plain planner in two passes over the links, to measure the planner
//! against: the first removes each link in turn (21), the second directs them.
//! A link that another one with the same ends stands beside has its arcs in
//! common with that one.

use crate::arcs::nodes_of;
use crate::mesh::{Mesh, MOST_NODES};
use crate::node_set::{all_below, lowest, only, take_lowest, NodeSet, PerNode};
use crate::plan::Plan;
use crate::refusal::{refuse_if, Answer, Reason, Refusal};

/// For each node the nodes that its arcs lead to.
type Leaving = PerNode<NodeSet>;

/// Plans a mesh. A refused plan is all zeros.
pub fn plan(mesh: &Mesh) -> (Plan, Answer) {
    match check(mesh) {
        Ok(leaving) => (directions(mesh, leaving), Ok(())),
        Err(refusal) => (Plan::ZERO, Err(refusal)),
    }
}

/// Order of planning: mesh, 20, 21. Gives every link both ways.
fn check(mesh: &Mesh) -> Result<Leaving, Refusal> {
    mesh.check()?;
    let mut leaving = both_ways(mesh);
    let missing = all_below(mesh.nodes) & !search(&leaving, 0, 0);
    refuse_if(missing != 0, Reason::NoPath, lowest(missing))?;
    for (number, link) in mesh.counted().iter().enumerate() {
        if repeats_before(mesh, number) || repeats_after(mesh, number) {
            continue;
        }
        let (low, high) = nodes_of(link);
        leaving[low] &= !only(high);
        leaving[high] &= !only(low);
        let joined = search(&leaving, low, only(high)) & only(high) != 0;
        refuse_if(!joined, Reason::RemovalParts, number)?;
        leaving[low] |= only(high);
        leaving[high] |= only(low);
    }
    Ok(leaving)
}

fn both_ways(mesh: &Mesh) -> Leaving {
    let mut leaving = [0; MOST_NODES as usize];
    for link in mesh.counted() {
        let (low, high) = nodes_of(link);
        leaving[low] |= only(high);
        leaving[high] |= only(low);
    }
    leaving
}

/// Each link 0 if without its other arc a path still leads from high to low: the
/// arc of a later link with the same ends is such a path.
fn directions(mesh: &Mesh, mut leaving: Leaving) -> Plan {
    let mut plan = Plan::ZERO;
    for (number, link) in mesh.counted().iter().enumerate() {
        if repeats_after(mesh, number) {
            continue;
        }
        let (low, high) = nodes_of(link);
        leaving[high] &= !only(low);
        if search(&leaving, high, only(low)) & only(low) != 0 {
            continue;
        }
        plan.directions[number] = 1;
        leaving[high] |= only(low);
        if !repeats_before(mesh, number) {
            leaving[low] &= !only(high);
        }
    }
    plan
}

/// Whether the link before has the same ends.
fn repeats_before(mesh: &Mesh, number: usize) -> bool {
    number > 0 && mesh.links[number - 1].ends() == mesh.links[number].ends()
}

/// Whether the link after, which the last one does not have, has the same ends.
fn repeats_after(mesh: &Mesh, number: usize) -> bool {
    let next = mesh.counted().get(number + 1);
    next.is_some_and(|next| next.ends() == mesh.links[number].ends())
}

/// The nodes that a node reaches; only those seen so far once one of the goals
/// is among them.
fn search(leaving: &Leaving, from: usize, goals: NodeSet) -> NodeSet {
    let mut seen = only(from);
    let mut open = seen;
    while let Some(node) = take_lowest(&mut open) {
        open |= leaving[node] & !seen;
        seen |= leaving[node];
        if seen & goals != 0 {
            break;
        }
    }
    seen
}
