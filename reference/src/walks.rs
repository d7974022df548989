//! Walks along arcs by the plainest means, to check the planner and the survey
//! with.

use crate::mesh::{Link, Mesh, MOST_NODES};
use crate::node_set::PerNode;

/// From one node to another.
pub type Arc = (u8, u8);

/// The link's arc in direction 0 (low to high) or 1 (high to low).
pub fn arc(link: &Link, direction: u8) -> Arc {
    match direction {
        0 => (link.low, link.high),
        _ => (link.high, link.low),
    }
}

/// Both arcs of each of these links.
pub fn both_ways<'a>(links: impl Iterator<Item = &'a Link>) -> Vec<Arc> {
    links
        .flat_map(|link| [arc(link, 0), arc(link, 1)])
        .collect()
}

/// The lowest node that no walk from node 0 meets.
pub fn lowest_unmet(mesh: &Mesh, arcs: &[Arc]) -> Option<u8> {
    let met = met_from(0, arcs);
    (0..mesh.nodes).find(|node| !met[usize::from(*node)])
}

/// Which nodes a walk from this one meets, itself among them.
pub fn met_from(node: u8, arcs: &[Arc]) -> PerNode<bool> {
    let mut met = [false; MOST_NODES as usize];
    met[usize::from(node)] = true;
    let mut grew = true;
    while grew {
        grew = false;
        for (from, to) in arcs {
            if met[usize::from(*from)] && !met[usize::from(*to)] {
                met[usize::from(*to)] = true;
                grew = true;
            }
        }
    }
    met
}

/// Whether a walk leads from every node to every other: from node 0 to each,
/// and, along the arcs turned round, the same.
pub fn join_all(mesh: &Mesh, arcs: &[Arc]) -> bool {
    let turned: Vec<Arc> = arcs.iter().map(|(from, to)| (*to, *from)).collect();
    lowest_unmet(mesh, arcs).is_none() && lowest_unmet(mesh, &turned).is_none()
}
