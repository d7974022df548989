//! Meshes that are apart: 20, whatever the root and the output.

use super::super::graphs::{placed, renumbered, side_by_side, Graph};
use super::super::meshes::{partly_filled, plain};
use super::super::shapes;
use super::{case, needed};
use crate::case::Case;
use crate::mesh::Mesh;
use crate::random::Random;

pub fn cases(random: &mut Random) -> Vec<Case> {
    let mut cases = Vec::new();
    for (nodes, shape) in small(random) {
        cases.extend(from_every_root(&plain(nodes, &shape)));
    }
    for turn in 0..60 {
        let mesh = in_two_parts(random);
        let root = random.below(mesh.nodes.into()) as u8;
        cases.push(case(rooms(&mesh)[turn % 4], root, &mesh));
    }
    cases.extend(with_64_nodes(random));
    cases
}

/// No link; one node alone; two parts, with node 0 in the one or the other, and
/// with nodes by turns in each; three parts.
fn small(random: &mut Random) -> Vec<Graph> {
    let alone = (1, vec![]);
    let ring = (5, shapes::ring(5));
    let triangle = (3, shapes::complete(3));
    let one_alone = side_by_side(&ring, &alone);
    let by_turns = shapes::sorted((0..6).map(|node| (node, node + 2)));
    vec![
        (2, vec![]),
        (3, vec![]),
        (7, vec![]),
        placed(&one_alone, &[(5, 0)], random),
        placed(&one_alone, &[(5, 3)], random),
        placed(&one_alone, &[(5, 5)], random),
        side_by_side(&triangle, &triangle),
        side_by_side(&ring, &triangle),
        side_by_side(&triangle, &(4, shapes::path(4))),
        (8, by_turns),
        (6, vec![(0, 5), (1, 4), (2, 3)]),
        renumbered(&side_by_side(&ring, &(4, shapes::star(4, 1))), random),
    ]
}

/// None, one entry too few, as many as a connected mesh needs, and more.
fn rooms(mesh: &Mesh) -> [usize; 4] {
    let needed = needed(mesh);
    [needed, 0, needed - 1, needed + 2]
}

/// Each root with two of the outputs by turns.
fn from_every_root(mesh: &Mesh) -> Vec<Case> {
    let rooms = rooms(mesh);
    let both = |root: u8| [0, 1].map(|turn| rooms[(2 * usize::from(root) + turn) % 4]);
    let from = |root| both(root).map(|room| case(room, root, mesh));
    (0..mesh.nodes).flat_map(from).collect()
}

/// Two trees with a few more links, and none between them.
fn in_two_parts(random: &mut Random) -> Mesh {
    let mut part = |most: usize| {
        let nodes = random.between(1, most) as u8;
        let tree = shapes::tree(nodes, random);
        let more = random.below(4);
        (nodes, shapes::with_more(nodes, tree, more, random))
    };
    let both = side_by_side(&part(9), &part(7));
    let (nodes, shape) = renumbered(&both, random);
    partly_filled(nodes, &shape, random)
}

/// A ring and node 0, a middle or the last one alone, from that one and from
/// another; and two halves.
fn with_64_nodes(random: &mut Random) -> Vec<Case> {
    let ring = side_by_side(&(63, shapes::ring(63)), &(1, vec![]));
    let mut cases = Vec::new();
    for alone in [0, 31, 63] {
        let (nodes, shape) = placed(&ring, &[(63, alone)], random);
        let mesh = plain(nodes, &shape);
        cases.push(case(127, alone, &mesh));
        cases.push(case(126, (alone + 7) % 64, &mesh));
    }
    let half = (32, shapes::path(32));
    let (nodes, shape) = side_by_side(&half, &half);
    cases.extend([0, 32, 63].map(|root| case(127, root, &plain(nodes, &shape))));
    cases.push(case(127, 1, &plain(64, &[])));
    cases
}

#[cfg(test)]
mod tests {
    use super::super::met::numbers;
    use super::*;
    use crate::collection::collect;
    use crate::refusal::{Reason, Refusal};

    #[test]
    fn all_are_apart() {
        for seed in 0..20 {
            assert_eq!(numbers(&cases(&mut Random::new(seed))), [20]);
        }
    }

    #[test]
    fn a_node_alone_is_the_place_and_node_1_where_node_0_is_alone() {
        let graphs = small(&mut Random::new(1));
        for ((nodes, shape), place) in graphs[3..6].iter().zip([1, 3, 5]) {
            for root in 0..*nodes {
                let (_, answer) = collect(&plain(*nodes, shape), root, &mut []);
                assert_eq!(answer, Err(Refusal::new(Reason::NoPath, place)));
            }
        }
    }
}
