//! Meshes of 64 nodes, of 256 links, and of both.

use super::super::graphs::{joined, placed, side_by_side, Graph};
use super::super::shapes::{self, Shape};
use crate::mesh::{MOST_LINKS, MOST_NODES};
use crate::random::Random;

pub fn graphs(random: &mut Random) -> Vec<Graph> {
    let mut graphs = full(random);
    graphs.extend(with_one_leaf(random));
    graphs.extend(with_one_alone(random));
    graphs.push(with_many_leaves(random));
    graphs.push(two_halves(random));
    graphs
}

/// The shape and random links up to so many.
fn with_links(nodes: u8, shape: Shape, count: usize, random: &mut Random) -> Graph {
    let more = count - shape.len();
    (nodes, shapes::with_more(nodes, shape, more, random))
}

/// 256 links without a bridge, but on 64 nodes from any links.
fn full(random: &mut Random) -> Vec<Graph> {
    vec![
        with_links(MOST_NODES, shapes::ring(MOST_NODES), MOST_LINKS, random),
        with_links(MOST_NODES, shapes::grid(8, 8), MOST_LINKS, random),
        with_links(MOST_NODES, Vec::new(), MOST_LINKS, random),
        (
            MOST_NODES,
            shapes::complete(MOST_NODES)[..MOST_LINKS].to_vec(),
        ),
        (24, shapes::complete(24)[..MOST_LINKS].to_vec()),
        with_links(23, Vec::new(), 253, random),
    ]
}

/// 256 links of which the first, a middle and the last one alone is bridging.
fn with_one_leaf(random: &mut Random) -> [Graph; 3] {
    let inner = with_links(63, shapes::ring(63), MOST_LINKS - 1, random);
    let graph = joined(&inner, &(1, vec![]), &[(20, 0)]);
    [(0, 1), (40, 30), (63, 62)]
        .map(|(leaf, joint)| placed(&graph, &[(63, leaf), (20, joint)], random))
}

/// 256 links, and node 0, a middle one and node 63 without any.
fn with_one_alone(random: &mut Random) -> [Graph; 3] {
    let inner = with_links(63, shapes::ring(63), MOST_LINKS, random);
    let graph = side_by_side(&inner, &(1, vec![]));
    [0, 31, 63].map(|number| placed(&graph, &[(63, number)], random))
}

/// All pairs of 21 nodes, and 43 leaves.
fn with_many_leaves(random: &mut Random) -> Graph {
    let mut graph = (21, shapes::complete(21));
    for _ in 21..MOST_NODES {
        let from = random.below(21) as u8;
        graph = joined(&graph, &(1, vec![]), &[(from, 0)]);
    }
    graph
}

/// Two parts of 32 nodes and 128 links, each with one leaf.
fn two_halves(random: &mut Random) -> Graph {
    let mut half = || {
        let inner = with_links(31, shapes::ring(31), 127, random);
        joined(&inner, &(1, vec![]), &[(30, 0)])
    };
    side_by_side(&half(), &half())
}

#[cfg(test)]
mod tests {
    use super::super::met::{bridges, counted};
    use super::*;

    #[test]
    fn the_first_and_the_last_of_256_links_can_be_the_only_bridge() {
        for seed in 0..20 {
            let [first, middle, last] = with_one_leaf(&mut Random::new(seed));
            assert_eq!(bridges(&first), [0]);
            assert_eq!(counted(&middle), (1, 1));
            assert_eq!(bridges(&last), [255]);
        }
    }

    #[test]
    fn parts_and_bridges_of_the_others() {
        for seed in 0..20 {
            let random = &mut Random::new(seed);
            let alone = with_one_alone(random);
            assert!(alone.iter().all(|graph| counted(graph) == (2, 0)));
            assert_eq!(counted(&with_many_leaves(random)), (1, 43));
            assert_eq!(counted(&two_halves(random)), (2, 2));
            let full = full(random);
            assert_eq!(counted(&full[0]), (1, 0));
        }
    }

    #[test]
    fn none_has_more_than_256_links() {
        for graph in graphs(&mut Random::new(1)) {
            assert!(graph.1.len() <= MOST_LINKS && graph.0 <= MOST_NODES);
        }
    }
}
