//! Graphs with 256 links or nearly so, and the complete ones without a few.

use super::graphs::{joined, placed, renumbered, side_by_side, Graph};
use super::shapes::{self, Shape};
use crate::mesh::{MOST_LINKS, MOST_NODES};
use crate::random::Random;

pub fn graphs(random: &mut Random) -> Vec<Graph> {
    let mut graphs = of_64_nodes(random);
    graphs.extend(of_fewer_nodes(random));
    graphs.extend(with_one_leaf(random));
    graphs.extend(with_one_alone(random));
    graphs
}

/// 64 nodes and 256 links, as they are and with the nodes in a random order.
fn of_64_nodes(random: &mut Random) -> Vec<Graph> {
    let starts = [
        shapes::ring(64),
        shapes::ring_with_steps(64, &[2, 3, 4]),
        shapes::ring_with_steps(64, &[5, 14, 23]),
        shapes::grid(8, 8),
        shapes::grid(16, 4),
        shapes::ladder(32),
        shapes::two_hubs(64),
        shapes::wheel(64),
        shapes::path(64),
        shapes::ears(64, random),
        Vec::new(),
        Vec::new(),
        shapes::complete(64)[..MOST_LINKS].to_vec(),
    ];
    let mut graphs = Vec::new();
    for start in starts {
        let graph = full(MOST_NODES, start, random);
        graphs.push(renumbered(&graph, random));
        graphs.push(graph);
    }
    graphs
}

/// The shape and random links up to 256.
fn full(nodes: u8, shape: Shape, random: &mut Random) -> Graph {
    with_links(nodes, shape, MOST_LINKS, random)
}

fn with_links(nodes: u8, shape: Shape, count: usize, random: &mut Random) -> Graph {
    let more = count - shape.len();
    (nodes, shapes::with_more(nodes, shape, more, random))
}

fn of_fewer_nodes(random: &mut Random) -> Vec<Graph> {
    let mut graphs: Vec<Graph> = [23, 24, 30, 40, 50, 63]
        .map(|nodes| full(nodes, Vec::new(), random))
        .into();
    graphs.push(with_links(64, shapes::ring(64), 255, random));
    graphs.push(with_links(63, shapes::ring(63), 254, random));
    graphs
}

/// 21 at the first, a middle and the last link.
fn with_one_leaf(random: &mut Random) -> Vec<Graph> {
    let inner = with_links(63, shapes::ring(63), 255, random);
    let graph = joined(&inner, &(1, vec![]), &[(20, 0)]);
    [(0, 1), (40, 30), (63, 62)]
        .map(|(leaf, joint)| placed(&graph, &[(63, leaf), (20, joint)], random))
        .into()
}

/// 20 at node 1, a middle node and node 63.
fn with_one_alone(random: &mut Random) -> Vec<Graph> {
    let inner = full(63, shapes::ring(63), random);
    let graph = side_by_side(&inner, &(1, vec![]));
    [0, 31, 63]
        .map(|number| placed(&graph, &[(63, number)], random))
        .into()
}
