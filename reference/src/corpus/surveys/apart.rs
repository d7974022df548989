//! Meshes of several parts, with and without bridging links in them.

use super::super::graphs::{placed, renumbered, side_by_side, Graph};
use super::super::shapes;
use super::bridged::whole;
use crate::mesh::MOST_NODES;
use crate::random::Random;

pub fn graphs(random: &mut Random) -> Vec<Graph> {
    let mut graphs = few_links();
    graphs.extend(by_turns());
    graphs.extend(rings_and_paths());
    for _ in 0..25 {
        graphs.extend(one_alone(random));
        graphs.push(several_parts(2, random));
        graphs.push(several_parts(5, random));
        graphs.push(forest(random));
    }
    graphs.extend(of_64_nodes(random));
    graphs
}

/// No link and one link.
fn few_links() -> Vec<Graph> {
    let mut graphs: Vec<Graph> = [5, 32, 63, 64].map(|nodes| (nodes, vec![])).into();
    for (nodes, ends) in [(5, (0, 1)), (5, (0, 4)), (5, (3, 4)), (63, (61, 62))] {
        graphs.push((nodes, vec![ends]));
    }
    for ends in [(0, 1), (0, 63), (1, 63), (62, 63)] {
        graphs.push((64, vec![ends]));
    }
    graphs
}

/// Nodes by turns in each of 2, 3 and 7 parts, as paths and as rings; and pairs
/// from the outside in.
fn by_turns() -> Vec<Graph> {
    let mut graphs = Vec::new();
    for (nodes, parts) in [(8, 2), (9, 3), (21, 7), (64, 2), (63, 3), (64, 7)] {
        let path = shapes::sorted((0..nodes - parts).map(|node| (node, node + parts)));
        let last = |part| nodes - 1 - (nodes - 1 - part) % parts;
        let closing = (0..parts).map(|part| (part, last(part)));
        let rings = shapes::sorted(path.iter().copied().chain(closing));
        graphs.push((nodes, path));
        graphs.push((nodes, rings));
    }
    for nodes in [6, 64] {
        let inwards = (0..nodes / 2).map(|node| (node, nodes - 1 - node));
        graphs.push((nodes, inwards.collect()));
    }
    graphs
}

/// A ring and a path, in either order, with one to three nodes alone before,
/// between or after them.
fn rings_and_paths() -> Vec<Graph> {
    let ring = (5, shapes::ring(5));
    let path = (4, shapes::path(4));
    let mut graphs = Vec::new();
    for (first, second) in [(&ring, &path), (&path, &ring), (&path, &path)] {
        for alone in 1..=3 {
            let alone = (alone, vec![]);
            for three in [
                [&alone, first, second],
                [first, &alone, second],
                [first, second, &alone],
            ] {
                let two = side_by_side(three[0], three[1]);
                graphs.push(side_by_side(&two, three[2]));
            }
        }
        graphs.push(side_by_side(first, second));
    }
    graphs
}

/// One part with bridging links and a node alone, with the lowest, a middle and
/// the highest number.
fn one_alone(random: &mut Random) -> [Graph; 3] {
    let inner = some_part(14, random);
    let graph = side_by_side(&inner, &(1, vec![]));
    let nodes = graph.0;
    [0, nodes / 2, nodes - 1].map(|number| placed(&graph, &[(inner.0, number)], random))
}

/// A tree with up to three more links.
fn some_part(most: usize, random: &mut Random) -> Graph {
    let nodes = random.between(2, most) as u8;
    let tree = shapes::tree(nodes, random);
    let more = random.below(4);
    (nodes, shapes::with_more(nodes, tree, more, random))
}

/// So many parts, and one of them without a bridging link.
pub fn several_parts(parts: usize, random: &mut Random) -> Graph {
    let mut graph = whole(9, random);
    for _ in 1..parts {
        graph = side_by_side(&graph, &some_part(9, random));
    }
    renumbered(&graph, random)
}

/// A tree without some of its links.
fn forest(random: &mut Random) -> Graph {
    let nodes = random.between(6, 40) as u8;
    let mut tree = (nodes, shapes::tree(nodes, random));
    for _ in 0..random.between(1, 4) {
        tree.1.remove(random.below(tree.1.len()));
    }
    renumbered(&tree, random)
}

/// A path or a ring and node 0, a middle or the last one alone; and two halves.
fn of_64_nodes(random: &mut Random) -> Vec<Graph> {
    let mut graphs = Vec::new();
    for shape in [shapes::path(63), shapes::ring(63)] {
        let graph = side_by_side(&(63, shape), &(1, vec![]));
        for alone in [0, 31, 63] {
            graphs.push(placed(&graph, &[(63, alone)], random));
        }
        graphs.push(graph);
    }
    let halves = [shapes::path(32), shapes::ring(32), shapes::star(32, 31)];
    for left in &halves {
        for right in &halves {
            let both = [left, right].map(|shape| (MOST_NODES / 2, shape.clone()));
            graphs.push(side_by_side(&both[0], &both[1]));
        }
    }
    graphs
}

#[cfg(test)]
mod tests {
    use super::super::met::counted;
    use super::*;

    #[test]
    fn all_have_several_parts_and_most_have_bridging_links() {
        for seed in 0..20 {
            let graphs = graphs(&mut Random::new(seed));
            let counts: Vec<(usize, usize)> = graphs.iter().map(counted).collect();
            assert!(counts.iter().all(|(parts, _)| *parts > 1));
            let bridged = counts.iter().filter(|(_, bridges)| *bridges > 0);
            assert!(bridged.count() > 150);
        }
    }

    #[test]
    fn nodes_by_turns() {
        let graphs = by_turns();
        let expected = [
            (2, 6),
            (2, 0),
            (3, 6),
            (3, 0),
            (7, 14),
            (7, 0),
            (2, 62),
            (2, 0),
            (3, 60),
            (3, 0),
            (7, 57),
            (7, 0),
            (3, 3),
            (32, 32),
        ];
        assert_eq!(graphs.iter().map(counted).collect::<Vec<_>>(), expected);
    }
}
