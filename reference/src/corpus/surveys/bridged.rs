//! Rings and other graphs without bridges that single links join: one part, with
//! some links bridging and others not.

use super::super::graphs::{joined, placed, renumbered, Graph};
use super::super::shapes;
use crate::random::Random;

pub fn graphs(random: &mut Random) -> Vec<Graph> {
    let mut graphs = two_rings();
    graphs.extend(rows_of_rings());
    for _ in 0..15 {
        graphs.extend(at_each_place(random));
        graphs.push(several(random));
        graphs.push(with_leaves(random));
        graphs.push(joined_by_a_path(random));
    }
    graphs
}

/// Two rings with one link between them, from several nodes to several.
fn two_rings() -> Vec<Graph> {
    let mut graphs = Vec::new();
    for (left, right) in [(3, 3), (3, 5), (4, 4), (6, 3), (32, 32), (3, 61)] {
        let rings = [left, right].map(|nodes| (nodes, shapes::ring(nodes)));
        for (from, to) in [(0, 0), (0, right - 1), (left - 1, 0), (left / 2, 1)] {
            graphs.push(joined(&rings[0], &rings[1], &[(from, to)]));
        }
    }
    graphs
}

/// Triangles in a row, with one link from each to the next; the last row has 63
/// nodes.
fn rows_of_rings() -> Vec<Graph> {
    let triangle = (3, shapes::complete(3));
    let mut row = triangle.clone();
    let mut graphs = Vec::new();
    for length in 2..=21 {
        row = joined(&row, &triangle, &[(row.0 - 1, 0)]);
        if length < 6 || length % 5 == 1 {
            graphs.push(row.clone());
        }
    }
    graphs
}

/// A graph without a bridging link.
pub fn whole(most: usize, random: &mut Random) -> Graph {
    let nodes = random.between(3, most) as u8;
    let ears = shapes::ears(nodes, random);
    let more = random.below(3);
    (nodes, shapes::with_more(nodes, ears, more, random))
}

/// One bridging link, which is the first, one near the middle, and the last of
/// all links.
fn at_each_place(random: &mut Random) -> [Graph; 3] {
    let (left, right) = (whole(9, random), whole(9, random));
    let from = random.below(left.0.into()) as u8;
    let to = random.below(right.0.into()) as u8;
    let graph = joined(&left, &right, &[(from, to)]);
    let (nodes, to) = (graph.0, left.0 + to);
    [0, nodes / 3, nodes - 2].map(|low| placed(&graph, &[(from, low), (to, low + 1)], random))
}

/// Three to six graphs, each joined to some node of those before it.
fn several(random: &mut Random) -> Graph {
    let mut graph = whole(8, random);
    for _ in 0..random.between(2, 5) {
        let next = whole(8, random);
        let from = random.below(graph.0.into()) as u8;
        let to = random.below(next.0.into()) as u8;
        graph = joined(&graph, &next, &[(from, to)]);
    }
    renumbered(&graph, random)
}

/// A graph with a tree on each of several of its nodes.
fn with_leaves(random: &mut Random) -> Graph {
    let mut graph = whole(12, random);
    for _ in 0..random.between(1, 6) {
        let nodes = random.between(1, 4) as u8;
        let tree = (nodes, shapes::tree(nodes, random));
        let from = random.below(graph.0.into()) as u8;
        graph = joined(&graph, &tree, &[(from, 0)]);
    }
    renumbered(&graph, random)
}

/// Two graphs with a path of new nodes between them.
fn joined_by_a_path(random: &mut Random) -> Graph {
    let path_nodes = random.between(1, 6) as u8;
    let path = (path_nodes, shapes::path(path_nodes));
    let first = whole(7, random);
    let graph = joined(&first, &path, &[(first.0 - 1, 0)]);
    let both = joined(&graph, &whole(7, random), &[(graph.0 - 1, 0)]);
    renumbered(&both, random)
}

#[cfg(test)]
mod tests {
    use super::super::met::{bridges, counted};
    use super::*;

    #[test]
    fn one_part_with_bridging_and_other_links() {
        for seed in 0..20 {
            for graph in graphs(&mut Random::new(seed)) {
                let (parts, bridges) = counted(&graph);
                assert_eq!(parts, 1);
                assert!(bridges > 0 && bridges < graph.1.len());
            }
        }
    }

    #[test]
    fn the_first_and_the_last_link_can_be_the_only_bridge() {
        let random = &mut Random::new(1);
        for _ in 0..100 {
            let [first, middle, last] = at_each_place(random);
            assert_eq!(bridges(&first), [0]);
            assert_eq!(bridges(&middle).len(), 1);
            assert_eq!(bridges(&last), [last.1.len() as u16 - 1]);
        }
    }

    #[test]
    fn a_row_of_triangles_has_a_bridge_less_than_triangles() {
        for row in rows_of_rings() {
            assert_eq!(counted(&row), (1, usize::from(row.0) / 3 - 1));
        }
    }
}
