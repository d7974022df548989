//! Graphs in parts that no link or only one link joins.

use super::graphs::{joined, placed, renumbered, side_by_side, Graph};
use super::shapes;
use crate::random::Random;

pub fn graphs(random: &mut Random) -> Vec<Graph> {
    let mut graphs = few_links();
    graphs.extend(trees(random));
    graphs.extend(forests(random));
    for _ in 0..20 {
        graphs.extend(one_joint(random));
        graphs.extend(one_leaf(random));
        graphs.extend(one_alone(random));
        graphs.extend(two_parts(random));
        graphs.push(several_joints(random));
    }
    graphs
}

/// No link and one link.
fn few_links() -> Vec<Graph> {
    let mut graphs: Vec<Graph> = [5, 33, 63, 64].map(|nodes| (nodes, vec![])).into();
    for (nodes, ends) in [(5, (0, 1)), (5, (3, 4)), (64, (0, 1)), (64, (0, 63))] {
        graphs.push((nodes, vec![ends]));
    }
    graphs.push((64, vec![(62, 63)]));
    graphs
}

/// 21 at link 0, because each link of a tree parts it.
fn trees(random: &mut Random) -> Vec<Graph> {
    let mut graphs = Vec::new();
    for nodes in [5, 6, 9, 17, 32, 63, 64] {
        graphs.push((nodes, shapes::path(nodes)));
        for middle in [0, nodes / 2, nodes - 1] {
            graphs.push((nodes, shapes::star(nodes, middle)));
        }
        graphs.push(renumbered(&(nodes, shapes::path(nodes)), random));
    }
    for _ in 0..30 {
        let tree = any_tree(random);
        graphs.push(renumbered(&tree, random));
        graphs.push(tree);
    }
    graphs
}

fn any_tree(random: &mut Random) -> Graph {
    let nodes = random.between(5, 40) as u8;
    (nodes, shapes::tree(nodes, random))
}

/// Trees without one of their links: 20.
fn forests(random: &mut Random) -> Vec<Graph> {
    let mut graphs = Vec::new();
    for _ in 0..25 {
        let mut tree = any_tree(random);
        tree.1.remove(random.below(tree.1.len()));
        graphs.push(renumbered(&tree, random));
    }
    graphs
}

/// A graph that no link's removal parts.
fn whole(most: usize, random: &mut Random) -> Graph {
    let nodes = random.between(3, most) as u8;
    let ears = shapes::ears(nodes, random);
    let more = random.below(4);
    (nodes, shapes::with_more(nodes, ears, more, random))
}

/// Two parts with one link between them, which is the first, one near the
/// middle, and the last of all links.
fn one_joint(random: &mut Random) -> Vec<Graph> {
    let (left, right) = (whole(12, random), whole(12, random));
    let from = random.below(left.0.into()) as u8;
    let to = random.below(right.0.into()) as u8;
    let graph = joined(&left, &right, &[(from, to)]);
    let (nodes, to) = (graph.0, left.0 + to);
    [0, nodes / 3, nodes - 2]
        .map(|low| placed(&graph, &[(from, low), (to, low + 1)], random))
        .into()
}

/// A node with one link only, with the lowest, a middle and the highest number.
fn one_leaf(random: &mut Random) -> Vec<Graph> {
    let inner = whole(20, random);
    let nodes = inner.0 + 1;
    let joint = random.below(inner.0.into()) as u8;
    let graph = joined(&inner, &(1, vec![]), &[(joint, 0)]);
    [0, nodes / 2, nodes - 1]
        .map(|number| placed(&graph, &[(inner.0, number)], random))
        .into()
}

/// A node without a link, with the lowest, a middle and the highest number.
fn one_alone(random: &mut Random) -> Vec<Graph> {
    let inner = whole(30, random);
    let nodes = inner.0 + 1;
    let graph = side_by_side(&inner, &(1, vec![]));
    [0, nodes / 2, nodes - 1]
        .map(|number| placed(&graph, &[(inner.0, number)], random))
        .into()
}

/// Two parts without a link between them. One is a tree in the second pair,
/// which would meet 21 as well: 20 comes first.
fn two_parts(random: &mut Random) -> Vec<Graph> {
    let wholes = side_by_side(&whole(20, random), &whole(20, random));
    let with_tree = side_by_side(&any_tree(random), &whole(20, random));
    vec![
        renumbered(&wholes, random),
        wholes,
        renumbered(&with_tree, random),
        with_tree,
    ]
}

/// Three to six parts in a row, with one link from each to the next.
fn several_joints(random: &mut Random) -> Graph {
    let mut graph = whole(8, random);
    for _ in 0..random.between(2, 5) {
        let next = whole(8, random);
        let from = random.below(graph.0.into()) as u8;
        let to = random.below(next.0.into()) as u8;
        graph = joined(&graph, &next, &[(from, to)]);
    }
    renumbered(&graph, random)
}

#[cfg(test)]
mod tests {
    use super::*;
    use crate::corpus::meshes::plain;
    use crate::plan::{plan, Plan};
    use crate::refusal::{Reason, Refusal};

    fn assert_refuses(graph: &Graph, reason: Reason, place: usize) {
        let refused = Err(Refusal::new(reason, place));
        let mesh = plain(graph.0, &graph.1);
        assert_eq!(plan(&mesh), (Plan::ZERO, refused), "{graph:?}");
    }

    #[test]
    fn a_joint_is_the_first_or_the_last_link() {
        let random = &mut Random::new(1);
        for _ in 0..200 {
            let graphs = one_joint(random);
            assert_refuses(&graphs[0], Reason::RemovalParts, 0);
            let last = graphs[2].1.len() - 1;
            assert_refuses(&graphs[2], Reason::RemovalParts, last);
        }
    }

    #[test]
    fn a_node_alone_is_not_reached() {
        let random = &mut Random::new(2);
        for _ in 0..200 {
            let graphs = one_alone(random);
            let nodes = usize::from(graphs[0].0);
            for (graph, node) in graphs.iter().zip([1, nodes / 2, nodes - 1]) {
                assert_refuses(graph, Reason::NoPath, node);
            }
        }
    }

    #[test]
    fn every_link_of_a_tree_parts_it() {
        for tree in trees(&mut Random::new(3)) {
            assert_refuses(&tree, Reason::RemovalParts, 0);
        }
    }
}
