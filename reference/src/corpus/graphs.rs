//! Graphs made from others, and other numbers for their nodes.

use super::shapes::{sorted, Shape};
use crate::random::Random;

/// The number of nodes, and the ends of each link.
pub type Graph = (u8, Shape);

/// Two graphs side by side, the second one's nodes after the first one's.
pub fn side_by_side(first: &Graph, second: &Graph) -> Graph {
    let moved = |(low, high): &(u8, u8)| (first.0 + low, first.0 + high);
    let shape = first.1.iter().copied().chain(second.1.iter().map(moved));
    (first.0 + second.0, shape.collect())
}

/// Two graphs with links from nodes of the first to nodes of the second.
pub fn joined(first: &Graph, second: &Graph, links: &[(u8, u8)]) -> Graph {
    let (nodes, mut shape) = side_by_side(first, second);
    shape.extend(links.iter().map(|(from, to)| (*from, first.0 + to)));
    (nodes, sorted(shape.into_iter()))
}

/// The graph with its nodes numbered in a random order.
pub fn renumbered(graph: &Graph, random: &mut Random) -> Graph {
    placed(graph, &[], random)
}

/// The graph with its nodes numbered in a random order, save those that get
/// a number: each of `numbers` holds a node and its new number.
pub fn placed(graph: &Graph, numbers: &[(u8, u8)], random: &mut Random) -> Graph {
    let mut names: Vec<u8> = (0..graph.0).collect();
    random.shuffle(&mut names);
    for (node, number) in numbers {
        let holder = names.iter().position(|name| name == number);
        names.swap(holder.unwrap(), (*node).into());
    }
    let name = |node: &u8| names[usize::from(*node)];
    let shape = graph.1.iter().map(|(low, high)| (name(low), name(high)));
    (graph.0, sorted(shape))
}

#[cfg(test)]
mod tests {
    use super::*;
    use crate::corpus::shapes::{complete, ring};

    #[test]
    fn joins_two_triangles() {
        let triangle = (3, complete(3));
        let ends = vec![(0, 1), (0, 2), (1, 2), (2, 3), (3, 4), (3, 5), (4, 5)];
        assert_eq!(joined(&triangle, &triangle, &[(2, 0)]), (6, ends));
    }

    #[test]
    fn places_nodes() {
        let random = &mut Random::new(1);
        for _ in 0..100 {
            let (_, shape) = placed(&(9, ring(9)), &[(4, 0), (5, 8)], random);
            assert_eq!(shape.len(), 9);
            assert!(shape.contains(&(0, 8)));
        }
    }
}
