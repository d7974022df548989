//! The meshes that scripts are played on.

use super::super::graphs::{joined, renumbered, side_by_side, Graph};
use super::super::meshes::{partly_filled, plain};
use super::super::shapes;
use crate::mesh::{Mesh, MOST_LINKS, MOST_NODES};
use crate::random::Random;

pub fn triangle() -> Mesh {
    plain(3, &shapes::complete(3))
}

pub fn p5() -> Mesh {
    plain(4, &[(0, 1), (0, 2), (0, 3), (1, 2), (2, 3)])
}

/// The T1 backbone of NSFNET.
pub fn nsfnet() -> Mesh {
    let high_ends: [(u8, &[u8]); 12] = [
        (0, &[1, 2, 7]),
        (1, &[2, 3]),
        (2, &[5]),
        (3, &[4, 10]),
        (4, &[5, 6]),
        (5, &[9, 13]),
        (6, &[7]),
        (7, &[8]),
        (8, &[9, 11, 12]),
        (10, &[11, 12]),
        (11, &[13]),
        (12, &[13]),
    ];
    let from =
        |(low, high_ends): (u8, &'static [u8])| high_ends.iter().map(move |high| (low, *high));
    let links: shapes::Shape = high_ends.into_iter().flat_map(from).collect();
    plain(14, &links)
}

/// 256 links on as few nodes as can have them, with a short book.
pub fn dense() -> Mesh {
    plain(24, &shapes::complete(24)[..MOST_LINKS])
}

/// A mesh with up to 7 nodes that planning accepts.
pub fn small(random: &mut Random) -> Mesh {
    match random.below(8) {
        0 => triangle(),
        1 => p5(),
        2 => partly_filled(4, &shapes::complete(4), random),
        3 => partly_filled(5, &shapes::complete(5), random),
        _ => eared(4, 7, 4, random),
    }
}

/// A mesh with 8 to 20 nodes that planning accepts.
pub fn middle(random: &mut Random) -> Mesh {
    match random.below(6) {
        0 => shuffled((9, shapes::grid(3, 3)), random),
        1 => shuffled((12, shapes::ring_with_steps(12, &[5])), random),
        2 => shuffled((10, shapes::wheel(10)), random),
        _ => eared(8, 20, 9, random),
    }
}

/// 64 nodes and 256 links that planning accepts.
pub fn largest(random: &mut Random) -> Mesh {
    let shape = match random.below(3) {
        0 => shapes::grid(8, 8),
        1 => shapes::two_hubs(MOST_NODES),
        _ => shapes::ears(MOST_NODES, random),
    };
    let more = MOST_LINKS - shape.len();
    let shape = shapes::with_more(MOST_NODES, shape, more, random);
    shuffled((MOST_NODES, shape), random)
}

/// A mesh that planning refuses.
pub fn parted(random: &mut Random) -> Mesh {
    let left = (4, shapes::ears(4, random));
    let right = (5, shapes::ears(5, random));
    let nodes = random.between(2, 12) as u8;
    let graph = match random.below(6) {
        0 => side_by_side(&left, &right),
        1 => joined(&left, &right, &[(1, 2)]),
        2 => (nodes, shapes::tree(nodes, random)),
        3 => (nodes, shapes::scattered(nodes, nodes.into(), random)),
        4 => (nodes, shapes::star(nodes, nodes - 1)),
        _ => (nodes, vec![(0, 1); random.below(2)]),
    };
    shuffled(graph, random)
}

/// Any of the smaller ones.
pub fn any(random: &mut Random) -> Mesh {
    match random.below(5) {
        0 => parted(random),
        1 => middle(random),
        _ => small(random),
    }
}

/// Paths added to paths, and up to `most` more links.
fn eared(least_nodes: usize, most_nodes: usize, most: usize, random: &mut Random) -> Mesh {
    let nodes = random.between(least_nodes, most_nodes) as u8;
    let shape = shapes::ears(nodes, random);
    let more = random.below(most + 1);
    let shape = shapes::with_more(nodes, shape, more, random);
    shuffled((nodes, shape), random)
}

fn shuffled(graph: Graph, random: &mut Random) -> Mesh {
    let (nodes, shape) = renumbered(&graph, random);
    partly_filled(nodes, &shape, random)
}

#[cfg(test)]
mod tests {
    use super::*;
    use crate::plan::plan;

    #[test]
    fn planning_accepts_all_but_the_parted() {
        let random = &mut Random::new(1);
        for _ in 0..100 {
            assert_eq!(plan(&small(random)).1, Ok(()));
            assert_eq!(plan(&middle(random)).1, Ok(()));
        }
        assert_eq!(plan(&nsfnet()).1, Ok(()));
        assert_eq!(plan(&dense()).1, Ok(()));
        let largest = largest(random);
        assert_eq!((largest.nodes, largest.count), (64, 256));
        assert_eq!(plan(&largest).1, Ok(()));
    }
}
