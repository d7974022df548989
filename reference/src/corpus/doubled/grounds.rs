//! The meshes with doubled links that scripts are played on.

use super::super::graphs::Graph;
use super::super::meshes::{partly_filled, plain, with_powers_of_two};
use super::super::shapes;
use super::graphs::{each, random_ones, some_times, spans, two_nodes};
use crate::mesh::{Mesh, MOST_NODES};
use crate::random::Random;

/// Up to 16 links, with lengths that tell the links of a sum.
pub fn measured() -> Vec<Mesh> {
    let triangle = (3, shapes::complete(3));
    let bridge = spans(
        6,
        &[
            ((0, 1), 1),
            ((0, 2), 1),
            ((1, 2), 1),
            ((2, 3), 2),
            ((3, 4), 1),
            ((3, 5), 1),
            ((4, 5), 1),
        ],
    );
    let graphs = [
        two_nodes(2),
        two_nodes(3),
        two_nodes(5),
        spans(3, &[((0, 1), 2), ((1, 2), 2)]),
        spans(3, &[((0, 1), 2), ((0, 2), 1), ((1, 2), 1)]),
        spans(3, &[((0, 1), 1), ((0, 2), 3), ((1, 2), 1)]),
        each(&triangle, 2),
        each(&(5, shapes::path(5)), 2),
        each(&(4, shapes::star(4, 1)), 2),
        each(&(4, shapes::ring(4)), 2),
        bridge,
    ];
    graphs
        .iter()
        .map(|graph| with_powers_of_two(&bare(graph)))
        .collect()
}

/// Without lengths, fibre pairs and ducts.
pub fn bare((nodes, shape): &Graph) -> Mesh {
    plain(*nodes, shape)
}

/// A mesh with up to 6 nodes that planning accepts.
pub fn small(random: &mut Random) -> Mesh {
    let graph = match random.below(6) {
        0 => two_nodes(random.between(2, 6)),
        1 => each(&(4, shapes::path(4)), 2),
        2 => each(&(3, shapes::complete(3)), random.between(2, 3)),
        3 => each(&(6, shapes::tree(6, random)), 2),
        _ => eared(3, 6, random),
    };
    partly_filled(graph.0, &graph.1, random)
}

/// A mesh with 7 to 16 nodes that planning accepts.
pub fn middle(random: &mut Random) -> Mesh {
    let graph = match random.below(4) {
        0 => each(&(9, shapes::grid(3, 3)), 2),
        1 => each(&(10, shapes::tree(10, random)), 2),
        _ => eared(7, 16, random),
    };
    partly_filled(graph.0, &graph.1, random)
}

/// 64 nodes and up to 256 links that planning accepts.
pub fn largest(random: &mut Random) -> Mesh {
    let shape = match random.below(3) {
        0 => shapes::ring(MOST_NODES),
        1 => shapes::grid(8, 8),
        _ => shapes::ears(MOST_NODES, random),
    };
    let graph = some_times(&(MOST_NODES, shape), 2, 2, random);
    partly_filled(graph.0, &graph.1, random)
}

/// A mesh with up to 12 nodes, whether planning accepts it or not.
pub fn any(random: &mut Random) -> Mesh {
    let turn = random.below(4);
    let (nodes, shape) = random_ones(turn + 1, 12, random).swap_remove(turn);
    partly_filled(nodes, &shape, random)
}

/// Paths added to paths, each link up to three times.
fn eared(least: usize, most: usize, random: &mut Random) -> Graph {
    let nodes = random.between(least, most) as u8;
    let shape = shapes::ears(nodes, random);
    some_times(&(nodes, shape), 1, 3, random)
}

#[cfg(test)]
mod tests {
    use super::*;
    use crate::plan::plan;

    #[test]
    fn planning_accepts_all_but_some_of_any() {
        let random = &mut Random::new(1);
        for mesh in measured() {
            assert_eq!(plan(&mesh).1, Ok(()));
        }
        for _ in 0..100 {
            for mesh in [small(random), middle(random), largest(random)] {
                assert_eq!(plan(&mesh).1, Ok(()));
                let mut links = mesh.counted().windows(2);
                assert!(mesh.nodes < 64 || links.any(|two| two[0].ends() == two[1].ends()));
            }
        }
        let accepted = (0..200).filter(|_| plan(&any(random)).1.is_ok()).count();
        assert!((30..170).contains(&accepted), "{accepted}");
    }
}
