//! Graphs with a name, most of them with an admissible assignment.

use super::graphs::{joined, renumbered, Graph};
use super::shapes;
use crate::random::Random;

/// Each graph as it is, and again with its nodes in a random order.
pub fn graphs(random: &mut Random) -> Vec<Graph> {
    let mut graphs = rings();
    graphs.extend(grids_and_ladders());
    graphs.extend(bipartites());
    graphs.extend(wheels_and_hubs());
    graphs.extend(two_triangles());
    graphs.extend(two_cliques());
    let again: Vec<Graph> = graphs
        .iter()
        .map(|graph| renumbered(graph, random))
        .collect();
    graphs.extend(again);
    graphs.extend((2..=22).map(|nodes| (nodes, shapes::complete(nodes))));
    graphs
}

/// Rings, and rings with a chord from each node.
fn rings() -> Vec<Graph> {
    let sizes = (3..=20).chain([27, 32, 33, 48, 63, 64]);
    let mut graphs: Vec<Graph> = sizes.map(|nodes| (nodes, shapes::ring(nodes))).collect();
    for (nodes, step) in [(6, 3), (8, 4), (9, 3), (14, 7), (21, 5), (40, 20), (64, 32)] {
        graphs.push((nodes, shapes::ring_with_steps(nodes, &[step])));
    }
    graphs
}

fn grids_and_ladders() -> Vec<Graph> {
    let mut graphs = Vec::new();
    for width in 2..=8 {
        for height in 2..=8 {
            graphs.push((width * height, shapes::grid(width, height)));
        }
    }
    let rungs = [9, 10, 12, 16, 20, 24, 31, 32];
    graphs.extend(rungs.map(|rungs| (2 * rungs, shapes::ladder(rungs))));
    graphs
}

fn bipartites() -> Vec<Graph> {
    let small = (1..=6).flat_map(|left| (left..=6).map(move |right| (left, right)));
    let large = [
        (2, 30),
        (2, 62),
        (3, 40),
        (4, 60),
        (8, 32),
        (10, 25),
        (16, 16),
    ];
    let both = small.chain(large);
    both.map(|(left, right)| (left + right, shapes::bipartite(left, right)))
        .collect()
}

fn wheels_and_hubs() -> Vec<Graph> {
    let sizes = (4..=14).chain([20, 33, 50, 63, 64]);
    let both = |nodes| {
        [
            (nodes, shapes::wheel(nodes)),
            (nodes, shapes::two_hubs(nodes)),
        ]
    };
    sizes.flat_map(both).collect()
}

/// Two triangles joined by one link, from each node to each.
fn two_triangles() -> Vec<Graph> {
    let triangle = (3, shapes::complete(3));
    let links = [0, 1, 2].map(|from| [0, 1, 2].map(|to| (from, to)));
    let join = |link| joined(&triangle, &triangle, &[link]);
    links.into_iter().flatten().map(join).collect()
}

/// Two cliques joined by one link, and by two with an end in common or none.
fn two_cliques() -> Vec<Graph> {
    let joints: [&[(u8, u8)]; 4] = [
        &[(2, 0)],
        &[(0, 0), (0, 1)],
        &[(0, 2), (1, 2)],
        &[(0, 1), (2, 0)],
    ];
    let mut graphs = Vec::new();
    for (left, right) in [
        (3, 3),
        (3, 4),
        (4, 4),
        (4, 5),
        (5, 3),
        (5, 5),
        (6, 7),
        (9, 8),
    ] {
        let cliques = [left, right].map(|nodes| (nodes, shapes::complete(nodes)));
        graphs.extend(joints.map(|links| joined(&cliques[0], &cliques[1], links)));
    }
    graphs
}
