//! Collection routes over meshes with several links between the same nodes.

use super::super::collections::random_ones::asked;
use super::super::collections::{case, needed};
use super::super::graphs::Graph;
use super::super::meshes::{filled, partly_filled, Fill};
use super::super::shapes;
use super::super::wrong_meshes::with_ends;
use super::graphs::{apart, bridged, each, every, largest, named, random_ones, two_nodes};
use super::grounds::bare;
use crate::case::Case;
use crate::mesh::{Mesh, MOST_LINKS};
use crate::random::Random;

pub fn cases(random: &mut Random) -> Vec<Case> {
    let mut cases = Vec::new();
    for graph in from_every_root(random) {
        let mesh = bare(&graph);
        let room = needed(&mesh);
        cases.extend((0..mesh.nodes).map(|root| case(room, root, &mesh)));
    }
    for (nodes, shape) in random_ones(90, 12, random) {
        let mesh = partly_filled(nodes, &shape, random);
        cases.push(asked(&mesh, random));
    }
    for (turn, (nodes, shape)) in largest(random).into_iter().enumerate() {
        let mesh = filled(nodes, &shape, [Fill::None, Fill::Some][turn % 2], random);
        let root = [0, nodes - 1, nodes / 2][turn % 3];
        cases.push(case(needed(&mesh), root, &mesh));
    }
    let most = bare(&two_nodes(MOST_LINKS));
    cases.extend([0, 1].map(|root| case(needed(&most), root, &most)));
    cases.extend(refused());
    cases
}

fn from_every_root(random: &mut Random) -> Vec<Graph> {
    let mut graphs = every(3, 2);
    graphs.extend(every(4, 2).into_iter().step_by(23));
    graphs.extend(named(random).into_iter().filter(|graph| graph.0 < 10));
    graphs.extend(bridged(random).into_iter().take(8));
    graphs.extend(apart().into_iter().filter(|graph| graph.0 < 10));
    graphs
}

/// 8 after equal pairs, 6 for a root that is no node, and 11, in this order.
fn refused() -> Vec<Case> {
    let good = bare(&each(&(4, shapes::ring(4)), 2));
    let wrong: Vec<Mesh> = [2, 4, 7].map(|at| with_ends(&good, at, 0, 1)).into();
    let mut cases = Vec::new();
    for mesh in wrong[1..].iter().chain([&good]) {
        for (room, root) in [(7, 0), (7, 4), (0, 0), (6, 3), (0, 255)] {
            cases.push(case(room, root, mesh));
        }
    }
    cases
}

#[cfg(test)]
mod tests {
    use super::super::super::collections::met::met;
    use super::*;

    #[test]
    fn every_answer_is_met() {
        let met = met(&cases(&mut Random::new(1)));
        for number in [0, 6, 8, 11, 20] {
            assert!(met[&number] >= 2, "{met:?}");
        }
        assert!(met[&0] > 300, "{met:?}");
    }
}
