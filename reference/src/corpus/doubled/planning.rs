//! Meshes to plan with several links between the same nodes.

use super::super::graphs::Graph;
use super::super::scripts::grounds::dense;
use super::super::wrong_meshes::with_ends;
use super::graphs::{
    apart, bridged, every, largest, named, paths_with_one_bridge, random_ones, two_nodes,
};
use super::grounds::bare;
use crate::case::Case;
use crate::mesh::{Mesh, MOST_LINKS, MOST_NODES};
use crate::random::Random;

pub fn cases(random: &mut Random) -> Vec<Case> {
    let mut meshes: Vec<Mesh> = graphs(random).iter().map(bare).collect();
    meshes.extend(wrong());
    let case = |mesh| Case::Planning {
        mesh: Box::new(mesh),
    };
    meshes.into_iter().map(case).collect()
}

fn graphs(random: &mut Random) -> Vec<Graph> {
    let mut graphs = every(3, 3);
    graphs.extend(every(4, 2));
    graphs.extend((9..MOST_LINKS).step_by(13).map(two_nodes));
    graphs.extend(named(random));
    graphs.extend(largest(random));
    graphs.extend(bridged(random));
    graphs.extend(paths_with_one_bridge());
    graphs.extend(apart());
    graphs.extend(random_ones(120, 9, random));
    graphs.extend(random_ones(80, MOST_NODES.into(), random));
    graphs
}

/// 8: the pair (0, 1), which is below the previous one, in the last of 3 to 256
/// links, one number in five; and after equal pairs at each of six links.
fn wrong() -> Vec<Mesh> {
    let all = dense();
    let with_wrong_last = |last: usize| {
        let good = Mesh::new(all.nodes, &all.links[..=last]);
        with_ends(&good, last, 0, 1)
    };
    let mut meshes: Vec<Mesh> = (2..MOST_LINKS).step_by(5).map(with_wrong_last).collect();
    meshes.push(with_wrong_last(MOST_LINKS - 1));
    let equal = bare(&(4, vec![(1, 2); 6]));
    for at in 1..6 {
        for (low, high) in [(0, 3), (0, 1), (1, 1), (0, 4)] {
            meshes.push(with_ends(&equal, at, low, high));
        }
    }
    meshes
}

#[cfg(test)]
mod tests {
    use super::*;
    use crate::plan::plan;
    use std::collections::BTreeMap;

    #[test]
    fn wrong_ones_meet_8_7_and_6() {
        let mut numbers = BTreeMap::new();
        for mesh in wrong() {
            let refusal = mesh.check().unwrap_err();
            *numbers.entry(refusal.number()).or_insert(0) += 1;
        }
        assert_eq!(numbers, [(6, 5), (7, 5), (8, 52 + 10)].into());
    }

    #[test]
    fn many_are_accepted_and_many_meet_20_and_21() {
        let mut numbers = BTreeMap::new();
        for graph in graphs(&mut Random::new(1)) {
            let number = plan(&bare(&graph)).1.map_or_else(|one| one.number(), |_| 0);
            *numbers.entry(number).or_insert(0) += 1;
        }
        for number in [0, 20, 21] {
            assert!(numbers[&number] > 100, "{numbers:?}");
        }
    }
}
