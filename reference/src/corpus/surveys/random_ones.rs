//! Random meshes of every number of nodes, most of them sparse, with lengths,
//! fibre pairs and ducts on some.

use super::super::doubled::graphs::some_times;
use super::super::meshes::partly_filled;
use super::super::shapes;
use crate::mesh::{Mesh, MOST_NODES};
use crate::random::Random;

pub fn meshes(random: &mut Random) -> Vec<Mesh> {
    let mut meshes: Vec<Mesh> = (2..=MOST_NODES)
        .map(|nodes| scattered(nodes, random))
        .collect();
    for turn in 0..130 {
        let nodes = random.between(4, if turn % 4 == 0 { 40 } else { 12 });
        meshes.push(scattered(nodes as u8, random));
    }
    meshes
}

/// From one link for two nodes to three for two; in one of three meshes some of
/// them twice.
fn scattered(nodes: u8, random: &mut Random) -> Mesh {
    let count = random.between(usize::from(nodes) / 2, usize::from(nodes) * 3 / 2);
    let mut graph = (nodes, shapes::scattered(nodes, count, random));
    if random.below(3) == 0 {
        graph = some_times(&graph, 1, 2, random);
    }
    partly_filled(nodes, &graph.1, random)
}

#[cfg(test)]
mod tests {
    use super::*;
    use crate::survey::survey;

    #[test]
    fn most_have_several_parts_and_bridging_links() {
        for seed in 0..20 {
            let meshes = meshes(&mut Random::new(seed));
            let has_both = |mesh: &&Mesh| {
                let (survey, answer) = survey(mesh);
                assert_eq!(answer, Ok(()));
                let parts = survey.nodes_of_parts(mesh.nodes).len();
                parts > 1 && survey.bridges().count() > 1
            };
            assert!(meshes.iter().filter(has_both).count() > 80);
        }
    }
}
