//! Books to list with several links between the same nodes.

use super::super::graphs::Graph;
use super::super::listings::case;
use super::super::meshes::{partly_filled, with_lengths, with_powers_of_two, with_unmeasured};
use super::super::shapes;
use super::graphs::{
    apart, bridged, each, every, named, paths_with_one_bridge, random_ones, two_nodes,
};
use super::grounds::{bare, measured};
use crate::book::bytes_of;
use crate::case::Case;
use crate::mesh::Mesh;
use crate::random::Random;

pub fn cases(random: &mut Random) -> Vec<Case> {
    let mut meshes = smallest();
    for mesh in measured() {
        let links = 0..mesh.counted().len();
        meshes.extend(links.map(|link| with_unmeasured(&mesh, link)));
        meshes.push(mesh);
    }
    for (nodes, shape) in graphs(random) {
        meshes.push(partly_filled(nodes, &shape, random));
    }
    meshes.extend(large());
    let mut cases: Vec<Case> = meshes.iter().map(bytes_of).map(case).collect();
    // (0, 2) twice, and then (0, 1), which is 8.
    cases.push(case(vec![1, 3, 3, 0, 2, 2, 2, 2, 0]));
    cases
}

/// Every number of links up to 3 on each pair of three nodes, with lengths that
/// tell the links of a sum.
fn smallest() -> Vec<Mesh> {
    let measured = |graph: &Graph| with_powers_of_two(&bare(graph));
    every(3, 3).iter().map(measured).collect()
}

fn graphs(random: &mut Random) -> Vec<Graph> {
    let mut graphs = named(random);
    graphs.retain(|graph| graph.1.len() < 40);
    graphs.extend(bridged(random));
    graphs.extend(paths_with_one_bridge());
    graphs.extend(apart());
    graphs.extend(every(4, 2).into_iter().step_by(7));
    graphs.extend(random_ones(60, 12, random));
    graphs
}

/// 256 links between two nodes, and a ring of 64 nodes with each link twice.
fn large() -> [Mesh; 3] {
    let ring = bare(&each(&(64, shapes::ring(64)), 2));
    let length = |link: usize| 3 * link as u16 + 1;
    [
        with_lengths(&bare(&two_nodes(256)), length),
        with_unmeasured(&with_lengths(&bare(&two_nodes(256)), length), 255),
        with_lengths(&ring, length),
    ]
}
