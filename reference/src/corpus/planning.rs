//! Meshes to plan.

use super::accepted::{every_mesh_on, every_small_mesh};
use super::graphs::Graph;
use super::meshes::plain;
use super::scripts::grounds::dense;
use super::{largest_graphs, named_graphs, parted_graphs, random_graphs, wrong_plannings};
use crate::case::Case;
use crate::mesh::{Mesh, MOST_LINKS};
use crate::random::Random;

pub fn cases(random: &mut Random) -> Vec<Case> {
    let mut meshes = every_small_mesh();
    meshes.extend(every_mesh_on(5));
    meshes.extend(graphs(random).iter().map(mesh));
    meshes.extend(every_count());
    meshes.extend(wrong_plannings::meshes(random));
    meshes.into_iter().map(case).collect()
}

fn graphs(random: &mut Random) -> Vec<Graph> {
    let mut graphs = named_graphs::graphs(random);
    graphs.extend(random_graphs::graphs(random));
    graphs.extend(parted_graphs::graphs(random));
    graphs.extend(largest_graphs::graphs(random));
    graphs
}

/// Every L: the first links of a mesh with 256, which soon have a plan.
fn every_count() -> Vec<Mesh> {
    let all = dense();
    let first = |count| Mesh::new(all.nodes, &all.links[..count]);
    (0..=MOST_LINKS).map(first).collect()
}

fn mesh((nodes, shape): &Graph) -> Mesh {
    plain(*nodes, shape)
}

fn case(mesh: Mesh) -> Case {
    let mesh = Box::new(mesh);
    Case::Planning { mesh }
}
