//! Every choice of links on 2 to 4 nodes, every number of them from 0 to 2 on
//! each pair of 3 nodes, and some on 4 and 5 nodes.

use super::super::accepted::{every_mesh_on, every_small_mesh};
use super::super::doubled::graphs::{every, two_nodes};
use super::bare;
use crate::mesh::Mesh;

pub fn meshes() -> Vec<Mesh> {
    let mut meshes = every_small_mesh();
    meshes.extend(every_mesh_on(5).into_iter().step_by(13));
    let mut repeated = every(3, 2);
    repeated.extend(every(4, 2).into_iter().step_by(10));
    repeated.extend([2, 3, 4, 255, 256].map(two_nodes));
    meshes.extend(repeated.iter().map(bare));
    meshes
}

#[cfg(test)]
mod tests {
    use super::super::met::met;
    use super::*;

    #[test]
    fn all_are_accepted() {
        let meshes = meshes();
        assert_eq!(met(&meshes), [(0, meshes.len())].into());
        assert!(meshes.len() > 250);
    }
}
