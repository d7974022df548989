//! Roots that are no node: 6, also where the mesh is apart or the output is too
//! short.

use super::super::graphs::side_by_side;
use super::super::meshes::plain;
use super::super::scripts::grounds::{p5, triangle};
use super::super::shapes;
use super::{case, needed};
use crate::case::Case;
use crate::mesh::Mesh;

pub fn cases() -> Vec<Case> {
    let mut cases = Vec::new();
    for mesh in small() {
        let nodes = mesh.nodes;
        for root in [nodes, nodes + 1, 63, 64, 255] {
            let rooms = [0, needed(&mesh) - 1, needed(&mesh)];
            cases.extend(rooms.map(|room| case(room, root, &mesh)));
        }
    }
    for nodes in [63, 64] {
        let path = plain(nodes, &shapes::path(nodes));
        cases.extend([nodes, nodes + 1, 255].map(|root| case(127, root, &path)));
        cases.push(case(0, nodes, &path));
        cases.push(case(127, nodes, &plain(nodes, &[])));
    }
    cases
}

/// Connected and apart.
fn small() -> Vec<Mesh> {
    let three = (3, shapes::complete(3));
    let (nodes, apart) = side_by_side(&three, &three);
    vec![
        plain(2, &[(0, 1)]),
        triangle(),
        p5(),
        plain(9, &shapes::path(9)),
        plain(2, &[]),
        plain(nodes, &apart),
        plain(5, &shapes::ring(4)),
    ]
}

#[cfg(test)]
mod tests {
    use super::super::met::numbers;
    use super::*;

    #[test]
    fn all_meet_6() {
        assert_eq!(numbers(&cases()), [6]);
    }
}
