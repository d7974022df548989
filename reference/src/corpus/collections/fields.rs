//! Lengths, fibre pairs and ducts, which change nothing.

use super::super::ducts::grounds::ways;
use super::super::meshes::{filled, plain, Fill};
use super::super::scripts::grounds::{nsfnet, p5};
use super::super::shapes::{self, Shape};
use super::{case, needed};
use crate::case::Case;
use crate::mesh::Mesh;
use crate::random::Random;

/// From the first and from the last node of each mesh.
pub fn cases(random: &mut Random) -> Vec<Case> {
    let mut cases = Vec::new();
    for bare in bases() {
        for mesh in same_ends(&bare, random) {
            let room = needed(&mesh);
            cases.extend([0, mesh.nodes - 1].map(|root| case(room, root, &mesh)));
        }
    }
    cases
}

fn bases() -> [Mesh; 4] {
    [
        p5(),
        plain(6, &shapes::complete(6)),
        plain(9, &shapes::ring(9)),
        nsfnet(),
    ]
}

/// The mesh without any field, with ducts shared in different ways, and with
/// lengths, pairs and ducts on some and on all links.
fn same_ends(bare: &Mesh, random: &mut Random) -> Vec<Mesh> {
    let links = bare.counted().iter();
    let shape: Shape = links.map(|link| (link.low, link.high)).collect();
    let mut meshes = ways(bare);
    for fill in [Fill::Some, Fill::Most, Fill::All] {
        meshes.push(filled(bare.nodes, &shape, fill, random));
    }
    meshes
}

#[cfg(test)]
mod tests {
    use super::super::met::numbers;
    use super::*;
    use crate::collection::{collect, MOST_ENTRIES};

    #[test]
    fn all_are_accepted() {
        assert_eq!(numbers(&cases(&mut Random::new(0))), [0]);
    }

    #[test]
    fn the_answer_is_that_of_the_mesh_without_fields() {
        let given = |mesh: &Mesh, root| {
            let mut output = [165; MOST_ENTRIES];
            (collect(mesh, root, &mut output), output)
        };
        for bare in bases() {
            for mesh in same_ends(&bare, &mut Random::new(1)) {
                for root in 0..mesh.nodes {
                    assert_eq!(given(&mesh, root), given(&bare, root));
                }
            }
        }
    }
}
