//! Meshes that the mesh checks refuse, and some in which a pair is repeated, with
//! roots and outputs of every kind.

use super::super::ducts::records::{past_count, several_wrong};
use super::super::graphs::side_by_side;
use super::super::meshes::{plain, with_ducts};
use super::super::scripts::grounds::{dense, p5};
use super::super::shapes;
use super::super::wrong_meshes::{with_ends, wrong_meshes};
use super::case;
use crate::case::Case;
use crate::mesh::Mesh;
use crate::random::Random;

/// Outputs and roots: both would do, the root is no node, the output is too
/// short, and both are wrong.
const ASKED: [(usize, u8); 4] = [(12, 1), (12, 255), (0, 1), (0, 65)];

pub fn cases(random: &mut Random) -> Vec<Case> {
    let mut meshes = wrong_meshes(&with_ducts(&p5(), |link| [0, 9][link % 2]));
    meshes.extend(wrong_meshes(&apart()).into_iter().step_by(3));
    meshes.extend(several_wrong());
    let past = past_count(random);
    meshes.extend(past.into_iter().filter(|mesh| mesh.count < 100).step_by(12));
    let mut cases = Vec::new();
    for (turn, mesh) in meshes.iter().enumerate() {
        for asked in [turn % 4, (turn / 4 + turn + 1) % 4] {
            let (room, root) = ASKED[asked];
            cases.push(case(room, root, mesh));
        }
    }
    cases.extend(with_256_links());
    cases
}

/// A mesh that would meet 20.
fn apart() -> Mesh {
    let triangle = (3, shapes::complete(3));
    let (nodes, shape) = side_by_side(&triangle, &triangle);
    plain(nodes, &shape)
}

/// 6 in the last of 256 links, and 4.
fn with_256_links() -> [Case; 2] {
    let good = dense();
    let wrong = with_ends(&good, 255, 22, good.nodes);
    let more = Mesh { count: 257, ..good };
    [case(0, 5, &wrong), case(47, 24, &more)]
}

#[cfg(test)]
mod tests {
    use super::super::met::met;
    use super::*;

    #[test]
    fn every_mesh_check_is_met_with_every_kind_of_root_and_output() {
        let cases = cases(&mut Random::new(0));
        for asked in ASKED {
            let is_asked = |case: &&Case| match case {
                Case::Collection { room, root, .. } => (usize::from(*room), *root) == asked,
                _ => false,
            };
            let cases: Vec<Case> = cases.iter().filter(is_asked).cloned().collect();
            let met = met(&cases);
            for number in [3, 4, 6, 7, 13] {
                assert!(met[&number] >= 3, "{asked:?} {met:?}");
            }
            assert!(met[&8] >= 1, "{asked:?} {met:?}");
        }
    }

    #[test]
    fn all_of_256_links_are_refused() {
        let met = met(&with_256_links());
        assert_eq!(met, [4, 6].map(|number| (number, 1)).into());
    }
}
