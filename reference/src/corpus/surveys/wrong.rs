//! Meshes that the mesh checks refuse, and some in which a pair is repeated.

use super::super::ducts::records::{past_count, several_wrong};
use super::super::graphs::side_by_side;
use super::super::meshes::{plain, with_ducts};
use super::super::scripts::grounds::{dense, p5};
use super::super::shapes;
use super::super::wrong_meshes::{with_ends, wrong_meshes};
use crate::mesh::Mesh;
use crate::random::Random;

pub fn meshes(random: &mut Random) -> Vec<Mesh> {
    let mut meshes = wrong_meshes(&with_ducts(&p5(), |link| [0, 9][link % 2]));
    meshes.extend(wrong_meshes(&path()).into_iter().step_by(2));
    meshes.extend(wrong_meshes(&apart()).into_iter().step_by(2));
    meshes.extend(several_wrong());
    let past = past_count(random);
    meshes.extend(past.into_iter().filter(|mesh| mesh.count < 100).step_by(12));
    meshes.extend(with_256_links());
    meshes
}

/// A mesh whose links are all bridging.
fn path() -> Mesh {
    plain(7, &shapes::path(7))
}

/// Two parts, the second with bridging links.
fn apart() -> Mesh {
    let triangle = (3, shapes::complete(3));
    let (nodes, shape) = side_by_side(&triangle, &(4, shapes::path(4)));
    plain(nodes, &shape)
}

/// 7, 6 and 8 in the last of 256 links, and 4.
fn with_256_links() -> [Mesh; 4] {
    let good = dense();
    let last = |low, high| with_ends(&good, 255, low, high);
    [
        last(23, 22),
        last(22, good.nodes),
        last(0, 1),
        Mesh {
            count: 257,
            ..good.clone()
        },
    ]
}

#[cfg(test)]
mod tests {
    use super::super::met::met;
    use super::*;

    #[test]
    fn every_mesh_check_is_met() {
        for seed in 0..20 {
            let met = met(&meshes(&mut Random::new(seed)));
            for number in [3, 4, 6, 7, 13] {
                assert!(met[&number] >= 15, "{met:?}");
            }
            assert!(met[&8] >= 5, "{met:?}");
            assert_eq!(met.len(), 7);
        }
    }

    #[test]
    fn all_of_256_links_are_refused() {
        let met = met(&with_256_links());
        assert_eq!(met, [4, 6, 7, 8].map(|number| (number, 1)).into());
    }
}
