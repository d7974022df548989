//! Mesh records with ducts, good and wrong.

use super::super::meshes::{filled, plain, with_ducts, Fill};
use super::super::scripts::grounds::{dense, nsfnet, p5, triangle};
use super::super::shapes;
use super::super::wrong_meshes::with_ends;
use super::grounds::{single, ways};
use crate::book::bytes_of;
use crate::case::Case;
use crate::mesh::{Mesh, MOST_LINKS};
use crate::random::Random;

pub fn cases(random: &mut Random) -> Vec<Case> {
    let mut cases = good();
    cases.extend(past_count(random).iter().map(|mesh| case(0, mesh)));
    cases.extend(several_wrong().iter().map(|mesh| case(60, mesh)));
    cases
}

fn case(room: usize, mesh: &Mesh) -> Case {
    Case::Mesh {
        room: room as u16,
        mesh: Box::new(mesh.clone()),
    }
}

/// Planned and started on as without ducts; with the room that is needed, one
/// byte less, which is 11, and some more.
fn good() -> Vec<Case> {
    let mut meshes = Vec::new();
    for mesh in [triangle(), p5(), nsfnet()] {
        meshes.extend(ways(&mesh));
        meshes.extend(single(&mesh));
    }
    meshes.extend(ways(&dense()).into_iter().skip(1).take(3));
    let mut cases = Vec::new();
    for (turn, mesh) in meshes.iter().enumerate() {
        let needed = bytes_of(mesh).len();
        cases.push(case(needed + turn % 3, mesh));
        cases.push(case(needed - 1, mesh));
    }
    cases
}

/// 13: an entry past L with a duct alone. Each entry with one bit, each bit and
/// other numbers at three entries, with no link and with up to 255.
pub fn past_count(random: &mut Random) -> Vec<Mesh> {
    let mut meshes = Vec::new();
    for at in 3..MOST_LINKS {
        meshes.push(with_duct_at(&triangle(), at, 1 << (at % 16)));
    }
    let bits = (0..16).map(|bit| 1 << bit);
    for duct in bits.chain([3, 255, 257, 32_767, 65_280, 65_535]) {
        for at in [5, 130, 255] {
            meshes.push(with_duct_at(&with_ducts(&p5(), |_| duct), at, duct));
        }
    }
    for at in (0..MOST_LINKS).step_by(17) {
        meshes.push(with_duct_at(&plain(2, &[]), at, 1 << (at % 16)));
    }
    let shape = shapes::scattered(64, MOST_LINKS, random);
    for count in [254, 255] {
        let base = filled(64, &shape[..count], Fill::Some, random);
        meshes.push(with_duct_at(&base, 255, 1));
    }
    // A count that is too low: the last link's duct is past it, with its ends.
    let ducted = with_ducts(&p5(), |_| 7);
    meshes.extend((0..5).map(|count| Mesh {
        count,
        ..ducted.clone()
    }));
    meshes
}

pub fn with_duct_at(mesh: &Mesh, at: usize, duct: u16) -> Mesh {
    let mut mesh = mesh.clone();
    mesh.links[at].duct = duct;
    mesh
}

/// A duct past L with 3, with 4, with 7 and 6 at the last link, and with the pair
/// before again there, where 13 is met.
pub fn several_wrong() -> Vec<Mesh> {
    let past = with_duct_at(&with_ducts(&p5(), |_| 7), 200, 65_535);
    let mut meshes = vec![
        Mesh {
            nodes: 65,
            ..past.clone()
        },
        Mesh {
            count: 257,
            ..past.clone()
        },
        Mesh {
            nodes: 1,
            count: 65_535,
            ..past.clone()
        },
    ];
    for (low, high) in [(3, 3), (2, 4), (1, 2), (4, 4)] {
        meshes.push(with_ends(&past, 4, low, high));
    }
    meshes
}

#[cfg(test)]
mod tests {
    use super::*;
    use crate::plan::plan;
    use crate::refusal::{Reason, Refusal};

    #[test]
    fn a_duct_past_the_last_link_meets_13() {
        for mesh in past_count(&mut Random::new(0)) {
            assert_eq!(mesh.check(), Err(Refusal::new(Reason::IllFormed, 0)));
        }
    }

    #[test]
    fn earlier_faults_are_met_first() {
        let met: Vec<u8> = several_wrong()
            .iter()
            .map(|mesh| mesh.check().unwrap_err().number())
            .collect();
        assert_eq!(met, [3, 4, 3, 7, 6, 13, 7]);
    }

    #[test]
    fn a_plan_does_not_depend_on_ducts() {
        for mesh in [triangle(), p5(), nsfnet(), dense()] {
            for ducted in ways(&mesh) {
                assert_eq!(plan(&ducted), plan(&mesh));
            }
        }
    }
}
