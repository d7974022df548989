//! Mesh records with several links between the same nodes, good and wrong.

use super::super::mesh_records::case;
use super::super::meshes::{filled, partly_filled, plain, with_ducts, Fill};
use super::super::questions::room;
use super::super::wrong_meshes::{with_ends, wrong_meshes};
use super::graphs::{bridged, every, largest, named, random_ones, spans, two_nodes};
use super::orders;
use crate::book::bytes_of;
use crate::case::Case;
use crate::mesh::{Mesh, MOST_LINKS};
use crate::random::Random;

pub fn cases(random: &mut Random) -> Vec<Case> {
    let mut cases = Vec::new();
    for mesh in good(random) {
        let length = bytes_of(&mesh).len();
        cases.push(case(room(length, random), &mesh));
    }
    for mesh in bases() {
        let length = bytes_of(&mesh).len() as u16;
        let wrong = wrong_meshes(&mesh);
        cases.extend(wrong.iter().map(|mesh| case(length, mesh)));
        cases.extend(falling(&mesh).iter().map(|mesh| case(length, mesh)));
    }
    cases.extend(of_256(random).iter().map(|mesh| case(0, mesh)));
    cases
}

fn good(random: &mut Random) -> Vec<Mesh> {
    let mut meshes = orders::meshes();
    let mut graphs = every(3, 2);
    graphs.extend(named(random).into_iter().filter(|graph| graph.1.len() < 40));
    graphs.extend(bridged(random).into_iter().step_by(2));
    graphs.extend(random_ones(40, 20, random));
    for (nodes, shape) in graphs {
        meshes.push(partly_filled(nodes, &shape, random));
    }
    for (nodes, shape) in largest(random).into_iter().step_by(3) {
        meshes.push(filled(nodes, &shape, Fill::Some, random));
    }
    meshes
}

/// At least three links.
fn bases() -> [Mesh; 3] {
    let (nodes, shape) = spans(12, &[((1, 4), 2), ((3, 9), 3), ((5, 6), 2)]);
    let doubled = plain(nodes, &shape);
    [
        plain(3, &[(0, 1), (0, 1), (0, 2), (0, 2), (1, 2), (1, 2)]),
        plain(4, &[(1, 2); 3]),
        with_ducts(&doubled, |link| [7, 7, 0, 9, 9, 300, 7][link]),
    ]
}

/// 8: at each link after another pair than (0, 1) this pair, which is below all
/// others, and the one just below the previous one.
fn falling(base: &Mesh) -> Vec<Mesh> {
    let mut meshes = Vec::new();
    for at in 1..base.counted().len() {
        let just_below = match (base.links[at - 1].low, base.links[at - 1].high) {
            (0, 1) => continue,
            (low, high) if high == low + 1 => (low - 1, base.nodes - 1),
            (low, high) => (low, high - 1),
        };
        for (low, high) in [(0, 1), just_below] {
            meshes.push(with_ends(base, at, low, high));
        }
    }
    meshes
}

/// 256 links between two nodes: all of them, too low and too high an L, and at
/// the second, a middle and the last link 7, 6 and 8; a pair below all of them.
fn of_256(random: &mut Random) -> Vec<Mesh> {
    let base = plain(9, &[(3, 6); MOST_LINKS]);
    let mut meshes = vec![filled(2, &two_nodes(MOST_LINKS).1, Fill::All, random)];
    meshes.extend([255, 257].map(|count| Mesh {
        count,
        ..base.clone()
    }));
    for (at, (low, high)) in [(1, (3, 5)), (128, (2, 8)), (255, (3, 5)), (255, (0, 1))] {
        meshes.push(with_ends(&base, at, low, high));
    }
    for (low, high) in [(3, 3), (3, 9), (2, 9), (3, 7)] {
        meshes.push(with_ends(&base, 255, low, high));
    }
    meshes
}

#[cfg(test)]
mod tests {
    use super::*;
    use crate::refusal::Reason;

    #[test]
    fn good_ones_are_accepted() {
        for mesh in good(&mut Random::new(1)).iter().chain(&bases()) {
            assert_eq!(mesh.check(), Ok(()));
        }
    }

    #[test]
    fn falling_pairs_meet_8_at_their_link() {
        let mut met = 0;
        for base in bases() {
            for mesh in falling(&base) {
                let refusal = mesh.check().unwrap_err();
                assert_eq!(refusal.reason, Reason::BelowPrevious);
                assert!(mesh.links[refusal.place] != base.links[refusal.place]);
                met += 1;
            }
        }
        assert!(met > 12, "{met}");
    }

    #[test]
    fn of_256_links_each_check_is_met() {
        let met = |mesh: &Mesh| mesh.check().err().map(|one| (one.number(), one.place));
        let met: Vec<Option<(u8, usize)>> = of_256(&mut Random::new(1)).iter().map(met).collect();
        let below = |place| Some((8, place));
        let expected = [
            [None, Some((13, 0)), Some((4, 0))].as_slice(),
            &[below(1), below(128), below(255), below(255)],
            &[Some((7, 255)), Some((6, 255)), Some((6, 255)), None],
        ];
        assert_eq!(met, expected.concat());
    }
}
