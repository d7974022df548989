//! Duct queries.

use super::super::meshes::{filled, plain, random_mesh, with_ducts, Fill};
use super::super::scripts::grounds::{dense, p5, triangle};
use super::super::shapes;
use super::super::wrong_meshes::wrong_meshes;
use super::grounds::{single, ways};
use super::records::{past_count, several_wrong};
use crate::case::{Case, MOST_ENTRIES};
use crate::ducts::sharing;
use crate::mesh::{Mesh, MOST_LINKS};
use crate::random::Random;

pub fn cases(random: &mut Random) -> Vec<Case> {
    let mut cases = smallest();
    for mesh in [triangle(), p5()] {
        for mesh in ways(&mesh).iter().chain(&single(&mesh)) {
            cases.extend(every_link(mesh));
        }
    }
    cases.extend(no_such_links());
    cases.extend(wrong(random));
    cases.extend(random_ones(random));
    cases.extend(with_256_links(random));
    cases
}

pub fn case(room: usize, link: u16, mesh: &Mesh) -> Case {
    Case::Ducts {
        room: room.min(MOST_ENTRIES) as u16,
        link,
        mesh: Box::new(mesh.clone()),
    }
}

/// How many links share the duct of a link.
pub fn needed(mesh: &Mesh, link: u16) -> usize {
    sharing(mesh, link, &mut [0; MOST_LINKS]).unwrap_or(0)
}

/// With no room, one entry too few, as many as needed, and more.
pub fn every_room(mesh: &Mesh, link: u16) -> Vec<Case> {
    let needed = needed(mesh, link);
    let mut rooms = vec![0, needed.saturating_sub(1), needed, needed + 1, needed + 6];
    rooms.dedup();
    rooms
        .into_iter()
        .map(|room| case(room, link, mesh))
        .collect()
}

/// No link, and one link with and without a duct.
fn smallest() -> Vec<Case> {
    let mut cases = Vec::new();
    for nodes in [2, 64] {
        for link in [0, 1, 255, 256, 65_535] {
            cases.extend([0, 1, 3].map(|room| case(room, link, &plain(nodes, &[]))));
        }
    }
    for duct in [0, 1, 255, 256, 65_535] {
        let mesh = with_ducts(&plain(2, &[(0, 1)]), |_| duct);
        cases.extend([0, 1, 2, 300].map(|room| case(room, 0, &mesh)));
        cases.extend([0, 1].map(|room| case(room, 1, &mesh)));
    }
    cases
}

pub fn every_link(mesh: &Mesh) -> Vec<Case> {
    (0..mesh.count)
        .flat_map(|link| every_room(mesh, link))
        .collect()
}

/// 12 with L and above, also where the output is too short.
fn no_such_links() -> Vec<Case> {
    let mut cases = Vec::new();
    for base in [triangle(), p5(), plain(9, &shapes::ring(9))] {
        for mesh in ways(&base).into_iter().take(4) {
            let count = mesh.count;
            for link in [count, count + 1, 255, 256, 257, 65_535] {
                cases.extend([0, 1, 10].map(|room| case(room, link, &mesh)));
            }
        }
    }
    cases
}

/// Wrong meshes with a link and room that would do, with a link that is none,
/// with too short an output, and with both.
fn wrong(random: &mut Random) -> Vec<Case> {
    let mut meshes = Vec::new();
    for base in [
        with_ducts(&p5(), |_| 9),
        with_ducts(&p5(), |link| [0, 9][link % 2]),
    ] {
        meshes.extend(wrong_meshes(&base).into_iter().step_by(2));
    }
    meshes.extend(several_wrong());
    let past = past_count(random);
    meshes.extend(past.into_iter().filter(|mesh| mesh.count < 100).step_by(4));
    let mut cases = Vec::new();
    for (turn, mesh) in meshes.iter().enumerate() {
        let rooms_and_links = [(20, 0), (20, 65_535), (0, 2), (0, 300)];
        let (room, link) = rooms_and_links[turn % 4];
        cases.push(case(room, link, mesh));
        let (room, link) = rooms_and_links[(turn / 4 + 1) % 4];
        cases.push(case(room, link, mesh));
    }
    cases
}

fn random_ones(random: &mut Random) -> Vec<Case> {
    let mut cases = Vec::new();
    for turn in 0..160 {
        let count = 1 + turn % 40;
        let mesh = match turn % 4 {
            0 => random_mesh(30, count, random),
            _ => few_ducts(&random_mesh(30, count, random), 1 + turn % 5, random),
        };
        let link = random.below(mesh.counted().len()) as u16;
        let needed = needed(&mesh, link);
        let room = match random.below(6) {
            0 => random.below(needed),
            1 => needed - 1,
            2 => needed,
            _ => needed + random.below(20),
        };
        cases.push(case(room, link, &mesh));
    }
    cases
}

/// The mesh with so many ducts and none, at random.
fn few_ducts(mesh: &Mesh, ducts: usize, random: &mut Random) -> Mesh {
    let numbers: Vec<u16> = (0..ducts).map(|_| random.number() as u16).collect();
    with_ducts(mesh, |_| match random.below(ducts + 1) {
        0 => 0,
        one => numbers[one - 1],
    })
}

/// 256 links, in one duct, in none, and in others; the first, a middle and the
/// last link; and a link more than there is.
fn with_256_links(random: &mut Random) -> Vec<Case> {
    let mut cases = Vec::new();
    for (turn, mesh) in ways(&dense()).iter().enumerate() {
        for (at, link) in [0, 127, 255].into_iter().enumerate() {
            let needed = needed(mesh, link);
            let rooms = [needed, needed + 1, MOST_ENTRIES];
            cases.push(case(rooms[(turn + at) % 3], link, mesh));
        }
        cases.push(case(needed(mesh, 255) - 1, 255, mesh));
        cases.push(case([0, 300][turn % 2], 256, mesh));
    }
    let one = &ways(&dense())[1];
    cases.extend([0, 1, 128, 255, 256, 257, 300].map(|room| case(room, 77, one)));
    let shape = shapes::scattered(64, MOST_LINKS, random);
    let mesh = filled(64, &shape, Fill::Some, random);
    for _ in 0..6 {
        let link = random.below(MOST_LINKS) as u16;
        cases.push(case(needed(&mesh, link), link, &mesh));
    }
    // A count above 256.
    let wrong = Mesh {
        count: 257,
        ..one.clone()
    };
    cases.push(case(300, 256, &wrong));
    cases
}

#[cfg(test)]
mod tests {
    use super::*;
    use std::collections::BTreeSet;

    /// The refusal numbers of the queries; 0 for an accepted one.
    fn met(cases: &[Case]) -> BTreeSet<u8> {
        let mut numbers = BTreeSet::new();
        for case in cases {
            let Case::Ducts { room, link, mesh } = case else {
                continue;
            };
            let mut output = vec![0; usize::from(*room)];
            let answer = sharing(mesh, *link, &mut output);
            numbers.insert(answer.map_or_else(|refusal| refusal.number(), |_| 0));
        }
        numbers
    }

    #[test]
    fn every_answer_is_met() {
        let random = &mut Random::new(0);
        assert_eq!(met(&smallest()), BTreeSet::from([0, 11, 12]));
        assert_eq!(met(&no_such_links()), BTreeSet::from([12]));
        assert_eq!(met(&random_ones(random)), BTreeSet::from([0, 11]));
        let large = met(&with_256_links(random));
        assert_eq!(large, BTreeSet::from([0, 4, 11, 12]));
        // Some of the wrong meshes are none: a link may have another end.
        let wrong = met(&wrong(random));
        assert!(wrong.is_superset(&BTreeSet::from([3, 4, 6, 7, 8, 13])));
    }
}
