//! Random meshes of every number of nodes.

use super::super::graphs::renumbered;
use super::super::meshes::partly_filled;
use super::super::shapes;
use super::{case, needed};
use crate::case::Case;
use crate::mesh::{Mesh, MOST_NODES};
use crate::random::Random;

pub fn cases(random: &mut Random) -> Vec<Case> {
    let mut cases: Vec<Case> = (2..=MOST_NODES)
        .map(|nodes| of_size(nodes, random))
        .collect();
    let mut meshes = Vec::new();
    for turn in 0..200 {
        let nodes = random.between(3, 10) as u8;
        meshes.push(connected(nodes, turn % 9, random));
    }
    meshes.extend((0..110).map(|_| scattered(random)));
    cases.extend(meshes.iter().map(|mesh| asked(mesh, random)));
    cases
}

/// Accepted, by turns with as many entries as needed and with one more.
fn of_size(nodes: u8, random: &mut Random) -> Case {
    let mesh = connected(nodes, usize::from(nodes) / 4, random);
    let room = needed(&mesh) + usize::from(nodes) % 2;
    let root = random.below(nodes.into()) as u8;
    case(room, root, &mesh)
}

/// A tree and up to `most` more links, with the nodes in a random order.
fn connected(nodes: u8, most: usize, random: &mut Random) -> Mesh {
    let tree = shapes::tree(nodes, random);
    let more = random.below(most + 1);
    let shape = shapes::with_more(nodes, tree, more, random);
    let (nodes, shape) = renumbered(&(nodes, shape), random);
    partly_filled(nodes, &shape, random)
}

/// About as many links as nodes: connected or not.
fn scattered(random: &mut Random) -> Mesh {
    let nodes = random.between(4, 10);
    let count = random.between(nodes - 2, nodes + 2);
    let shape = shapes::scattered(nodes as u8, count, random);
    partly_filled(nodes as u8, &shape, random)
}

/// Any root, and mostly an output with room for the route.
pub fn asked(mesh: &Mesh, random: &mut Random) -> Case {
    let root = random.below(mesh.nodes.into()) as u8;
    let needed = needed(mesh);
    let room = match random.below(10) {
        0 => random.below(needed),
        1 => needed - 1,
        2..=5 => needed,
        _ => needed + random.below(6),
    };
    case(room, root, mesh)
}

#[cfg(test)]
mod tests {
    use super::super::met::met;
    use super::*;

    #[test]
    fn most_are_accepted_and_some_are_apart_or_have_too_short_an_output() {
        for seed in 0..20 {
            let met = met(&cases(&mut Random::new(seed)));
            assert!(met[&0] > 200 && met[&11] > 20 && met[&20] > 20, "{met:?}");
            assert_eq!(met.len(), 3);
        }
    }
}
