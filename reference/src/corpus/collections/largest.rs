//! The largest meshes.

use super::super::graphs::{joined, placed};
use super::super::meshes::{filled, plain, Fill};
use super::super::shapes::{self, Shape};
use super::{case, needed};
use crate::case::{Case, MOST_ENTRIES};
use crate::mesh::{MOST_LINKS, MOST_NODES};
use crate::random::Random;

pub fn cases(random: &mut Random) -> Vec<Case> {
    let mut cases = sparse(random);
    cases.extend(rooms());
    cases.extend(full(random));
    cases.push(last_link_is_a_tree_link(random));
    cases
}

/// 64 nodes and 63, 64 or 112 links; each from a low, a middle and a high root.
fn sparse(random: &mut Random) -> Vec<Case> {
    let shapes = [
        shapes::path(MOST_NODES),
        shapes::star(MOST_NODES, 0),
        shapes::star(MOST_NODES, 32),
        shapes::star(MOST_NODES, 63),
        shapes::tree(MOST_NODES, random),
        shapes::ring(MOST_NODES),
        shapes::grid(8, 8),
    ];
    let from = |shape: &Shape| [0, 32, 63].map(|root| case(127, root, &plain(64, shape)));
    shapes.iter().flat_map(from).collect()
}

/// 11 with 127 as the entries needed, and outputs with more entries.
fn rooms() -> Vec<Case> {
    let path = plain(MOST_NODES, &shapes::path(MOST_NODES));
    let rooms = [0, 126, 128, MOST_ENTRIES];
    rooms.map(|room| case(room, 40, &path)).into()
}

/// 256 and 255 links by turns, and all pairs of 23 nodes.
fn full(random: &mut Random) -> Vec<Case> {
    let starts = [
        shapes::tree(MOST_NODES, random),
        shapes::ring_with_steps(MOST_NODES, &[5, 14]),
        shapes::grid(8, 8),
        shapes::two_hubs(MOST_NODES),
        shapes::path(MOST_NODES),
    ];
    let mut cases = Vec::new();
    for (turn, start) in starts.into_iter().enumerate() {
        let more = MOST_LINKS - start.len() - turn % 2;
        let shape = shapes::with_more(MOST_NODES, start, more, random);
        let mesh = filled(MOST_NODES, &shape, Fill::Some, random);
        let root = [0, 63, 31, 1, 62][turn];
        cases.push(case(127 + turn % 2, root, &mesh));
    }
    let all_pairs = plain(23, &shapes::complete(23));
    cases.push(case(needed(&all_pairs), 11, &all_pairs));
    cases
}

/// Node 63 has the last of 256 links alone, so the walk follows it.
fn last_link_is_a_tree_link(random: &mut Random) -> Case {
    let ring = shapes::ring(63);
    let more = MOST_LINKS - 1 - ring.len();
    let inner = (63, shapes::with_more(63, ring, more, random));
    let graph = joined(&inner, &(1, vec![]), &[(20, 0)]);
    let (nodes, shape) = placed(&graph, &[(63, 63), (20, 62)], random);
    case(127, 5, &plain(nodes, &shape))
}

#[cfg(test)]
mod tests {
    use super::super::met::numbers;
    use super::*;
    use crate::collection::collect;

    #[test]
    fn routes_and_refusals_of_the_largest() {
        for seed in 0..20 {
            let random = &mut Random::new(seed);
            assert_eq!(numbers(&sparse(random)), [0]);
            assert_eq!(numbers(&rooms()), [0, 11]);
            assert_eq!(numbers(&full(random)), [0]);
        }
    }

    #[test]
    fn link_255_can_be_a_tree_link() {
        let case = last_link_is_a_tree_link(&mut Random::new(1));
        let Case::Collection { root, mesh, .. } = case else {
            panic!("another case");
        };
        let (tree, answer) = collect(&mesh, root, &mut [0; 127]);
        assert_eq!((tree[255], answer), (true, Ok(127)));
    }
}
