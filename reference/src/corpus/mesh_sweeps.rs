//! Mesh records with every N, every L, and a fault in every entry past L.

use super::meshes::plain;
use super::scripts::grounds::{dense, p5, triangle};
use super::wrong_meshes::with_wrong_link;
use crate::mesh::{Link, Mesh, MOST_LINKS};

/// Each mesh with the good mesh that it is made from.
pub fn meshes() -> Vec<(Mesh, Mesh)> {
    let mut meshes = around(&p5(), every_number_of_nodes);
    meshes.extend(around(&p5(), every_count));
    meshes.extend(around(&triangle(), entries_past_count));
    meshes.extend(around(&plain(2, &[]), some_entries_past_count));
    meshes
}

/// Meshes with 256 links: 13 for too low an L, 4 for too high a one, and 7, 6
/// and pairs that are repeated all over the links.
pub fn meshes_with_256_links() -> Vec<Mesh> {
    let counts = [0, 1, 127, 128].into_iter().chain(253..=260);
    let mut meshes: Vec<Mesh> = counts.map(|count| with_count(&dense(), count)).collect();
    meshes.extend(wrong_links(&dense()));
    meshes
}

/// 7, 6 and pairs that are repeated, each at links far from each other, the last
/// one among them.
pub fn wrong_links(base: &Mesh) -> Vec<Mesh> {
    let places = (0..base.counted().len()).step_by(17);
    places.map(|at| with_wrong_link(base, at)).collect()
}

fn around(base: &Mesh, sweep: fn(&Mesh) -> Vec<Mesh>) -> Vec<(Mesh, Mesh)> {
    let changed = sweep(base).into_iter();
    changed.map(|mesh| (mesh, base.clone())).collect()
}

/// 3 below 2 and above 64; 6 below the number of nodes that the links need.
fn every_number_of_nodes(base: &Mesh) -> Vec<Mesh> {
    let with = |nodes| Mesh {
        nodes,
        ..base.clone()
    };
    (0..=255).map(with).collect()
}

/// 13 below the number of links; 7 above it, as entries are zero there; 4
/// above 256.
fn every_count(base: &Mesh) -> Vec<Mesh> {
    (0..=260).map(|count| with_count(base, count)).collect()
}

fn with_count(base: &Mesh, count: u16) -> Mesh {
    Mesh {
        count,
        ..base.clone()
    }
}

/// 13: each entry past the count with one bit in each of its fields.
fn entries_past_count(base: &Mesh) -> Vec<Mesh> {
    let past = base.counted().len()..MOST_LINKS;
    past.flat_map(|at| with_each_field(base, at)).collect()
}

/// The same for one entry in 17, so that all bits take their turn.
fn some_entries_past_count(base: &Mesh) -> Vec<Mesh> {
    let some = (0..MOST_LINKS).step_by(17);
    some.flat_map(|at| with_each_field(base, at)).collect()
}

/// The mesh with a bit, which the place decides, in each field of an entry.
fn with_each_field(base: &Mesh, at: usize) -> [Mesh; 4] {
    let zero = Link::ZERO;
    let byte = 1 << (at % 8);
    let entries = [
        Link { low: byte, ..zero },
        Link { high: byte, ..zero },
        Link {
            length: 1 << (at % 16),
            ..zero
        },
        Link {
            pair: 1 << (at % 32),
            ..zero
        },
    ];
    entries.map(|entry| {
        let mut mesh = base.clone();
        mesh.links[at] = entry;
        mesh
    })
}

#[cfg(test)]
mod tests {
    use super::*;
    use crate::refusal::{Reason, Refusal};

    #[test]
    fn every_entry_past_the_count_is_refused_in_every_field() {
        let meshes = entries_past_count(&triangle());
        assert_eq!(meshes.len(), 4 * 253);
        for mesh in meshes {
            assert_eq!(mesh.check(), Err(Refusal::new(Reason::IllFormed, 0)));
        }
    }

    #[test]
    fn numbers_of_nodes_from_4_to_64_and_one_count_are_good() {
        let good = |meshes: Vec<Mesh>| meshes.iter().filter(|mesh| mesh.check().is_ok()).count();
        assert_eq!(good(every_number_of_nodes(&p5())), 61);
        assert_eq!(good(every_count(&p5())), 1);
        // One with all of its links, and those with a pair that is repeated.
        assert_eq!(good(meshes_with_256_links()), 1 + 5);
    }
}
