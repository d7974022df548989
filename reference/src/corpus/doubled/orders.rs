//! Meshes that differ only in the order of links between the same nodes: each
//! has a book of its own.

use super::super::meshes::plain;
use super::super::shapes::Shape;
use crate::mesh::{Link, Mesh};

/// For each field two links that differ in it, in both orders: alone, after
/// another pair and before one. Then three that differ in all fields, in every
/// order.
pub fn meshes() -> Vec<Mesh> {
    let mut meshes = Vec::new();
    for [one, other] in pairs() {
        for (nodes, shape, at) in places() {
            let base = plain(nodes, &shape);
            meshes.push(with(&base, at, &[one, other]));
            meshes.push(with(&base, at, &[other, one]));
        }
    }
    let three = [field(5, 1, 9), field(300, 70_000, 0), field(0, 0, 257)];
    let orders = [
        [0, 1, 2],
        [0, 2, 1],
        [1, 0, 2],
        [1, 2, 0],
        [2, 0, 1],
        [2, 1, 0],
    ];
    let base = plain(4, &[(0, 2), (1, 3), (1, 3), (1, 3), (2, 3)]);
    let ordered = |order: [usize; 3]| with(&base, 1, &order.map(|place| three[place]));
    meshes.extend(orders.map(ordered));
    meshes
}

/// Two links that differ in a length, a fibre pair, a duct, and in all of them.
fn pairs() -> [[Link; 2]; 7] {
    [
        [field(0, 0, 0), field(7, 0, 0)],
        [field(255, 0, 0), field(256, 0, 0)],
        [field(0, 0, 0), field(0, 1 << 24, 0)],
        [field(0, 255, 0), field(0, 65_536, 0)],
        [field(0, 0, 0), field(0, 0, 256)],
        [field(0, 0, 1), field(0, 0, 65_535)],
        [field(1, 2, 3), field(65_535, u32::MAX, 65_535)],
    ]
}

fn field(length: u16, pair: u32, duct: u16) -> Link {
    Link {
        length,
        pair,
        duct,
        ..Link::ZERO
    }
}

/// Number of nodes, links, and the first of two that have the same ends.
fn places() -> [(u8, Shape, usize); 3] {
    [
        (2, vec![(0, 1), (0, 1)], 0),
        (3, vec![(0, 1), (0, 2), (0, 2), (1, 2)], 1),
        (4, vec![(0, 3), (1, 2), (1, 2), (1, 2)], 1),
    ]
}

/// The mesh with these fields from a link on.
fn with(base: &Mesh, at: usize, fields: &[Link]) -> Mesh {
    let mut mesh = base.clone();
    for (link, field) in mesh.links[at..].iter_mut().zip(fields) {
        let Link { low, high, .. } = *link;
        *link = Link {
            low,
            high,
            ..*field
        };
    }
    mesh
}

#[cfg(test)]
mod tests {
    use super::*;
    use crate::book::{bytes_of, decode};

    #[test]
    fn all_meshes_and_all_books_are_different() {
        let meshes = meshes();
        let books: Vec<Vec<u8>> = meshes.iter().map(bytes_of).collect();
        for (number, mesh) in meshes.iter().enumerate() {
            assert!(!meshes[..number].contains(mesh));
            assert!(!books[..number].contains(&books[number]));
            assert_eq!(decode(&books[number]), (mesh.clone(), Ok(())));
        }
    }
}
