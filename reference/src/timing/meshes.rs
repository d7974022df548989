//! The meshes that times are measured on.

use crate::corpus::meshes::{filled, plain, with_ducts, Fill};
use crate::corpus::shapes::{self, Shape};
use crate::mesh::{Mesh, MOST_LINKS, MOST_NODES};
use crate::random::Random;

const SEED: u64 = 1;

/// A name and a shape; the mesh is made as each job wants it.
pub struct Subject {
    pub name: &'static str,
    nodes: u8,
    shape: Shape,
}

impl Subject {
    /// The mesh without lengths, fibre pairs and ducts.
    pub fn plain(&self) -> Mesh {
        plain(self.nodes, &self.shape)
    }

    /// The mesh with a length and a fibre pair in each link.
    pub fn filled(&self) -> Mesh {
        with_ducts(&self.ducted(), |_| 0)
    }

    /// The mesh with a length, a fibre pair and a duct in each link.
    pub fn ducted(&self) -> Mesh {
        let random = &mut Random::new(SEED);
        filled(self.nodes, &self.shape, Fill::All, random)
    }
}

pub fn subjects() -> Vec<Subject> {
    let mut subjects = small();
    subjects.extend(largest());
    subjects
}

fn small() -> Vec<Subject> {
    let p5 = vec![(0, 1), (0, 2), (0, 3), (1, 2), (2, 3)];
    vec![
        subject("triangle (P1)", 3, shapes::complete(3)),
        subject("P5", 4, p5),
        subject(
            "ring of 14, 7 chords",
            14,
            shapes::ring_with_steps(14, &[7]),
        ),
        subject("grid of 4 by 4", 16, shapes::grid(4, 4)),
    ]
}

/// 64 nodes and 256 links.
fn largest() -> Vec<Subject> {
    let random = &mut Random::new(SEED);
    let ring = shapes::ring_with_steps(MOST_NODES, &[5, 14, 23]);
    let mut largest = |name, shape: Shape| {
        let more = MOST_LINKS - shape.len();
        let shape = shapes::with_more(MOST_NODES, shape, more, random);
        subject(name, MOST_NODES, shape)
    };
    vec![
        largest("largest: ring with chords", ring),
        largest("largest: grid of 8 by 8, random links", shapes::grid(8, 8)),
        largest("largest: random", Vec::new()),
        largest("largest: two hubs", shapes::two_hubs(MOST_NODES)),
    ]
}

fn subject(name: &'static str, nodes: u8, shape: Shape) -> Subject {
    Subject { name, nodes, shape }
}

#[cfg(test)]
mod tests {
    use super::*;
    use crate::plan::plan;

    #[test]
    fn planning_accepts_each() {
        for subject in subjects() {
            assert_eq!(plan(&subject.plain()).1, Ok(()), "{}", subject.name);
        }
    }

    #[test]
    fn every_link_of_a_ducted_one_has_a_duct_and_of_the_others_none() {
        for subject in subjects() {
            let have = |mesh: Mesh| mesh.counted().iter().filter(|link| link.duct != 0).count();
            assert_eq!(have(subject.ducted()), subject.shape.len());
            assert_eq!((have(subject.filled()), have(subject.plain())), (0, 0));
        }
    }

    #[test]
    fn the_largest_have_64_nodes_and_256_links() {
        for subject in largest() {
            let mesh = subject.filled();
            assert_eq!((mesh.nodes, mesh.count), (64, 256));
        }
    }
}
