//! The links of each node.

use crate::arcs::nodes_of;
use crate::mesh::{Mesh, MOST_LINKS, MOST_NODES};

const NODES: usize = MOST_NODES as usize;

/// A link as one of its ends sees it.
#[derive(Clone, Copy, Debug, PartialEq, Eq)]
pub struct Way {
    pub link: u8,
    /// The link's other end.
    pub to: u8,
}

/// The ways of all nodes, those of a node together and by rising link.
pub struct Ways {
    /// Where the ways of each node begin, and where those of the last end.
    begins: [u16; NODES + 1],
    ways: [Way; 2 * MOST_LINKS],
}

impl Ways {
    /// Each link stands twice, with its low and with its high end. Links are put
    /// in place by rising number, so those of a node rise too.
    pub fn of(mesh: &Mesh) -> Ways {
        let begins = begins(mesh);
        let mut ways = [Way { link: 0, to: 0 }; 2 * MOST_LINKS];
        let mut next = begins;
        for (link, ends) in (0..=255).zip(mesh.counted()) {
            let (low, high) = nodes_of(ends);
            for (from, to) in [(low, ends.high), (high, ends.low)] {
                ways[usize::from(next[from])] = Way { link, to };
                next[from] += 1;
            }
        }
        Ways { begins, ways }
    }

    pub fn of_node(&self, node: u8) -> &[Way] {
        let [begin, end] = [0, 1].map(|step| self.begins[usize::from(node) + step].into());
        &self.ways[begin..end]
    }
}

/// Each node's ways begin where those of the node before end.
fn begins(mesh: &Mesh) -> [u16; NODES + 1] {
    let mut begins = [0; NODES + 1];
    for ends in mesh.counted() {
        let (low, high) = nodes_of(ends);
        begins[low + 1] += 1;
        begins[high + 1] += 1;
    }
    for node in 0..NODES {
        begins[node + 1] += begins[node];
    }
    begins
}

#[cfg(test)]
mod tests {
    use super::*;
    use crate::corpus::meshes::plain;
    use crate::corpus::shapes;
    use crate::random::Random;

    /// A node's links, all looked at in turn.
    fn plainly(mesh: &Mesh, node: u8) -> Vec<Way> {
        let mut ways = Vec::new();
        for (link, ends) in (0..=255).zip(mesh.counted()) {
            if ends.low == node {
                ways.push(Way {
                    link,
                    to: ends.high,
                });
            } else if ends.high == node {
                ways.push(Way { link, to: ends.low });
            }
        }
        ways
    }

    #[test]
    fn the_ways_of_a_node_are_its_links_by_rising_number() {
        let random = &mut Random::new(5);
        for turn in 0..300 {
            let nodes = random.between(2, 64) as u8;
            let mesh = plain(nodes, &shapes::scattered(nodes, turn % 257, random));
            let ways = Ways::of(&mesh);
            for node in 0..64 {
                assert_eq!(ways.of_node(node), plainly(&mesh, node));
            }
        }
    }

    #[test]
    fn both_of_two_links_between_the_same_nodes_are_ways() {
        let mesh = plain(3, &[(0, 2), (0, 2), (1, 2)]);
        let way = |link, to| Way { link, to };
        let ways = Ways::of(&mesh);
        assert_eq!(ways.of_node(0), [way(0, 2), way(1, 2)]);
        assert_eq!(ways.of_node(2), [way(0, 0), way(1, 0), way(2, 1)]);
    }
}
