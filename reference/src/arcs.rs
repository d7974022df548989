//! The arcs of a mesh while its links get their directions.

use crate::mesh::{Link, MOST_NODES};
use crate::node_set::{only, take_lowest, NodeSet, PerNode};

/// For each node the nodes that its arcs lead to and come from. Arcs of links
/// between the same nodes are one in these sets.
#[derive(Clone)]
pub struct Arcs {
    leaving: PerNode<NodeSet>,
    entering: PerNode<NodeSet>,
}

impl Arcs {
    /// Each link as two arcs, one each way.
    pub fn both_ways(links: &[Link]) -> Arcs {
        let mut near = [0; MOST_NODES as usize];
        for link in links {
            let (low, high) = nodes_of(link);
            near[low] |= only(high);
            near[high] |= only(low);
        }
        Arcs {
            leaving: near,
            entering: near,
        }
    }

    /// For each node the nodes that its arcs lead to.
    pub fn leaving(&self) -> &PerNode<NodeSet> {
        &self.leaving
    }

    /// Takes one of the link's two arcs away and gives the direction that is
    /// left: 0 if every node then still reaches every other, otherwise 1.
    /// Paths along the arc from high to low can go round it exactly if another
    /// path leads from high to low. Links with the same ends are neighbours: one
    /// after this link still has both arcs, so that it can be 0, and those before
    /// it are 0 and keep the arc from low to high.
    pub fn direct(&mut self, links: &[Link], number: usize) -> u8 {
        let (low, high) = nodes_of(&links[number]);
        self.remove(high, low);
        if self.go_round(high, low) {
            return 0;
        }
        self.add(high, low);
        let has_same_ends = |other| links.get(other).map(nodes_of) == Some((low, high));
        if has_same_ends(number + 1) {
            return 0;
        }
        if number == 0 || !has_same_ends(number - 1) {
            self.remove(low, high);
        }
        1
    }

    fn add(&mut self, from: usize, to: usize) {
        self.leaving[from] |= only(to);
        self.entering[to] |= only(from);
    }

    fn remove(&mut self, from: usize, to: usize) {
        self.leaving[from] &= !only(to);
        self.entering[to] &= !only(from);
    }

    /// Whether a path leads from one node to another that no arc leads to from
    /// it. Searches from both, one node of each side by turns, until the sides
    /// meet or one of them ends.
    fn go_round(&self, from: usize, to: usize) -> bool {
        let (mut after, mut before) = (self.leaving[from], self.entering[to]);
        let (mut open_after, mut open_before) = (after, before);
        while after & before == 0 {
            let Some(next) = take_lowest(&mut open_after) else {
                return false;
            };
            let Some(last) = take_lowest(&mut open_before) else {
                return false;
            };
            open_after |= self.leaving[next] & !after;
            after |= self.leaving[next];
            open_before |= self.entering[last] & !before;
            before |= self.entering[last];
        }
        true
    }
}

/// The low and the high end, to index with.
pub fn nodes_of(link: &Link) -> (usize, usize) {
    (link.low.into(), link.high.into())
}
