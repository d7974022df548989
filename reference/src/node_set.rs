//! Sets of nodes in one word: bit n stands for node n.

use crate::mesh::MOST_NODES;

pub type NodeSet = u64;

/// One entry for each node that a mesh can have.
pub type PerNode<T> = [T; MOST_NODES as usize];

pub fn only(node: usize) -> NodeSet {
    1 << node
}

/// The nodes below N, which is 1 to 64.
pub fn all_below(nodes: u8) -> NodeSet {
    NodeSet::MAX >> (MOST_NODES - nodes)
}

/// The lowest node of a set that is not empty.
pub fn lowest(set: NodeSet) -> usize {
    set.trailing_zeros() as usize
}

/// Takes the lowest node out of the set; none if it is empty.
pub fn take_lowest(set: &mut NodeSet) -> Option<usize> {
    if *set == 0 {
        return None;
    }
    let node = lowest(*set);
    *set &= *set - 1;
    Some(node)
}
