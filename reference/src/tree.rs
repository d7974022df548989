//! A tree over the nodes that node 0 reaches: which nodes it misses, and which
//! links alone join two parts of the mesh.

use crate::mesh::MOST_NODES;
use crate::node_set::{all_below, lowest, only, take_lowest, NodeSet, PerNode};
use crate::refusal::{refuse_if, Answer, Reason};

const NODES: usize = MOST_NODES as usize;

pub struct Tree<'a> {
    near: &'a PerNode<NodeSet>,
    reached: NodeSet,
    size: usize,
    /// The reached nodes, each after its parent.
    order: PerNode<u8>,
    parent: PerNode<u8>,
}

impl<'a> Tree<'a> {
    /// `near` holds for each node the nodes that it has a link with.
    pub fn from_0(near: &'a PerNode<NodeSet>) -> Tree<'a> {
        let mut tree = Tree {
            near,
            reached: only(0),
            size: 1,
            order: [0; NODES],
            parent: [0; NODES],
        };
        let mut next = 0;
        while next < tree.size {
            tree.add_children(tree.order[next]);
            next += 1;
        }
        tree
    }

    fn add_children(&mut self, node: u8) {
        let mut children = self.near[usize::from(node)] & !self.reached;
        self.reached |= children;
        while let Some(child) = take_lowest(&mut children) {
            self.parent[child] = node;
            self.order[self.size] = child as u8;
            self.size += 1;
        }
    }

    /// 20: every node below N is in the tree. The place is the lowest that is
    /// not.
    pub fn check_nodes(&self, nodes: u8) -> Answer {
        let missing = all_below(nodes) & !self.reached;
        refuse_if(missing != 0, Reason::NoPath, lowest(missing))
    }

    /// The lowest pair (low, high) whose link alone joins two parts. Such a
    /// pair is in the tree, no other pair leads out of the child and the nodes
    /// below it, and the pair is single: it stands once in the mesh.
    pub fn lowest_parting(&self, is_single: impl Fn((u8, u8)) -> bool) -> Option<(u8, u8)> {
        let mut below: PerNode<NodeSet> = [0; NODES];
        let mut near_below: PerNode<NodeSet> = [0; NODES];
        let mut found = None;
        for &node in self.order[1..self.size].iter().rev() {
            let child = usize::from(node);
            let parent = usize::from(self.parent[child]);
            let part = below[child] | only(child);
            let near_part = near_below[child] | self.near[child] & !only(parent);
            if near_part & !part == 0 {
                let ends = (child.min(parent) as u8, child.max(parent) as u8);
                let parting = Some(ends).filter(|ends| is_single(*ends));
                found = found.into_iter().chain(parting).min();
            }
            below[parent] |= part;
            near_below[parent] |= near_part;
        }
        found
    }
}
