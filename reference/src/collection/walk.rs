//! The walk itself, over a mesh that joins all nodes to the root.

use std::slice::Iter;

use super::ways::{Way, Ways};
use super::{Labels, NO_TREE};
use crate::mesh::{Mesh, MOST_NODES};
use crate::node_set::only;

/// A node between the root and where the walk is, and its links that are not
/// tried yet.
struct Visit<'a> {
    node: u8,
    untried: Iter<'a, Way>,
}

/// Fills the route, which has as many entries as the walk has steps, and gives
/// the labels of all links. A node is an entry when it is met first, and again
/// each time the walk comes back to it.
pub fn walk(mesh: &Mesh, root: u8, route: &mut [u8]) -> Labels {
    let ways = Ways::of(mesh);
    let visit = |node| Visit {
        node,
        untried: ways.of_node(node).iter(),
    };
    let mut visits = Vec::with_capacity(MOST_NODES.into());
    visits.push(visit(root));
    let mut met = only(root.into());
    let mut tree = NO_TREE;
    for entry in route {
        let Some(last) = visits.last_mut() else { break };
        *entry = last.node;
        match last.untried.find(|way| met & only(way.to.into()) == 0) {
            Some(way) => {
                tree[usize::from(way.link)] = true;
                met |= only(way.to.into());
                visits.push(visit(way.to));
            }
            None => {
                visits.pop();
            }
        }
    }
    tree
}

#[cfg(test)]
mod tests {
    use super::super::tree_links;
    use super::*;
    use crate::corpus::meshes::plain;
    use crate::corpus::shapes::{ears, repeated, ring};
    use crate::random::Random;

    /// The route of a mesh, and the numbers of the tree links.
    fn walked(nodes: u8, shape: &[(u8, u8)], root: u8) -> (Vec<u8>, Vec<u16>) {
        let mut route = vec![255; 2 * usize::from(nodes) - 1];
        let tree = walk(&plain(nodes, shape), root, &mut route);
        (route, tree_links(&tree).collect())
    }

    #[test]
    fn the_lowest_of_two_links_between_the_same_nodes_is_a_tree_link() {
        let two = [(0, 1), (0, 1)];
        assert_eq!(walked(2, &two, 0), (vec![0, 1, 0], vec![0]));
        assert_eq!(walked(2, &two, 1), (vec![1, 0, 1], vec![0]));
        let doubled = repeated(&ring(4), |_| 2);
        let route = vec![2, 1, 0, 3, 0, 1, 2];
        assert_eq!(walked(4, &doubled, 2), (route, vec![0, 2, 4]));
    }

    #[test]
    fn further_links_between_the_same_nodes_leave_the_route() {
        let random = &mut Random::new(6);
        for _ in 0..200 {
            let nodes = random.between(3, 30) as u8;
            let root = random.below(nodes.into()) as u8;
            let once = ears(nodes, random);
            let more = repeated(&once, |_| random.between(1, 3));
            let (route, tree) = walked(nodes, &once, root);
            // The first link of `more` with the same ends.
            let lowest = |link| more.partition_point(|ends| *ends < once[usize::from(link)]);
            let lowest: Vec<u16> = tree.into_iter().map(|link| lowest(link) as u16).collect();
            assert_eq!(walked(nodes, &more, root), (route, lowest));
        }
    }
}
