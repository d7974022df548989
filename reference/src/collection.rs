//! The collection route: a walk over all nodes, depth first from a root.

mod walk;
mod ways;

use crate::arcs::Arcs;
use crate::mesh::{Mesh, MOST_LINKS, MOST_NODES};
use crate::refusal::{refuse_if, Reason, Refusal};
use crate::tree::Tree;
use walk::walk;

/// For each link whether it is a tree link: one that the walk follows to a new
/// node.
pub type Labels = [bool; MOST_LINKS];

/// The labels of a refusal: no link is a tree link.
pub const NO_TREE: Labels = [false; MOST_LINKS];

/// The entries of the longest route.
pub const MOST_ENTRIES: usize = 2 * MOST_NODES as usize - 1;

/// The numbers of the tree links, rising.
pub fn tree_links(tree: &Labels) -> impl Iterator<Item = u16> + '_ {
    let numbered = (0..).zip(tree);
    numbered.filter(|(_, label)| **label).map(|(link, _)| link)
}

/// Writes the route from the root to the front of the output, and gives the
/// labels and how many entries the route has. Entries past the route stay; a
/// refusal leaves the whole output.
pub fn collect(mesh: &Mesh, root: u8, output: &mut [u8]) -> (Labels, Result<usize, Refusal>) {
    match check(mesh, root, output.len()) {
        Ok(needed) => (walk(mesh, root, &mut output[..needed]), Ok(needed)),
        Err(refusal) => (NO_TREE, Err(refusal)),
    }
}

/// Order: mesh, 6, 20, 11. Gives the number of entries needed.
fn check(mesh: &Mesh, root: u8, room: usize) -> Result<usize, Refusal> {
    mesh.check()?;
    // 6: the place of a root is 0.
    refuse_if(root >= mesh.nodes, Reason::EndNotBelowNodes, 0)?;
    // 20: as in planning, whatever the root.
    let arcs = Arcs::both_ways(mesh.counted());
    Tree::from_0(arcs.leaving()).check_nodes(mesh.nodes)?;
    // 11: the place is the number of entries needed.
    let needed = 2 * usize::from(mesh.nodes) - 1;
    refuse_if(room < needed, Reason::OutputShort, needed)?;
    Ok(needed)
}

#[cfg(test)]
mod tests {
    use super::*;
    use crate::corpus::meshes::plain;
    use crate::corpus::shapes;

    /// Before the call; no node has this number.
    const FILL: u8 = 165;

    /// Accepted with exactly this route and these tree links.
    fn assert_gives(mesh: &Mesh, root: u8, route: &[u8], links: &[u16]) {
        let needed = route.len();
        for room in [needed, needed + 1, needed + 90] {
            let mut output = vec![FILL; room];
            let (tree, answer) = collect(mesh, root, &mut output);
            assert_eq!(answer, Ok(needed));
            assert_eq!(output[..needed], *route);
            // "Output entries past the route stay untouched."
            assert!(output[needed..].iter().all(|entry| *entry == FILL));
            assert_eq!(tree_links(&tree).collect::<Vec<u16>>(), links);
        }
        assert_refuses(mesh, root, needed - 1, Reason::OutputShort, needed);
    }

    /// Refused with nothing written and no tree link.
    fn assert_refuses(mesh: &Mesh, root: u8, room: usize, reason: Reason, place: usize) {
        let mut output = vec![FILL; room];
        let answer = collect(mesh, root, &mut output);
        assert_eq!(answer, (NO_TREE, Err(Refusal::new(reason, place))));
        assert_eq!(output, vec![FILL; room]);
    }

    /// There and back over these nodes.
    fn there_and_back(nodes: impl DoubleEndedIterator<Item = u8> + Clone) -> Vec<u8> {
        nodes.clone().chain(nodes.rev().skip(1)).collect()
    }

    fn all(links: u16) -> Vec<u16> {
        (0..links).collect()
    }

    #[test]
    fn the_example_of_document_000() {
        // Its vertices 1 to 6 are nodes 0 to 5.
        let route = [0, 1, 2, 3, 2, 1, 4, 5, 4, 1, 0];
        let tree = [(0, 1), (1, 2), (1, 4), (2, 3), (4, 5)];
        assert_gives(&plain(6, &tree), 0, &route, &all(5));
        let more = [(0, 1), (0, 3), (0, 5), (1, 2), (1, 4), (2, 3), (4, 5)];
        assert_gives(&plain(6, &more), 0, &route, &[0, 3, 4, 5, 6]);
    }

    #[test]
    fn two_nodes() {
        let one = plain(2, &[(0, 1)]);
        assert_gives(&one, 0, &[0, 1, 0], &[0]);
        assert_gives(&one, 1, &[1, 0, 1], &[0]);
    }

    #[test]
    fn links_are_tried_by_rising_number_from_either_end() {
        // P5; from node 2 link 1 leads to node 0, and from there 0 before 2.
        let p5 = plain(4, &[(0, 1), (0, 2), (0, 3), (1, 2), (2, 3)]);
        assert_gives(&p5, 0, &[0, 1, 2, 3, 2, 1, 0], &[0, 3, 4]);
        assert_gives(&p5, 1, &[1, 0, 2, 3, 2, 0, 1], &[0, 1, 4]);
        assert_gives(&p5, 2, &[2, 0, 1, 0, 3, 0, 2], &[0, 1, 2]);
        assert_gives(&p5, 3, &[3, 0, 1, 2, 1, 0, 3], &[0, 2, 3]);
    }

    #[test]
    fn a_tree_needs_no_other_link() {
        let tree = plain(5, &[(0, 3), (1, 2), (1, 3), (3, 4)]);
        assert_gives(&tree, 0, &[0, 3, 1, 2, 1, 3, 4, 3, 0], &all(4));
        assert_gives(&tree, 2, &[2, 1, 3, 0, 3, 4, 3, 1, 2], &all(4));
        assert_gives(&tree, 3, &[3, 0, 3, 1, 2, 1, 3, 4, 3], &all(4));
    }

    #[test]
    fn paths_of_up_to_64_nodes() {
        for nodes in 2..=64 {
            let path = plain(nodes, &shapes::path(nodes));
            let links = all(u16::from(nodes) - 1);
            assert_gives(&path, 0, &there_and_back(0..nodes), &links);
            let turned = there_and_back((0..nodes).rev());
            assert_gives(&path, nodes - 1, &turned, &links);
            // From the middle first down, then up.
            let middle = nodes / 2;
            let down = there_and_back((0..=middle).rev());
            let up = there_and_back(middle..nodes);
            let both = [&down[..], &up[1..]].concat();
            assert_gives(&path, middle, &both, &links);
        }
    }

    #[test]
    fn a_ring_is_gone_round_but_for_one_link() {
        // Links (0, 1), (0, n - 1), (1, 2) and so on.
        let ring = plain(6, &shapes::ring(6));
        assert_gives(&ring, 0, &there_and_back(0..6), &[0, 2, 3, 4, 5]);
        let route = there_and_back([3, 2, 1, 0, 5, 4].into_iter());
        assert_gives(&ring, 3, &route, &[0, 1, 2, 3, 5]);
        let route = there_and_back([5, 0, 1, 2, 3, 4].into_iter());
        assert_gives(&ring, 5, &route, &[0, 1, 2, 3, 4]);
    }

    #[test]
    fn a_complete_graph_is_a_path_of_its_nodes_after_the_root() {
        for nodes in 3..=23 {
            let ends = shapes::complete(nodes);
            let mesh = plain(nodes, &ends);
            for root in 0..nodes {
                let others = (0..nodes).filter(|node| *node != root);
                let met: Vec<u8> = [root].into_iter().chain(others).collect();
                let step = |two: &[u8]| (two[0].min(two[1]), two[0].max(two[1]));
                let steps: Vec<(u8, u8)> = met.windows(2).map(step).collect();
                let numbered = (0..).zip(&ends);
                let links = numbered.filter(|(_, ends)| steps.contains(ends));
                let links: Vec<u16> = links.map(|(link, _)| link).collect();
                assert_gives(&mesh, root, &there_and_back(met.into_iter()), &links);
            }
        }
    }

    #[test]
    fn stars() {
        let star = plain(4, &shapes::star(4, 0));
        assert_gives(&star, 0, &[0, 1, 0, 2, 0, 3, 0], &all(3));
        assert_gives(&star, 2, &[2, 0, 1, 0, 3, 0, 2], &all(3));
        let star = plain(4, &shapes::star(4, 3));
        assert_gives(&star, 3, &[3, 0, 3, 1, 3, 2, 3], &all(3));
        assert_gives(&star, 0, &[0, 3, 1, 3, 2, 3, 0], &all(3));
    }

    #[test]
    fn meets_6_at_place_0_for_a_root_that_is_no_node() {
        let apart = plain(5, &[(0, 1), (2, 3)]);
        for mesh in [plain(5, &shapes::ring(5)), apart] {
            for root in [5, 6, 63, 64, 255] {
                for room in [0, 8, 9, 300] {
                    assert_refuses(&mesh, root, room, Reason::EndNotBelowNodes, 0);
                }
            }
        }
        let largest = plain(64, &shapes::path(64));
        for root in [64, 65, 255] {
            assert_refuses(&largest, root, 127, Reason::EndNotBelowNodes, 0);
        }
    }

    #[test]
    fn meets_20_at_the_lowest_node_that_node_0_does_not_reach_whatever_the_root() {
        for root in 0..6 {
            for room in [0, 10, 11, 300] {
                let refuses = |shape: &[(u8, u8)], place| {
                    assert_refuses(&plain(6, shape), root, room, Reason::NoPath, place);
                };
                refuses(&[], 1);
                refuses(&[(1, 2), (2, 3), (3, 4), (4, 5)], 1);
                refuses(&[(0, 1), (1, 2), (2, 3), (3, 4)], 5);
                refuses(&[(0, 2), (1, 3), (2, 4), (3, 5)], 1);
                refuses(&[(0, 1), (1, 2), (3, 4), (4, 5)], 3);
            }
        }
    }

    #[test]
    fn meets_11_with_the_entries_needed() {
        for nodes in [2, 3, 64] {
            let needed = 2 * usize::from(nodes) - 1;
            let path = plain(nodes, &shapes::path(nodes));
            for room in 0..needed {
                assert_refuses(&path, 1, room, Reason::OutputShort, needed);
            }
        }
    }

    #[test]
    fn meets_the_mesh_checks_then_6_then_20_then_11() {
        let mut wrong = plain(5, &[(0, 1), (2, 3), (2, 4)]);
        assert_refuses(&wrong, 4, 0, Reason::NoPath, 2);
        assert_refuses(&wrong, 5, 0, Reason::EndNotBelowNodes, 0);
        wrong.links[255].duct = 1;
        assert_refuses(&wrong, 5, 0, Reason::IllFormed, 0);
        assert_refuses(&wrong, 0, 9, Reason::IllFormed, 0);
        wrong.links[2] = wrong.links[0];
        assert_refuses(&wrong, 5, 0, Reason::BelowPrevious, 2);
        wrong.links[2].high = 5;
        assert_refuses(&wrong, 5, 0, Reason::EndNotBelowNodes, 2);
        wrong.links[2].low = 5;
        assert_refuses(&wrong, 5, 0, Reason::LowNotBelowHigh, 2);
        wrong.count = 257;
        assert_refuses(&wrong, 5, 0, Reason::Count, 0);
        wrong.nodes = 65;
        assert_refuses(&wrong, 255, 0, Reason::Nodes, 0);
        assert_refuses(&Mesh::ZERO, 0, 0, Reason::Nodes, 0);
    }
}
