//! The survey of a mesh: its parts and its bridging links, by one depth-first
//! walk over each part (Tarjan, 1974).

use crate::arcs::nodes_of;
use crate::mesh::{Mesh, MOST_LINKS, MOST_NODES};
use crate::node_set::PerNode;
use crate::refusal::Answer;

const NODES: usize = MOST_NODES as usize;

/// A part is a greatest set of nodes with a path between every two of them. A
/// link is bridging where its two ends have no path between them without it.
#[derive(Clone, Debug, PartialEq, Eq)]
pub struct Survey {
    /// For each node the lowest node of its part; 0 for a number that is no
    /// node.
    pub parts: PerNode<u8>,
    /// For each link whether it is bridging; false past the last link.
    pub bridging: [bool; MOST_LINKS],
}

impl Survey {
    /// The survey of a refusal.
    pub const ZERO: Survey = Survey {
        parts: [0; NODES],
        bridging: [false; MOST_LINKS],
    };

    /// For each part of a mesh of so many nodes, by rising lowest node, its
    /// nodes, rising.
    pub fn nodes_of_parts(&self, nodes: u8) -> Vec<Vec<u8>> {
        let part_of = |node: u8| self.parts[usize::from(node)];
        let lowest = (0..nodes).filter(|node| part_of(*node) == *node);
        lowest
            .map(|part| (0..nodes).filter(|node| part_of(*node) == part).collect())
            .collect()
    }

    /// The numbers of the bridging links, rising.
    pub fn bridges(&self) -> impl Iterator<Item = u16> + '_ {
        let numbered = (0..).zip(&self.bridging);
        let bridging = numbered.filter(|(_, bridging)| **bridging);
        bridging.map(|(link, _)| link)
    }
}

/// Surveys a mesh. The mesh checks are its only refusals; a refused survey is
/// all zeros.
pub fn survey(mesh: &Mesh) -> (Survey, Answer) {
    match mesh.check() {
        Ok(()) => (Walk::over(mesh), Ok(())),
        Err(refusal) => (Survey::ZERO, Err(refusal)),
    }
}

struct Walk {
    /// For each node its links, each with the node at its other end.
    links: Vec<Vec<(usize, usize)>>,
    /// For each node that is met how many were met before it.
    met: PerNode<Option<usize>>,
    count: usize,
    survey: Survey,
}

impl Walk {
    /// Begins at each node that no walk from a lower one has met.
    fn over(mesh: &Mesh) -> Survey {
        let mut walk = Walk {
            links: links_of_nodes(mesh),
            met: [None; NODES],
            count: 0,
            survey: Survey::ZERO,
        };
        for node in 0..mesh.nodes {
            if walk.met[usize::from(node)].is_none() {
                walk.visit(node.into(), None, node);
            }
        }
        walk.survey
    }

    /// Visits a node that the walk enters by a link, and all that it meets from
    /// there. Gives the earliest place, in the order of meeting, that a link
    /// leads to from these. The entered link does not count; another one with
    /// the same ends does.
    fn visit(&mut self, node: usize, entered: Option<usize>, part: u8) -> usize {
        let place = self.count;
        self.count += 1;
        self.met[node] = Some(place);
        self.survey.parts[node] = part;
        let mut earliest = place;
        for (link, other) in self.links[node].clone() {
            let led_to = match self.met[other] {
                _ if entered == Some(link) => continue,
                Some(met) => met,
                None => self.follow(link, other, place, part),
            };
            earliest = earliest.min(led_to);
        }
        earliest
    }

    /// Follows a link to a new node. It is bridging where no link leads back
    /// from there to the place that it leaves, or to an earlier one.
    fn follow(&mut self, link: usize, other: usize, place: usize, part: u8) -> usize {
        let earliest = self.visit(other, Some(link), part);
        self.survey.bridging[link] = earliest > place;
        earliest
    }
}

fn links_of_nodes(mesh: &Mesh) -> Vec<Vec<(usize, usize)>> {
    let mut links = vec![Vec::new(); NODES];
    for (number, link) in mesh.counted().iter().enumerate() {
        let (low, high) = nodes_of(link);
        links[low].push((number, high));
        links[high].push((number, low));
    }
    links
}

#[cfg(test)]
mod tests {
    use super::*;
    use crate::corpus::graphs::{joined, side_by_side};
    use crate::corpus::meshes::plain;
    use crate::corpus::shapes;
    use crate::refusal::{Reason, Refusal};

    /// Accepted with exactly these parts, of nodes, and these bridging links.
    fn assert_gives(mesh: &Mesh, parts: &[u8], bridges: &[u16]) {
        let (survey, answer) = survey(mesh);
        assert_eq!(answer, Ok(()));
        let nodes = usize::from(mesh.nodes);
        assert_eq!(survey.parts[..nodes], *parts);
        assert!(survey.parts[nodes..].iter().all(|part| *part == 0));
        assert_eq!(survey.bridges().collect::<Vec<u16>>(), bridges);
    }

    fn assert_refuses(mesh: &Mesh, reason: Reason, place: usize) {
        let refused = Err(Refusal::new(reason, place));
        assert_eq!(survey(mesh), (Survey::ZERO, refused));
    }

    #[test]
    fn every_link_of_a_tree_is_bridging() {
        let path = plain(8, &shapes::path(8));
        assert_gives(&path, &[0; 8], &[0, 1, 2, 3, 4, 5, 6]);
        let star = plain(5, &shapes::star(5, 3));
        assert_gives(&star, &[0; 5], &[0, 1, 2, 3]);
    }

    #[test]
    fn no_link_of_a_ring_is_bridging() {
        for nodes in 3..=64 {
            let ring = plain(nodes, &shapes::ring(nodes));
            assert_gives(&ring, &vec![0; nodes.into()], &[]);
        }
    }

    #[test]
    fn a_part_of_an_apart_mesh_has_its_own_bridges() {
        // A triangle with a leaf, and the path 3 - 5 - 4 with node 6 alone.
        let ends = [(0, 1), (0, 2), (1, 2), (2, 7), (3, 5), (4, 5)];
        assert_gives(&plain(8, &ends), &[0, 0, 0, 3, 3, 3, 6, 0], &[3, 4, 5]);
        let triangle = (3, shapes::complete(3));
        let (nodes, shape) = side_by_side(&triangle, &triangle);
        assert_gives(&plain(nodes, &shape), &[0, 0, 0, 3, 3, 3], &[]);
    }

    #[test]
    fn without_links_each_node_is_a_part() {
        for nodes in [2, 5, 64] {
            let parts: Vec<u8> = (0..nodes).collect();
            assert_gives(&plain(nodes, &[]), &parts, &[]);
        }
    }

    #[test]
    fn a_doubled_link_is_not_bridging() {
        assert_gives(&plain(2, &[(0, 1)]), &[0, 0], &[0]);
        assert_gives(&plain(2, &[(0, 1); 2]), &[0, 0], &[]);
        assert_gives(&plain(2, &[(0, 1); 256]), &[0, 0], &[]);
        let spans = [(0, 1), (1, 2), (1, 2), (2, 3)];
        assert_gives(&plain(4, &spans), &[0; 4], &[0, 3]);
    }

    #[test]
    fn the_link_between_two_triangles_is_bridging() {
        let triangle = (3, shapes::complete(3));
        let (nodes, shape) = joined(&triangle, &triangle, &[(2, 0)]);
        assert_gives(&plain(nodes, &shape), &[0; 6], &[3]);
    }

    #[test]
    fn the_nodes_of_each_part() {
        let mesh = plain(7, &[(0, 4), (1, 5), (2, 5)]);
        let parts = survey(&mesh).0.nodes_of_parts(7);
        assert_eq!(parts, [&[0, 4][..], &[1, 2, 5], &[3], &[6]]);
    }

    #[test]
    fn meets_the_mesh_checks_in_their_order() {
        let mut wrong = plain(5, &[(0, 1), (2, 3), (2, 4)]);
        wrong.links[255].duct = 1;
        assert_refuses(&wrong, Reason::IllFormed, 0);
        wrong.links[2] = wrong.links[0];
        assert_refuses(&wrong, Reason::BelowPrevious, 2);
        wrong.links[2].high = 5;
        assert_refuses(&wrong, Reason::EndNotBelowNodes, 2);
        wrong.links[2].low = 5;
        assert_refuses(&wrong, Reason::LowNotBelowHigh, 2);
        wrong.count = 257;
        assert_refuses(&wrong, Reason::Count, 0);
        wrong.nodes = 65;
        assert_refuses(&wrong, Reason::Nodes, 0);
        assert_refuses(&Mesh::ZERO, Reason::Nodes, 0);
    }
}
