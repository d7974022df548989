//! The collection route against its sentence, and what is promised of it.

use std::collections::BTreeSet;

use reference::collection::{collect, Labels, NO_TREE};
use reference::corpus::doubled::graphs::every;
use reference::corpus::graphs::{renumbered, side_by_side, Graph};
use reference::corpus::meshes::{partly_filled, plain};
use reference::corpus::shapes::{self, chosen, complete, repeated};
use reference::mesh::{Mesh, MOST_LINKS};
use reference::random::Random;
use reference::refusal::{Reason, Refusal};
use reference::walks::{both_ways, lowest_unmet};

/// The search as the sentence says it: visiting a node tries its links by
/// rising number, and following a link to a new node visits that node.
struct Search<'a> {
    mesh: &'a Mesh,
    route: Vec<u8>,
    tree: Labels,
}

impl Search<'_> {
    fn from(mesh: &Mesh, root: u8) -> (Vec<u8>, Labels) {
        let (route, tree) = (Vec::new(), NO_TREE);
        let mut search = Search { mesh, route, tree };
        search.visit(root);
        (search.route, search.tree)
    }

    fn visit(&mut self, node: u8) {
        self.route.push(node);
        for number in 0..self.mesh.counted().len() {
            self.follow(node, number);
        }
    }

    fn follow(&mut self, node: u8, number: usize) {
        let link = self.mesh.links[number];
        let other = match node {
            _ if node == link.low => link.high,
            _ if node == link.high => link.low,
            _ => return,
        };
        if !self.route.contains(&other) {
            self.tree[number] = true;
            self.visit(other);
            self.route.push(node);
        }
    }
}

/// Random connected meshes of every number of nodes: a tree and further links;
/// then the same with each link once to three times, as far as 256 links allow.
fn meshes(random: &mut Random) -> Vec<Mesh> {
    let mut meshes = Vec::new();
    for most in [0, 1, 5, 40, 90, MOST_LINKS] {
        for nodes in 2..=64 {
            let tree = shapes::tree(nodes, random);
            let more = random.between(most / 2, most).min(MOST_LINKS - tree.len());
            let shape = shapes::with_more(nodes, tree, more, random);
            let once = renumbered(&(nodes, shape), random);
            let more = repeated(&once.1, |_| random.between(1, 3));
            meshes.push(partly_filled(nodes, &once.1, random));
            if more.len() <= MOST_LINKS {
                meshes.push(partly_filled(nodes, &more, random));
            }
        }
    }
    meshes
}

/// The answer with as many entries as needed.
fn collected(mesh: &Mesh, root: u8) -> (Vec<u8>, Labels) {
    let mut output = vec![0; 2 * usize::from(mesh.nodes) - 1];
    let (tree, answer) = collect(mesh, root, &mut output);
    assert_eq!(answer, Ok(output.len()));
    (output, tree)
}

/// Two roots of the mesh, or every one of a small mesh.
fn roots(mesh: &Mesh, random: &mut Random) -> Vec<u8> {
    match mesh.nodes {
        0..=9 => (0..mesh.nodes).collect(),
        nodes => [(); 2].map(|()| random.below(nodes.into()) as u8).into(),
    }
}

#[test]
fn random_meshes_are_collected_by_the_sentence() {
    let random = &mut Random::new(1);
    for mesh in meshes(random) {
        for root in roots(&mesh, random) {
            assert_eq!(collected(&mesh, root), Search::from(&mesh, root));
        }
    }
}

#[test]
fn every_mesh_with_up_to_5_nodes_and_every_root() {
    let mut accepted = Vec::new();
    for nodes in 2..=5 {
        let choices = 0..1 << complete(nodes).len();
        let meshes = choices.map(|choice| plain(nodes, &chosen(nodes, choice)));
        accepted.push(meshes.filter(is_collected).count());
    }
    // So many graphs on 2 to 5 nodes are connected.
    assert_eq!(accepted, [1, 4, 38, 728]);
}

#[test]
fn every_number_of_links_on_each_pair_of_up_to_4_nodes_and_every_root() {
    let mut accepted = Vec::new();
    for (nodes, most) in [(2, 20), (3, 4), (4, 2)] {
        let meshes = every(nodes, most);
        let meshes = meshes.iter().map(|graph| plain(nodes, &graph.1));
        accepted.push(meshes.filter(is_collected).count());
    }
    // On 3 nodes: two pairs of three with links, or all. On 4 nodes: of the 38
    // connected graphs 16 have 3 pairs, 15 have 4, 6 have 5 and 1 has 6.
    let on_4 = 16 * 8 + 15 * 16 + 6 * 32 + 64;
    assert_eq!(accepted, [20, 3 * 16 + 64, on_4]);
}

#[test]
fn the_lowest_of_256_links_between_two_nodes_is_the_tree() {
    let mesh = plain(2, &[(0, 1); MOST_LINKS]);
    let mut tree = NO_TREE;
    tree[0] = true;
    assert_eq!(collected(&mesh, 0), (vec![0, 1, 0], tree));
    assert_eq!(collected(&mesh, 1), (vec![1, 0, 1], tree));
}

/// Whether the mesh is connected; from each root the answer must be as it says.
fn is_collected(mesh: &Mesh) -> bool {
    let unmet = lowest_unmet(mesh, &both_ways(mesh.counted().iter()));
    for root in 0..mesh.nodes {
        match unmet {
            None => assert_eq!(collected(mesh, root), Search::from(mesh, root)),
            Some(node) => assert_apart(mesh, root, node.into()),
        }
    }
    unmet.is_none()
}

fn assert_apart(mesh: &Mesh, root: u8, place: usize) {
    for room in [0, 127] {
        let mut output = vec![165; room];
        let refused = Err(Refusal::new(Reason::NoPath, place));
        assert_eq!(collect(mesh, root, &mut output), (NO_TREE, refused));
        assert_eq!(output, vec![165; room]);
    }
}

#[test]
fn random_meshes_that_are_apart() {
    let random = &mut Random::new(2);
    let whole = |most, random: &mut Random| -> Graph {
        let nodes = random.between(1, most) as u8;
        (nodes, shapes::tree(nodes, random))
    };
    for _ in 0..500 {
        let apart = side_by_side(&whole(40, random), &whole(24, random));
        let (nodes, shape) = renumbered(&apart, random);
        let mesh = partly_filled(nodes, &shape, random);
        assert!(!is_collected(&mesh));
    }
}

/// The two ends of each step of a route.
fn steps(route: &[u8]) -> Vec<(u8, u8)> {
    let mut steps: Vec<(u8, u8)> = route.windows(2).map(|two| (two[0], two[1])).collect();
    steps.sort_unstable();
    steps
}

/// For each node the nodes from the root to it, itself the last, when it is met
/// first. A step to the node before the last goes back.
fn paths(route: &[u8]) -> Vec<Vec<u8>> {
    let mut paths = vec![Vec::new(); 64];
    let mut path = Vec::new();
    for node in route {
        if path.iter().rev().nth(1) == Some(node) {
            path.pop();
        } else {
            path.push(*node);
            assert!(paths[usize::from(*node)].is_empty(), "met first twice");
            paths[usize::from(*node)] = path.clone();
        }
    }
    assert_eq!(path.len(), 1, "the root is last");
    paths
}

fn assert_promises(mesh: &Mesh, root: u8) {
    let (route, tree) = collected(mesh, root);
    assert_eq!(route.len(), 2 * usize::from(mesh.nodes) - 1);
    assert_eq!((route[0], route[route.len() - 1]), (root, root));
    let nodes: BTreeSet<u8> = route.iter().copied().collect();
    assert_eq!(nodes, (0..mesh.nodes).collect());
    let links = mesh.counted().iter().zip(tree);
    let (tree_links, others): (Vec<_>, Vec<_>) = links.partition(|(_, label)| *label);
    // N - 1 links that join all nodes.
    assert_eq!(tree_links.len(), usize::from(mesh.nodes) - 1);
    let arcs = both_ways(tree_links.iter().map(|(link, _)| *link));
    assert_eq!(lowest_unmet(mesh, &arcs), None);
    // Each tree link once each way, and no other link.
    let mut crossed = arcs;
    crossed.sort_unstable();
    assert_eq!(steps(&route), crossed);
    // "Every remaining link joins a node to one of its ancestors."
    let paths = paths(&route);
    let is_above = |upper: u8, lower: u8| paths[usize::from(lower)].contains(&upper);
    for (link, _) in others {
        assert!(is_above(link.low, link.high) || is_above(link.high, link.low));
    }
    // "Places past the last link say not."
    assert!(tree[mesh.counted().len()..].iter().all(|label| !label));
}

#[test]
fn the_promises_hold_on_random_connected_meshes() {
    let random = &mut Random::new(3);
    for mesh in meshes(random) {
        for root in roots(&mesh, random) {
            assert_promises(&mesh, root);
        }
    }
}

#[test]
fn the_promises_hold_from_every_root_of_the_largest_meshes() {
    let random = &mut Random::new(4);
    let starts = [
        shapes::path(64),
        shapes::star(64, 31),
        shapes::grid(8, 8),
        shapes::two_hubs(64),
        shapes::ring_with_steps(64, &[5, 14, 23]),
    ];
    for start in starts {
        for more in [0, MOST_LINKS - start.len()] {
            let shape = shapes::with_more(64, start.clone(), more, random);
            let mesh = plain(64, &shape);
            for root in 0..64 {
                assert_promises(&mesh, root);
                assert_eq!(collected(&mesh, root), Search::from(&mesh, root));
            }
        }
    }
}

#[test]
fn lengths_pairs_and_ducts_do_not_matter() {
    let random = &mut Random::new(5);
    for mesh in meshes(random) {
        let shape: Vec<(u8, u8)> = mesh.counted().iter().map(|l| (l.low, l.high)).collect();
        let bare = plain(mesh.nodes, &shape);
        for root in roots(&mesh, random) {
            assert_eq!(collected(&mesh, root), collected(&bare, root));
        }
    }
}
