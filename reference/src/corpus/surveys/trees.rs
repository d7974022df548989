//! Trees: every link is bridging, and the mesh is one part.

use super::super::graphs::{renumbered, Graph};
use super::super::shapes;
use crate::random::Random;

const SIZES: [u8; 8] = [5, 6, 8, 17, 33, 62, 63, 64];

pub fn graphs(random: &mut Random) -> Vec<Graph> {
    let mut graphs = paths(random);
    graphs.extend(stars());
    for turn in 0..30 {
        let nodes = random.between(5, if turn % 2 == 0 { 12 } else { 64 }) as u8;
        let tree = (nodes, shapes::tree(nodes, random));
        graphs.push(renumbered(&tree, random));
        graphs.push(tree);
    }
    graphs
}

/// By rising nodes, in a random order, and from node 0 down from the highest
/// node to node 1, against the order of the links.
fn paths(random: &mut Random) -> Vec<Graph> {
    let mut graphs = Vec::new();
    for nodes in SIZES {
        let path = (nodes, shapes::path(nodes));
        graphs.push(renumbered(&path, random));
        graphs.push(path);
        let from_1 = (2..nodes).map(|node| (node - 1, node));
        let downwards = shapes::sorted(from_1.chain([(0, nodes - 1)]));
        graphs.push((nodes, downwards));
    }
    graphs
}

fn stars() -> Vec<Graph> {
    let of = |nodes| [0, nodes / 2, nodes - 1].map(|middle| (nodes, shapes::star(nodes, middle)));
    SIZES.into_iter().flat_map(of).collect()
}

#[cfg(test)]
mod tests {
    use super::super::met::counted;
    use super::*;

    #[test]
    fn every_link_is_bridging() {
        for seed in 0..20 {
            for graph in graphs(&mut Random::new(seed)) {
                let links = usize::from(graph.0) - 1;
                assert_eq!(counted(&graph), (1, links));
            }
        }
    }
}
