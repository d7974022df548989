//! Random graphs, sparse and dense.

use super::graphs::{renumbered, Graph};
use super::shapes;
use crate::random::Random;

pub fn graphs(random: &mut Random) -> Vec<Graph> {
    let mut graphs = rings_with_chords(random);
    graphs.extend(ears(random));
    for graph in graphs.iter_mut().step_by(2) {
        *graph = renumbered(graph, random);
    }
    graphs.extend(small(random));
    graphs.extend(sparse(random));
    graphs.extend(dense(random));
    graphs
}

fn rings_with_chords(random: &mut Random) -> Vec<Graph> {
    let mut graphs = Vec::new();
    for turn in 0..130 {
        let nodes = random.between(4, if turn < 90 { 20 } else { 64 }) as u8;
        let chords = random.between(1, usize::from(nodes));
        let ring = shapes::ring(nodes);
        graphs.push((nodes, shapes::with_more(nodes, ring, chords, random)));
    }
    graphs
}

/// Paths added to paths, some with a few more links.
fn ears(random: &mut Random) -> Vec<Graph> {
    let mut graphs = Vec::new();
    for turn in 0..180 {
        let nodes = random.between(4, if turn < 120 { 16 } else { 64 }) as u8;
        let more = random.below(5) * (turn % 3);
        let ears = shapes::ears(nodes, random);
        graphs.push((nodes, shapes::with_more(nodes, ears, more, random)));
    }
    graphs
}

/// Up to 7 nodes and 12 links.
fn small(random: &mut Random) -> Vec<Graph> {
    let mut graphs = Vec::new();
    for _ in 0..200 {
        let nodes = random.between(4, 7) as u8;
        let count = random.between(nodes.into(), 12);
        graphs.push((nodes, shapes::scattered(nodes, count, random)));
    }
    graphs
}

/// About one to three links for each node.
fn sparse(random: &mut Random) -> Vec<Graph> {
    let mut graphs = Vec::new();
    for _ in 0..140 {
        let nodes = random.between(6, 64) as u8;
        let count = random.between(usize::from(nodes) - 2, usize::from(nodes) * 3);
        graphs.push((nodes, shapes::scattered(nodes, count, random)));
    }
    graphs
}

/// From two links for each node up to all pairs.
fn dense(random: &mut Random) -> Vec<Graph> {
    let mut graphs = Vec::new();
    for _ in 0..70 {
        let nodes = random.between(6, 36);
        let most = (nodes * (nodes - 1) / 2).min(256);
        let count = random.between(nodes * 2, most);
        let nodes = nodes as u8;
        graphs.push((nodes, shapes::scattered(nodes, count, random)));
    }
    graphs
}
