//! The job that collects from each node in turn.

use std::hint::black_box;

use crate::collection::{collect, tree_links, Labels, MOST_ENTRIES, NO_TREE};
use crate::mesh::Mesh;
use crate::refusal::{in_words, Refusal};

/// One route from each root in turn; all of what the last one gave is in the
/// line.
pub fn collect_line(repeats: u32, mesh: &Mesh) -> String {
    let mut output = [0; MOST_ENTRIES];
    match collect_often(repeats, mesh, &mut output) {
        (_, Err(refusal)) => format!("B {}", in_words(Err(refusal))),
        (tree, Ok(count)) => {
            let tree = tree_links(&tree).count();
            let sum = weighted_sum(&output[..count]);
            format!("B accepted {count} {tree} {sum}")
        }
    }
}

fn collect_often(
    repeats: u32,
    mesh: &Mesh,
    output: &mut [u8; MOST_ENTRIES],
) -> (Labels, Result<usize, Refusal>) {
    let mut last = (NO_TREE, Ok(0));
    for number in 0..repeats {
        // An accepted book has at least two nodes.
        let root = (number % u32::from(mesh.nodes)) as u8;
        let given = collect(black_box(mesh), black_box(root), black_box(output));
        last = black_box(given);
    }
    last
}

/// The sum of the nodes, each times its position counted from 1, so that their
/// order counts too.
fn weighted_sum(route: &[u8]) -> usize {
    let numbered = (1..).zip(route);
    numbered
        .map(|(place, node)| place * usize::from(*node))
        .sum()
}
