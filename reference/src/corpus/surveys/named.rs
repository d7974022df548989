//! Graphs with a name, with the nodes as they are and in a random order.

use super::super::graphs::Graph;
use super::super::named_graphs;
use crate::random::Random;

/// One in four of the graphs that are planned.
pub fn graphs(random: &mut Random) -> Vec<Graph> {
    let graphs = named_graphs::graphs(random);
    graphs.into_iter().step_by(4).collect()
}
