//! What the surveys of graphs and meshes give, for the tests.

use std::collections::BTreeMap;

use super::super::graphs::Graph;
use super::bare;
use crate::mesh::Mesh;
use crate::survey::survey;

/// How often each refusal number is met; 0 is the number of an accepted survey.
pub fn met(meshes: &[Mesh]) -> BTreeMap<u8, usize> {
    let mut numbers = BTreeMap::new();
    for mesh in meshes {
        let (_, answer) = survey(mesh);
        let number = answer.map_or_else(|refusal| refusal.number(), |()| 0);
        *numbers.entry(number).or_default() += 1;
    }
    numbers
}

/// The number of parts and of bridging links of a graph.
pub fn counted(graph: &Graph) -> (usize, usize) {
    let (survey, answer) = survey(&bare(graph));
    assert_eq!(answer, Ok(()));
    let parts = survey.nodes_of_parts(graph.0).len();
    (parts, survey.bridges().count())
}

/// The numbers of the bridging links of a graph.
pub fn bridges(graph: &Graph) -> Vec<u16> {
    survey(&bare(graph)).0.bridges().collect()
}
