//! The survey by its definition, to check the walk with: each link is taken away
//! in turn, and walks are looked for along all others.

use crate::mesh::Mesh;
use crate::refusal::Answer;
use crate::survey::{survey, Survey};
use crate::walks::{both_ways, met_from};

/// Surveys a mesh; an error if the definition gives something else.
pub fn checked_survey(mesh: &Mesh) -> Result<(Survey, Answer), String> {
    let surveyed = survey(mesh);
    match surveyed == plain_survey(mesh) {
        true => Ok(surveyed),
        false => Err("the survey and its definition differ".to_string()),
    }
}

pub fn plain_survey(mesh: &Mesh) -> (Survey, Answer) {
    let mut survey = Survey::ZERO;
    let answer = mesh.check();
    if answer.is_ok() {
        for node in 0..mesh.nodes {
            survey.parts[usize::from(node)] = lowest_of_part(mesh, node);
        }
        for link in 0..mesh.counted().len() {
            survey.bridging[link] = is_bridging(mesh, link);
        }
    }
    (survey, answer)
}

/// The lowest node that a walk from this one meets, itself included.
fn lowest_of_part(mesh: &Mesh, node: u8) -> u8 {
    let met = met_from(node, &both_ways(mesh.counted().iter()));
    let lowest = (0..=node).find(|node| met[usize::from(*node)]);
    lowest.expect("a node meets itself")
}

/// Whether no walk along the other links leads from one end to the other.
fn is_bridging(mesh: &Mesh, link: usize) -> bool {
    let links = mesh.counted();
    let others = links[..link].iter().chain(&links[link + 1..]);
    let met = met_from(links[link].low, &both_ways(others));
    !met[usize::from(links[link].high)]
}
