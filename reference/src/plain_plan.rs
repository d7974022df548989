//! The plan by its definition, to check the planner with: on meshes with few
//! links every assignment is tried in order.

use crate::mesh::Mesh;
use crate::plan::{plan, Plan};
use crate::refusal::{Answer, Reason, Refusal};
use crate::walks::{arc, both_ways, join_all, lowest_unmet, Arc};

/// With at most so many links every assignment is tried.
pub const FEW_LINKS: usize = 12;

/// Plans a mesh; an error if the definition gives something else.
pub fn checked_plan(mesh: &Mesh) -> Result<(Plan, Answer), String> {
    let (plan, answer) = plan(mesh);
    let agrees = match check(mesh) {
        Err(refusal) => (&plan, answer) == (&Plan::ZERO, Err(refusal)),
        Ok(()) => answer == Ok(()) && is_first(mesh, &plan),
    };
    match agrees {
        true => Ok((plan, answer)),
        false => Err("the planner and the definition differ".to_string()),
    }
}

/// Order of planning: mesh, 20, 21.
fn check(mesh: &Mesh) -> Answer {
    mesh.check()?;
    // 20: no path between some two nodes.
    if let Some(node) = lowest_unmet(mesh, &both_ways(mesh.counted().iter())) {
        return Err(Refusal::new(Reason::NoPath, node.into()));
    }
    // 21: some link's removal parts the mesh.
    match (0..mesh.counted().len()).find(|link| parts(mesh, *link)) {
        Some(link) => Err(Refusal::new(Reason::RemovalParts, link)),
        None => Ok(()),
    }
}

fn parts(mesh: &Mesh, link: usize) -> bool {
    let links = mesh.counted();
    let others = links[..link].iter().chain(&links[link + 1..]);
    lowest_unmet(mesh, &both_ways(others)).is_some()
}

fn is_first(mesh: &Mesh, plan: &Plan) -> bool {
    let few = mesh.counted().len() <= FEW_LINKS;
    is_tight(mesh, plan) && (!few || first_of_all(mesh).as_ref() == Some(plan))
}

/// The first admissible assignment of all, compared from link 0 on.
pub fn first_of_all(mesh: &Mesh) -> Option<Plan> {
    let count = mesh.counted().len();
    let mut plans = (0..1 << count).map(|number| numbered(number, count));
    plans.find(|plan| is_admissible(mesh, plan))
}

/// The assignments in order: link 0 has the highest bit of the number.
fn numbered(number: usize, count: usize) -> Plan {
    let mut plan = Plan::ZERO;
    for link in 0..count {
        plan.directions[link] = (number >> (count - 1 - link) & 1) as u8;
    }
    plan
}

/// From every node a directed path leads to every other.
fn is_admissible(mesh: &Mesh, plan: &Plan) -> bool {
    join_all(mesh, &directed(mesh, plan, mesh.counted().len()))
}

/// Whether the plan is admissible and no 1 in it can be a 0, not even with all
/// links after it both ways. Such a plan is the first: an earlier one would
/// have a 0 for a 1 at the first link where they differ.
fn is_tight(mesh: &Mesh, plan: &Plan) -> bool {
    let count = mesh.counted().len();
    let forced = |link| plan.directions[link] == 0 || !can_be_0(mesh, plan, link);
    let rest_is_0 = plan.directions[count..] == Plan::ZERO.directions[count..];
    rest_is_0 && is_admissible(mesh, plan) && (0..count).all(forced)
}

/// Whether a walk leads from every node to every other with the plan's arcs up
/// to this link, its arc in direction 0, and the links after it both ways.
fn can_be_0(mesh: &Mesh, plan: &Plan, link: usize) -> bool {
    let links = mesh.counted();
    let mut arcs = directed(mesh, plan, link);
    arcs.push(arc(&links[link], 0));
    arcs.extend(both_ways(links[link + 1..].iter()));
    join_all(mesh, &arcs)
}

/// The plan's arcs of the first `count` links.
fn directed(mesh: &Mesh, plan: &Plan, count: usize) -> Vec<Arc> {
    let links = mesh.counted()[..count].iter();
    let both = links.zip(&plan.directions);
    both.map(|(link, direction)| arc(link, *direction))
        .collect()
}
