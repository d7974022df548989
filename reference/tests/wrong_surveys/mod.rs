//! Wrong surveys, each with what is wrong in it.

use reference::mesh::{Link, Mesh, MOST_NODES};
use reference::plan::plan;
use reference::refusal::{Answer, Reason, Refusal};
use reference::survey::{survey, Survey};
use reference::walks::{both_ways, met_from};

pub type Surveyed = (Survey, Answer);

/// What a wrong survey says of a link, from the mesh and the right survey.
pub type Test = fn(&Mesh, &Survey, usize) -> bool;

/// What a wrong survey says of a node, from the mesh and the right survey.
pub type Name = fn(&Mesh, &Survey, usize) -> u8;

/// A wrong survey as a whole.
pub type Whole = fn(&Mesh) -> Surveyed;

fn without(mesh: &Mesh, link: usize) -> Mesh {
    let links: Vec<Link> = mesh.counted().to_vec();
    let others = [&links[..link], &links[link + 1..]].concat();
    Mesh::new(mesh.nodes, &others)
}

fn count_parts(mesh: &Mesh) -> usize {
    let (survey, _) = survey(mesh);
    survey.nodes_of_parts(mesh.nodes).len()
}

/// How many links a node has.
fn degree(mesh: &Mesh, node: u8) -> usize {
    let links = mesh.counted().iter();
    links
        .filter(|link| link.low == node || link.high == node)
        .count()
}

/// Whether the links of one number and of the one after it have the same ends.
fn repeats_after(mesh: &Mesh, link: usize) -> bool {
    let next = mesh.counted().get(link + 1);
    next.is_some_and(|next| next.ends() == mesh.links[link].ends())
}

/// Whether the link before or after has the same ends.
fn repeats(mesh: &Mesh, link: usize) -> bool {
    repeats_after(mesh, link) || link > 0 && repeats_after(mesh, link - 1)
}

/// Whether a link joins two nodes.
fn is_near(mesh: &Mesh, node: u8, other: u8) -> bool {
    let ends = (node.min(other).into(), node.max(other).into());
    mesh.counted().iter().any(|link| link.ends() == ends)
}

/// As if every pair stood once.
fn bridges_as_single(mesh: &Mesh, link: usize) -> bool {
    let ends = mesh.links[link].ends();
    let others = mesh.counted().iter().filter(|other| other.ends() != ends);
    let met = met_from(mesh.links[link].low, &both_ways(others));
    !met[usize::from(mesh.links[link].high)]
}

pub const WRONG_BRIDGES: [(&str, Test); 18] = [
    ("none is", |_, _, _| false),
    ("all are", |_, _, _| true),
    ("the rest is not one part", |mesh, _, link| {
        count_parts(&without(mesh, link)) > 1
    }),
    ("only where the mesh is one part", |mesh, survey, link| {
        survey.bridging[link] && count_parts(mesh) == 1
    }),
    ("only in the part of node 0", |mesh, survey, link| {
        survey.bridging[link] && survey.parts[usize::from(mesh.links[link].low)] == 0
    }),
    ("only the first", |_, survey, link| {
        survey.bridges().next() == Some(link as u16)
    }),
    ("only the last", |_, survey, link| {
        survey.bridges().last() == Some(link as u16)
    }),
    ("not the last link", |mesh, survey, link| {
        survey.bridging[link] && link + 1 < mesh.counted().len()
    }),
    ("not link 0", |_, survey, link| {
        survey.bridging[link] && link > 0
    }),
    ("not link 255", |_, survey, link| {
        survey.bridging[link] && link < 255
    }),
    ("not at node 63", |mesh, survey, link| {
        survey.bridging[link] && mesh.links[link].high < 63
    }),
    ("not at node 0", |mesh, survey, link| {
        survey.bridging[link] && mesh.links[link].low > 0
    }),
    ("equal pairs as one", |mesh, _, link| {
        bridges_as_single(mesh, link)
    }),
    ("the first of equal pairs too", |mesh, survey, link| {
        let first = link == 0 || !repeats_after(mesh, link - 1);
        survey.bridging[link] || first && bridges_as_single(mesh, link)
    }),
    ("the last of equal pairs too", |mesh, survey, link| {
        let last = !repeats_after(mesh, link);
        survey.bridging[link] || last && bridges_as_single(mesh, link)
    }),
    ("an end has one link", |mesh, _, link| {
        let Link { low, high, .. } = mesh.links[link];
        degree(mesh, low) == 1 || degree(mesh, high) == 1
    }),
    ("both ends have more than one link", |mesh, survey, link| {
        let Link { low, high, .. } = mesh.links[link];
        survey.bridging[link] && degree(mesh, low) > 1 && degree(mesh, high) > 1
    }),
    ("no third node is joined to both ends", |mesh, _, link| {
        let Link { low, high, .. } = mesh.links[link];
        let are_joined = |node| is_near(mesh, node, low) && is_near(mesh, node, high);
        !repeats(mesh, link) && !(0..mesh.nodes).any(are_joined)
    }),
];

pub const WRONG_PARTS: [(&str, Name); 11] = [
    ("each node its own", |_, _, node| node as u8),
    ("all are node 0's", |_, _, _| 0),
    ("the highest node", |mesh, survey, node| {
        let mut nodes = (0..mesh.nodes).rev();
        let same = nodes.find(|other| survey.parts[usize::from(*other)] == survey.parts[node]);
        same.unwrap()
    }),
    ("the number of the part", |mesh, survey, node| {
        let parts = survey.nodes_of_parts(mesh.nodes);
        let part = parts.iter().position(|part| part[0] == survey.parts[node]);
        part.unwrap() as u8
    }),
    ("node 0's or its own", |_, survey, node| {
        match survey.parts[node] {
            0 => 0,
            _ => node as u8,
        }
    }),
    ("node 0's or the first other", |_, survey, node| {
        let first = survey.parts.iter().copied().find(|part| *part > 0);
        survey.parts[node].min(first.unwrap_or(0))
    }),
    ("node 63 is node 0's", |_, survey, node| match node {
        63 => 0,
        _ => survey.parts[node],
    }),
    ("node 63 is its own", |_, survey, node| match node {
        63 => 63,
        _ => survey.parts[node],
    }),
    ("the lowest neighbour", |mesh, _, node| {
        let links = mesh.counted().iter();
        let at = links.filter(|link| usize::from(link.high) == node);
        at.map(|link| link.low).min().unwrap_or(node as u8)
    }),
    ("one round over the links", |mesh, _, node| {
        rounds(mesh, 1, node)
    }),
    ("60 rounds over the links", |mesh, _, node| {
        rounds(mesh, 60, node)
    }),
];

/// The lowest of the numbers that so many rounds bring to a node, each link
/// giving both of its ends the lower of theirs.
fn rounds(mesh: &Mesh, count: usize, node: usize) -> u8 {
    let mut names: Vec<u8> = (0..mesh.nodes).collect();
    for _ in 0..count {
        for link in mesh.counted() {
            let ends = [link.low, link.high].map(usize::from);
            let lower = names[ends[0]].min(names[ends[1]]);
            names[ends[0]] = lower;
            names[ends[1]] = lower;
        }
    }
    names[node]
}

pub const WRONG_ANSWERS: [(&str, Whole); 8] = [
    ("planning's refusals", |mesh| match plan(mesh).1 {
        Ok(()) => survey(mesh),
        Err(refusal) => (Survey::ZERO, Err(refusal)),
    }),
    ("planning's answer", |mesh| (survey(mesh).0, plan(mesh).1)),
    ("no mesh check", |mesh| (surveyed_anyway(mesh), Ok(()))),
    ("a refusal with a survey", |mesh| {
        (surveyed_anyway(mesh), mesh.check())
    }),
    ("no 13", |mesh| {
        let mut good = mesh.clone();
        good.links[mesh.counted().len()..].fill(Link::ZERO);
        survey(&good)
    }),
    ("equal pairs meet 8", |mesh| {
        let mut links = 0..mesh.counted().len();
        match links.find(|link| repeats_after(mesh, *link)) {
            Some(link) => {
                let refusal = Refusal::new(Reason::BelowPrevious, link + 1);
                (Survey::ZERO, Err(refusal))
            }
            None => survey(mesh),
        }
    }),
    ("numbers past N name themselves", |mesh| {
        let (mut survey, answer) = survey(mesh);
        for node in usize::from(mesh.nodes)..64 {
            survey.parts[node] = node as u8;
        }
        (survey, answer)
    }),
    ("entries past L are bridging", |mesh| {
        let (mut survey, answer) = survey(mesh);
        survey.bridging[mesh.counted().len()..].fill(true);
        (survey, answer)
    }),
];

/// The survey of a mesh, checked or not: of its links up to the first one that
/// no mesh can have.
fn surveyed_anyway(mesh: &Mesh) -> Survey {
    let can_be = |link: &&Link| link.low < link.high && link.high < MOST_NODES;
    let mut links: Vec<Link> = mesh.counted().iter().take_while(can_be).copied().collect();
    links.sort_by_key(Link::ends);
    let (mut survey, _) = survey(&Mesh::new(MOST_NODES, &links));
    for part in survey.parts.iter_mut().skip(mesh.nodes.into()) {
        *part = 0;
    }
    survey
}
