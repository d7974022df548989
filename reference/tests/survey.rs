//! The survey against its definition, and against the planner; and its command
//! as it is run.

mod program;

use reference::corpus::doubled::graphs::{every, random_ones, some_times, two_nodes};
use reference::corpus::graphs::{renumbered, side_by_side, Graph};
use reference::corpus::meshes::{partly_filled, plain};
use reference::corpus::shapes::{self, chosen, complete};
use reference::mesh::{Mesh, MOST_LINKS, MOST_NODES};
use reference::plain_survey::plain_survey;
use reference::plan::plan;
use reference::random::Random;
use reference::refusal::{Answer, Reason, Refusal};
use reference::survey::{survey, Survey};

use program::run;

const P5: [u8; 13] = [1, 4, 5, 0, 0, 2, 2, 2, 3, 1, 1, 1, 2];

/// What planning answers to a mesh with this survey.
fn planned(mesh: &Mesh, survey: &Survey) -> Answer {
    let nodes = 0..usize::from(mesh.nodes);
    if let Some(node) = nodes.clone().find(|node| survey.parts[*node] != 0) {
        return Err(Refusal::new(Reason::NoPath, node));
    }
    match survey.bridges().next() {
        Some(link) => Err(Refusal::new(Reason::RemovalParts, link.into())),
        None => Ok(()),
    }
}

/// A part is named by its lowest node, both ends of a link are in one part, and
/// what is no node or no link has no entry.
fn assert_sound(mesh: &Mesh, survey: &Survey) {
    for (node, part) in survey.parts.iter().enumerate() {
        let part = usize::from(*part);
        assert!(part <= node && usize::from(survey.parts[part]) == part);
    }
    for link in mesh.counted() {
        let [low, high] = [link.low, link.high].map(|node| survey.parts[usize::from(node)]);
        assert_eq!(low, high);
    }
    let nodes = usize::from(mesh.nodes);
    assert!(survey.parts[nodes..].iter().all(|part| *part == 0));
    let past = &survey.bridging[mesh.counted().len()..];
    assert!(past.iter().all(|bridging| !bridging));
}

/// A link with another one beside it that has the same ends is not bridging.
fn assert_doubled_links_do_not_bridge(mesh: &Mesh, survey: &Survey) {
    for (first, two) in mesh.counted().windows(2).enumerate() {
        if two[0].ends() == two[1].ends() {
            assert!(!survey.bridging[first] && !survey.bridging[first + 1]);
        }
    }
}

/// A mesh of N nodes in P parts with B bridging links: without these it has
/// P + B parts, because each parts one.
fn assert_counts(mesh: &Mesh, survey: &Survey) {
    let numbered = mesh.counted().iter().zip(&survey.bridging);
    let kept = numbered.filter(|(_, bridging)| !**bridging);
    let ends: Vec<(u8, u8)> = kept.map(|(link, _)| (link.low, link.high)).collect();
    let (rest, _) = plain_survey(&plain(mesh.nodes, &ends));
    let parts = |survey: &Survey| survey.nodes_of_parts(mesh.nodes).len();
    assert_eq!(parts(&rest), parts(survey) + survey.bridges().count());
    assert_eq!(rest.bridges().count(), 0);
}

/// The answer of planning to a mesh that is surveyed as its definition says.
fn assert_surveyed(mesh: &Mesh) -> Answer {
    let (survey, answer) = survey(mesh);
    assert_eq!((survey.clone(), answer), plain_survey(mesh));
    assert_eq!(answer, mesh.check());
    assert_sound(mesh, &survey);
    assert_doubled_links_do_not_bridge(mesh, &survey);
    assert_counts(mesh, &survey);
    let (_, planned_answer) = plan(mesh);
    assert_eq!(planned_answer, planned(mesh, &survey));
    planned_answer
}

/// How many of these planning accepts, refuses 20 and refuses 21.
fn counts(meshes: impl Iterator<Item = Mesh>) -> [usize; 3] {
    let mut counts = [0; 3];
    for mesh in meshes {
        match assert_surveyed(&mesh) {
            Ok(()) => counts[0] += 1,
            Err(refusal) if refusal.reason == Reason::NoPath => counts[1] += 1,
            Err(_) => counts[2] += 1,
        }
    }
    counts
}

fn counts_of(graphs: &[Graph]) -> [usize; 3] {
    counts(graphs.iter().map(|(nodes, shape)| plain(*nodes, shape)))
}

#[test]
fn every_mesh_with_up_to_5_nodes() {
    let on = |nodes: u8| {
        let choices = 0..1 << complete(nodes).len();
        counts(choices.map(|choice| plain(nodes, &chosen(nodes, choice))))
    };
    // 1, 4, 38 and 728 graphs are connected; 0, 1, 10 and 253 have no bridge.
    assert_eq!(on(2), [0, 1, 1]);
    assert_eq!(on(3), [1, 4, 3]);
    assert_eq!(on(4), [10, 26, 28]);
    assert_eq!(on(5), [253, 296, 475]);
}

#[test]
fn every_number_of_links_on_each_pair_of_up_to_4_nodes() {
    assert_eq!(counts_of(&every(2, 20)), [19, 1, 1]);
    let [accepted, apart, bridged] = counts_of(&every(3, 4));
    assert_eq!(accepted, 3 * (3 * 3) + 4 * 4 * 4);
    // At most one pair of three has links.
    assert_eq!(apart, 1 + 3 * 4);
    assert_eq!(accepted + apart + bridged, 125);
    assert_eq!(counts_of(&every(4, 2)).iter().sum::<usize>(), 729);
}

#[test]
fn two_nodes_with_up_to_256_links() {
    for links in 0..=MOST_LINKS {
        let (nodes, shape) = two_nodes(links);
        let expected = [links >= 2, links == 0, links == 1].map(usize::from);
        assert_eq!(counts_of(&[(nodes, shape)]), expected);
    }
}

#[test]
fn random_meshes() {
    let random = &mut Random::new(1);
    let mut meshes = Vec::new();
    for _ in 0..4_000 {
        let nodes = random.between(2, 12) as u8;
        let count = random.below(2 * usize::from(nodes));
        let shape = shapes::scattered(nodes, count, random);
        meshes.push(partly_filled(nodes, &shape, random));
    }
    for _ in 0..300 {
        let nodes = random.between(13, MOST_NODES.into()) as u8;
        let count = random.between(usize::from(nodes) / 2, 2 * usize::from(nodes));
        let shape = shapes::scattered(nodes, count, random);
        meshes.push(partly_filled(nodes, &shape, random));
    }
    let counts = counts(meshes.into_iter());
    assert!(counts.iter().all(|count| *count > 150), "{counts:?}");
}

#[test]
fn random_meshes_with_repeated_links() {
    let random = &mut Random::new(2);
    let mut graphs = random_ones(3_000, 10, random);
    graphs.extend(random_ones(200, MOST_NODES.into(), random));
    let counts = counts_of(&graphs);
    assert!(counts.iter().all(|count| *count > 300), "{counts:?}");
}

#[test]
fn random_meshes_that_are_apart() {
    let random = &mut Random::new(3);
    let mut graphs = Vec::new();
    for turn in 0..600 {
        let mut graph = some_part(random);
        for _ in 0..1 + turn % 4 {
            graph = side_by_side(&graph, &some_part(random));
        }
        graphs.push(renumbered_with_repeats(&graph, random));
    }
    assert_eq!(counts_of(&graphs), [0, 600, 0]);
}

/// Up to 12 nodes in one part: a tree with a few more links, or one node.
fn some_part(random: &mut Random) -> Graph {
    let nodes = random.between(1, 12) as u8;
    let tree = shapes::tree(nodes, random);
    let more = random.below(4);
    (nodes, shapes::with_more(nodes, tree, more, random))
}

fn renumbered_with_repeats(graph: &Graph, random: &mut Random) -> Graph {
    let graph = renumbered(graph, random);
    match random.below(2) {
        0 => some_times(&graph, 1, 2, random),
        _ => graph,
    }
}

#[test]
fn lengths_pairs_and_ducts_do_not_matter() {
    let random = &mut Random::new(4);
    for (nodes, shape) in random_ones(300, 20, random) {
        let filled = partly_filled(nodes, &shape, random);
        assert_eq!(survey(&filled), survey(&plain(nodes, &shape)));
    }
}

#[test]
fn survey_prints_parts_and_bridging_links() {
    assert_eq!(run(&["survey"], &P5).stdout, b"survey 1 0\npart 0 1 2 3\n");
    // The links (0, 3) and (1, 2).
    let expected = b"survey 2 2\npart 0 3\npart 1 2\nbridge 0 0 3\nbridge 1 1 2\n";
    assert_eq!(run(&["survey"], &[1, 4, 2, 0, 2, 3, 1, 1]).stdout, expected);
    assert_eq!(run(&["survey"], b"").stdout, b"read refused 1 0\n");
    assert_eq!(run(&["survey", "1"], b"").status.code(), Some(2));
}
