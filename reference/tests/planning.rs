//! The planner, and the plain one in two passes, against the definition of the
//! plan.

use reference::case::Case;
use reference::corpus;
use reference::corpus::doubled::graphs::{every, random_ones, some_times, two_nodes};
use reference::corpus::graphs::Graph;
use reference::corpus::meshes::{plain, random_mesh};
use reference::corpus::shapes::{chosen, ears, scattered, with_more};
use reference::mesh::Mesh;
use reference::plain_plan::{checked_plan, first_of_all, FEW_LINKS};
use reference::plan::{plan, Plan};
use reference::random::Random;
use reference::two_pass_plan;

/// Whether planning accepts the mesh; the definition and the other planner must
/// agree.
fn is_accepted(mesh: &Mesh) -> bool {
    let (plan, answer) = checked_plan(mesh).expect("the definition gives the same");
    assert_eq!(two_pass_plan::plan(mesh), (plan, answer));
    answer.is_ok()
}

fn count_accepted(graphs: &[Graph]) -> usize {
    let meshes = graphs.iter().map(|(nodes, shape)| plain(*nodes, shape));
    meshes.filter(is_accepted).count()
}

#[test]
fn every_mesh_with_up_to_4_nodes() {
    let mut accepted = Vec::new();
    for (nodes, pairs) in [(2, 1), (3, 3), (4, 6)] {
        let meshes = (0..1 << pairs).map(|choice| plain(nodes, &chosen(nodes, choice)));
        accepted.push(meshes.filter(is_accepted).count());
    }
    // The triangle; three rings of 4, six with a chord, and the complete one.
    assert_eq!(accepted, [0, 1, 10]);
}

#[test]
fn random_meshes_with_up_to_7_nodes_and_12_links() {
    let random = &mut Random::new(1);
    let mut accepted = 0;
    for _ in 0..6_000 {
        let nodes = random.between(2, 7) as u8;
        let count = random.between(nodes.into(), FEW_LINKS);
        let mesh = plain(nodes, &scattered(nodes, count, random));
        accepted += usize::from(is_accepted(&mesh));
    }
    assert!(accepted > 1_500);
}

#[test]
fn random_meshes_with_more_links() {
    let random = &mut Random::new(2);
    let mut accepted = 0;
    for turn in 0..400 {
        let nodes = random.between(8, 64) as u8;
        let links = ears(nodes, random);
        let more = random.below(if turn % 8 == 0 { 150 } else { 20 });
        let mesh = plain(nodes, &with_more(nodes, links, more, random));
        accepted += usize::from(is_accepted(&mesh));
    }
    assert_eq!(accepted, 400);
}

#[test]
fn every_planning_of_the_corpus() {
    for seed in 0..3 {
        for case in corpus::make(seed) {
            if let Case::Planning { mesh } = case {
                is_accepted(&mesh);
            }
        }
    }
}

#[test]
fn two_nodes_with_up_to_256_links() {
    for links in 0..=256 {
        let (nodes, shape) = two_nodes(links);
        let mesh = plain(nodes, &shape);
        assert_eq!(is_accepted(&mesh), links >= 2);
        // All but the last run one way.
        let mut expected = Plan::ZERO;
        if links >= 2 {
            expected.directions[links - 1] = 1;
        }
        assert_eq!(plan(&mesh).0, expected);
    }
}

#[test]
fn every_number_of_links_on_each_pair_of_3_and_4_nodes() {
    // Two of three pairs with 2 to 4 links each, or all three with 1 to 4 each.
    let on_3 = 3 * (3 * 3) + 4 * 4 * 4;
    assert_eq!(count_accepted(&every(3, 4)), on_3);
    let on_4 = count_accepted(&every(4, 2));
    assert!((300..729).contains(&on_4), "{on_4}");
}

#[test]
fn random_meshes_with_repeated_links_and_up_to_12_links() {
    let random = &mut Random::new(4);
    let mut graphs = random_ones(5_000, 6, random);
    graphs.retain(|graph| graph.1.len() <= FEW_LINKS);
    assert!(graphs.len() > 2_500, "{}", graphs.len());
    let accepted = count_accepted(&graphs);
    assert!((500..graphs.len() - 500).contains(&accepted), "{accepted}");
}

#[test]
fn random_meshes_with_repeated_links_and_more_links() {
    let random = &mut Random::new(5);
    let graphs = random_ones(400, 64, random);
    let accepted = count_accepted(&graphs);
    assert!((60..340).contains(&accepted), "{accepted}");
    for turn in 0..100 {
        let nodes = random.between(4, 64) as u8;
        let whole = (nodes, ears(nodes, random));
        let graph = some_times(&whole, 1, 2 + turn % 4, random);
        assert_eq!(count_accepted(&[graph]), 1);
    }
}

#[test]
fn lengths_and_fibre_pairs_do_not_matter() {
    let random = &mut Random::new(3);
    for _ in 0..200 {
        let mesh = random_mesh(12, random.below(40), random);
        let mut bare = mesh.clone();
        for link in &mut bare.links {
            (link.length, link.pair) = (0, 0);
        }
        assert_eq!(plan(&mesh), plan(&bare));
    }
}

#[test]
fn all_assignments_are_compared_from_link_0_on() {
    let ring = plain(4, &[(0, 1), (0, 3), (1, 2), (2, 3)]);
    let mut expected = Plan::ZERO;
    expected.directions[1] = 1;
    assert_eq!(first_of_all(&ring), Some(expected));
    assert_eq!(first_of_all(&plain(3, &[(0, 1), (1, 2)])), None);
}
