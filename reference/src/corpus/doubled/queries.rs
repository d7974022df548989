//! Duct queries on meshes with several links between the same nodes: the links
//! of a span in one duct, and in different ones.

use super::super::ducts::grounds::ways;
use super::super::ducts::queries::{case, every_link, needed};
use super::super::graphs::joined;
use super::super::meshes::{partly_filled, with_ducts};
use super::super::shapes::{self, complete};
use super::super::wrong_meshes::with_ends;
use super::graphs::{each, each_but, random_ones, two_nodes};
use super::grounds::bare;
use crate::case::Case;
use crate::mesh::{Mesh, MOST_LINKS};
use crate::random::Random;

pub fn cases(random: &mut Random) -> Vec<Case> {
    let mut cases = Vec::new();
    for mesh in [
        bare(&two_nodes(2)),
        bridge(),
        bare(&each(&(3, complete(3)), 2)),
    ] {
        for mesh in by_spans(&mesh) {
            cases.extend(every_link(&mesh));
        }
    }
    for mesh in ways(&bare(&each(&(4, shapes::path(4)), 2))) {
        cases.extend(every_link(&mesh).into_iter().step_by(2));
    }
    for (nodes, shape) in random_ones(40, 9, random) {
        let mesh = partly_filled(nodes, &shape, random);
        let link = random.below(mesh.counted().len()) as u16;
        cases.push(case(needed(&mesh, link) + random.below(3), link, &mesh));
    }
    cases.extend(with_256_links());
    cases.extend(falling());
    cases
}

/// Two triangles that two links join.
fn bridge() -> Mesh {
    let triangle = (3, complete(3));
    let graph = joined(&triangle, &triangle, &[(2, 0)]);
    let doubled = |ends: (u8, u8)| if ends == (2, 3) { 2 } else { 1 };
    bare(&(graph.0, shapes::repeated(&graph.1, doubled)))
}

/// A duct for each span, so that a dig there cuts all of its links; a duct for
/// the first links and one for the others, so that a dig leaves each span; the
/// second link of each span alone in a duct, which it shares with those of the
/// other spans.
fn by_spans(mesh: &Mesh) -> [Mesh; 3] {
    let links = mesh.counted();
    let again = |link: usize| link > 0 && links[link].ends() == links[link - 1].ends();
    let span = |link: usize| u16::from(links[link].low) * 64 + u16::from(links[link].high);
    [
        with_ducts(mesh, span),
        with_ducts(mesh, |link| if again(link) { 2 } else { 1 }),
        with_ducts(mesh, |link| if again(link) { 300 } else { 0 }),
    ]
}

/// 256 links between two nodes, in ducts shared in three ways.
fn with_256_links() -> Vec<Case> {
    let base = bare(&two_nodes(MOST_LINKS));
    let mut cases = Vec::new();
    for mesh in [
        with_ducts(&base, |_| 9),
        with_ducts(&base, |link| [1, 256][link % 2]),
        with_ducts(&base, |link| link as u16 / 100),
    ] {
        for link in [0, 255] {
            cases.push(case(needed(&mesh, link), link, &mesh));
        }
        cases.push(case(needed(&mesh, 200) - 1, 200, &mesh));
    }
    cases
}

/// 8 after equal pairs, whatever the link and the output.
fn falling() -> Vec<Case> {
    let base = bare(&each_but(&(3, complete(3)), (0, 1), 2));
    let mut cases = Vec::new();
    for at in 2..5 {
        let wrong = with_ends(&base, at, 0, 1);
        for (room, link) in [(5, 0), (0, 1), (5, 9), (0, 9)] {
            cases.push(case(room, link, &wrong));
        }
    }
    cases
}

#[cfg(test)]
mod tests {
    use super::*;
    use crate::ducts::{groups, sharing};
    use crate::plan::plan;
    use crate::refusal::{Reason, Refusal};

    /// What planning says of the mesh without the links of a duct.
    fn without(mesh: &Mesh, duct: u16) -> Option<u8> {
        let left = mesh.counted().iter().filter(|link| link.duct != duct);
        let left: Vec<_> = left.copied().collect();
        let (_, answer) = plan(&Mesh::new(mesh.nodes, &left));
        answer.err().map(|refusal| refusal.number())
    }

    #[test]
    fn a_dig_parts_the_bridge_only_where_both_links_share_the_duct() {
        let [by_span, by_order, _] = by_spans(&bridge());
        let duct = by_span.links[3].duct;
        assert_eq!(
            groups(&by_span).iter().filter(|one| one.len() == 2).count(),
            1
        );
        assert_eq!(without(&by_span, duct), Some(20));
        assert_eq!(without(&by_order, 2), Some(21));
    }

    #[test]
    fn falling_pairs_meet_8() {
        for one in falling() {
            let Case::Ducts { room, link, mesh } = one else {
                panic!("another case");
            };
            let mut output = vec![0; room.into()];
            let refusal = sharing(&mesh, link, &mut output).unwrap_err();
            assert_eq!(refusal, Refusal::new(Reason::BelowPrevious, refusal.place));
        }
    }
}
