//! Meshes to plan that the mesh checks refuse, whatever planning would say, and
//! the same meshes with a pair that is repeated.

use super::graphs::side_by_side;
use super::meshes::plain;
use super::scripts::grounds::dense;
use super::shapes;
use super::wrong_meshes::{with_ends, with_wrong_link};
use crate::mesh::{Mesh, MOST_LINKS};
use crate::random::Random;

pub fn meshes(random: &mut Random) -> Vec<Mesh> {
    let mut meshes = Vec::new();
    for base in &bases(random) {
        meshes.extend(wrong_nodes(base));
        meshes.extend(wrong_ends(base));
        meshes.extend(wrong_order(base));
    }
    meshes.extend(no_links());
    meshes.extend(many_links(random));
    meshes.extend(every_position());
    meshes
}

/// Meshes that planning would accept, refuse by 20, and refuse by 21.
fn bases(random: &mut Random) -> Vec<Mesh> {
    let triangle = (3, shapes::complete(3));
    let (nodes, apart) = side_by_side(&triangle, &triangle);
    vec![
        plain(12, &shapes::ears(12, random)),
        plain(nodes, &apart),
        plain(9, &shapes::tree(9, random)),
    ]
}

/// 3, also with a wrong link.
fn wrong_nodes(base: &Mesh) -> Vec<Mesh> {
    let equal = with_ends(base, 0, 1, 1);
    let wrong = |nodes: u8, mesh: &Mesh| Mesh {
        nodes,
        ..mesh.clone()
    };
    vec![wrong(1, base), wrong(65, base), wrong(65, &equal)]
}

/// 7 and 6 in the first, a middle and the last link.
fn wrong_ends(base: &Mesh) -> Vec<Mesh> {
    let last = base.counted().len() - 1;
    let mut meshes = Vec::new();
    for at in [0, last / 2, last] {
        let (low, high) = (base.links[at].low, base.links[at].high);
        let nodes = base.nodes;
        for (low, high) in [(low, low), (high, low), (low, nodes), (nodes, nodes + 1)] {
            meshes.push(with_ends(base, at, low, high));
        }
    }
    meshes
}

/// A pair twice, and 8: two pairs in the wrong order.
fn wrong_order(base: &Mesh) -> Vec<Mesh> {
    let last = base.counted().len() - 1;
    let mut meshes = Vec::new();
    for at in [1, last] {
        let before = base.links[at - 1];
        meshes.push(with_ends(base, at, before.low, before.high));
        let mut swapped = base.clone();
        swapped.links.swap(at - 1, at);
        meshes.push(swapped);
    }
    meshes
}

/// 3 without a link.
fn no_links() -> Vec<Mesh> {
    [0, 1, 65, 255].map(|nodes| plain(nodes, &[])).into()
}

/// 7, 6 and a pair that is repeated in the last of 256 links, and 3.
fn many_links(random: &mut Random) -> Vec<Mesh> {
    let base = plain(64, &shapes::scattered(64, 256, random));
    let before = base.links[254];
    vec![
        with_ends(&base, 255, 63, 63),
        with_ends(&base, 255, 63, 64),
        with_ends(&base, 255, before.low, before.high),
        Mesh { nodes: 65, ..base },
    ]
}

/// 7, 6 and a pair that is repeated by turns in the last of 1 to 256 links.
fn every_position() -> Vec<Mesh> {
    let all = dense();
    let with_wrong_last = |last: usize| {
        let good = Mesh::new(all.nodes, &all.links[..=last]);
        with_wrong_link(&good, last)
    };
    (0..MOST_LINKS).map(with_wrong_last).collect()
}

#[cfg(test)]
mod tests {
    use super::*;
    use crate::plan::{plan, Plan};

    #[test]
    fn the_mesh_checks_come_first() {
        for seed in 0..20 {
            for mesh in meshes(&mut Random::new(seed)) {
                let refused = mesh.check();
                let mut pairs = mesh.counted().windows(2);
                let repeats = pairs.any(|two| two[0].ends() == two[1].ends());
                assert_eq!(refused.is_ok(), repeats);
                if !repeats {
                    assert_eq!(plan(&mesh), (Plan::ZERO, refused));
                }
            }
        }
    }
}
