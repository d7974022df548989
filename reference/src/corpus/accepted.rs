//! Meshes whose books are accepted.

use std::ops::Range;

use super::meshes::{filled, longest, plain, random_mesh, Fill, DUCTS, LENGTHS, PAIRS};
use super::shapes;
use crate::mesh::{Link, Mesh};
use crate::random::Random;

pub fn meshes(random: &mut Random) -> Vec<Mesh> {
    let mut meshes = bench_examples();
    meshes.extend(every_small_mesh());
    meshes.extend(extreme_ends(random));
    meshes.extend(every_length_and_pair());
    meshes.extend(every_bit_map());
    meshes.extend(named_shapes(random));
    meshes.extend(random_meshes(random));
    meshes.extend(large_meshes(random));
    meshes
}

fn bench_examples() -> Vec<Mesh> {
    vec![
        plain(3, &[(0, 1), (0, 2), (1, 2)]),
        plain(2, &[(0, 1)]),
        plain(2, &[]),
        plain(4, &[(0, 1), (0, 2), (0, 3), (1, 2), (2, 3)]),
    ]
}

/// Every choice of links on 2, 3 and 4 nodes.
pub fn every_small_mesh() -> Vec<Mesh> {
    (2..=4).flat_map(every_mesh_on).collect()
}

/// Every choice of links on so many nodes.
pub fn every_mesh_on(nodes: u8) -> Vec<Mesh> {
    let choices = 0..1 << shapes::complete(nodes).len();
    let mesh = |choice| plain(nodes, &shapes::chosen(nodes, choice));
    choices.map(mesh).collect()
}

/// Few links on 64 nodes, with the ends 0, 62 and 63.
fn extreme_ends(random: &mut Random) -> Vec<Mesh> {
    let shapes: [&[(u8, u8)]; 9] = [
        &[],
        &[(0, 1)],
        &[(0, 62)],
        &[(0, 63)],
        &[(62, 63)],
        &[(61, 63), (62, 63)],
        &[(0, 63), (62, 63)],
        &[(0, 62), (0, 63)],
        &[(0, 1), (0, 62), (0, 63), (1, 62), (61, 62), (62, 63)],
    ];
    let mut meshes = Vec::new();
    for shape in shapes {
        meshes.push(plain(64, shape));
        meshes.push(filled(64, shape, Fill::All, random));
    }
    meshes
}

/// Each length with each fibre pair, on one link of three.
fn every_length_and_pair() -> Vec<Mesh> {
    let mut meshes = Vec::new();
    for length in LENGTHS.into_iter().chain([0]) {
        for pair in PAIRS.into_iter().chain([0]) {
            let mut mesh = plain(3, &[(0, 1), (0, 2), (1, 2)]);
            let changed = &mut mesh.links[meshes.len() % 3];
            changed.length = length;
            changed.pair = pair;
            meshes.push(mesh);
        }
    }
    meshes
}

/// Each bit map without a duct in the first, a middle and the last record of
/// five. Only the first record lacks both ends: a later one would repeat a pair.
fn every_bit_map() -> Vec<Mesh> {
    bit_maps(0..16)
}

/// Each bit map with a duct, in the same way.
pub fn every_bit_map_with_a_duct() -> Vec<Mesh> {
    bit_maps(16..32)
}

fn bit_maps(bit_maps: Range<u8>) -> Vec<Mesh> {
    let mut meshes = Vec::new();
    for at in [0, 2, 4] {
        for bit_map in bit_maps.clone() {
            if at == 0 || bit_map & 3 != 0 {
                meshes.push(with_bit_map(at, bit_map));
            }
        }
    }
    meshes
}

/// Five links of which link `at` has a record with this bit map.
fn with_bit_map(at: u8, bit_map: u8) -> Mesh {
    let mut links = Vec::new();
    let mut low = 0;
    for number in 0..5 {
        let map = if number == at { bit_map } else { 1 };
        low += 4 * (map & 1);
        links.push(Link {
            low,
            high: low + 1 + (map >> 1 & 1) * (number + 1),
            length: u16::from(map >> 2 & 1) * LENGTHS[usize::from(number) % 4],
            pair: u32::from(map >> 3 & 1) * PAIRS[usize::from(bit_map) % 7],
            duct: u16::from(map >> 4 & 1) * DUCTS[usize::from(bit_map) % 6],
        });
    }
    Mesh::new(40, &links)
}

fn named_shapes(random: &mut Random) -> Vec<Mesh> {
    let mut named: Vec<(u8, shapes::Shape)> = Vec::new();
    for nodes in [3, 4, 5, 8, 17, 33, 63, 64] {
        named.push((nodes, shapes::path(nodes)));
        named.push((nodes, shapes::ring(nodes)));
        named.push((nodes, shapes::star(nodes, 0)));
        named.push((nodes, shapes::star(nodes, nodes - 1)));
        named.push((nodes, shapes::star(nodes, nodes / 2)));
        named.push((nodes, shapes::tree(nodes, random)));
    }
    for (width, height) in [(2, 2), (3, 3), (4, 2), (4, 4), (5, 7), (16, 4), (8, 8)] {
        named.push((width * height, shapes::grid(width, height)));
    }
    for nodes in [3, 4, 5, 6, 8, 10, 16] {
        named.push((nodes, shapes::complete(nodes)));
    }
    let fills = [Fill::None, Fill::Some, Fill::All];
    let filled_by_turns = |(turn, (nodes, shape)): (usize, &(u8, shapes::Shape))| {
        filled(*nodes, shape, fills[turn % 3], random)
    };
    named.iter().enumerate().map(filled_by_turns).collect()
}

/// Sparse and dense random meshes of small and middle sizes.
fn random_meshes(random: &mut Random) -> Vec<Mesh> {
    let mut meshes = Vec::new();
    for turn in 0..140 {
        let nodes = random.between(2, 64) as u8;
        let pairs = usize::from(nodes) * usize::from(nodes - 1) / 2;
        let most = if turn < 110 { 24 } else { 128 };
        meshes.push(random_mesh(
            nodes,
            random.below(pairs.min(most) + 1),
            random,
        ));
    }
    for count in [1, 2, 3, 63, 64, 100, 127, 128, 129] {
        meshes.push(random_mesh(64, count, random));
    }
    for nodes in [7, 9, 12, 14, 16] {
        let pairs = usize::from(nodes) * usize::from(nodes - 1) / 2;
        meshes.push(random_mesh(nodes, pairs - 1, random));
    }
    meshes
}

/// Meshes with 200 links or more.
fn large_meshes(random: &mut Random) -> Vec<Mesh> {
    let mut meshes = vec![
        plain(22, &shapes::complete(22)),
        filled(23, &shapes::complete(23), Fill::Some, random),
        plain(64, &shapes::complete(64)[..256]),
        longest(random),
    ];
    for (nodes, count) in [(40, 200), (64, 254), (30, 255), (64, 255), (24, 256)] {
        meshes.push(random_mesh(nodes, count, random));
    }
    for fill in [Fill::None, Fill::Some, Fill::All] {
        for count in [201, 240, 256, 256] {
            let shape = shapes::scattered(64, count, random);
            meshes.push(filled(64, &shape, fill, random));
        }
    }
    meshes
}
