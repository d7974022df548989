//! Mesh records, good and wrong.

use super::mesh_sweeps;
use super::meshes::{filled, longest, plain, random_mesh, Fill};
use super::questions::room;
use super::shapes;
use super::wrong_meshes::{entries_past_count, with_ends, wrong_meshes};
use crate::book::bytes_of;
use crate::case::Case;
use crate::mesh::{Mesh, MOST_LINKS};
use crate::random::Random;

pub fn cases(random: &mut Random) -> Vec<Case> {
    let mut meshes = good(random);
    for base in &bases(random) {
        meshes.extend(wrong_meshes(base));
    }
    meshes.extend(entries_past_many(random));
    meshes.extend(full(random));
    let mut cases: Vec<Case> = meshes
        .into_iter()
        .map(|mesh| with_room(mesh, random))
        .collect();
    cases.extend(small_rooms(random));
    cases.extend(sweeps());
    cases
}

/// The room is that of the good mesh's book, or no room at all.
fn sweeps() -> Vec<Case> {
    let around = mesh_sweeps::meshes();
    let large = mesh_sweeps::meshes_with_256_links();
    let around = around
        .iter()
        .map(|(mesh, good)| case(bytes_of(good).len() as u16, mesh));
    let large = large.iter().map(|mesh| case(0, mesh));
    around.chain(large).collect()
}

/// A room around that of the book; any where the mesh is wrong or a pair stands
/// twice.
fn with_room(mesh: Mesh, random: &mut Random) -> Case {
    let length = match mesh.check() {
        Ok(()) if each_pair_once(&mesh) => bytes_of(&mesh).len(),
        _ => random.below(60),
    };
    case(room(length, random), &mesh)
}

fn each_pair_once(mesh: &Mesh) -> bool {
    let mut pairs = mesh.counted().windows(2);
    pairs.all(|two| two[0].ends() != two[1].ends())
}

pub fn case(room: u16, mesh: &Mesh) -> Case {
    Case::Mesh {
        room,
        mesh: Box::new(mesh.clone()),
    }
}

/// Meshes with at least three links and ends well below 63.
fn bases(random: &mut Random) -> Vec<Mesh> {
    let scattered = shapes::scattered(20, 9, random);
    vec![
        plain(4, &[(0, 1), (0, 2), (0, 3), (1, 2), (2, 3)]),
        filled(20, &scattered, Fill::All, random),
        filled(12, &[(1, 4), (3, 4), (3, 9), (5, 6)], Fill::Some, random),
    ]
}

fn good(random: &mut Random) -> Vec<Mesh> {
    let mut meshes = vec![plain(2, &[]), plain(64, &[]), plain(2, &[(0, 1)])];
    meshes.push(plain(64, &[(0, 63), (62, 63)]));
    for _ in 0..100 {
        let nodes = random.between(2, 64) as u8;
        meshes.push(random_mesh(nodes, random.below(20), random));
    }
    meshes
}

/// 13 with no link at all, with 254 and with 255 links.
fn entries_past_many(random: &mut Random) -> Vec<Mesh> {
    let shape = shapes::scattered(64, 256, random);
    let mut meshes = entries_past_count(&plain(2, &[]));
    for count in [254, 255] {
        let base = filled(64, &shape[..count], Fill::Some, random);
        let wrong = entries_past_count(&base);
        meshes.extend(wrong.into_iter().skip(14).step_by(2));
    }
    meshes
}

/// 256 links, so no entry is past the count; and faults in the last link.
fn full(random: &mut Random) -> Vec<Mesh> {
    let shape = shapes::scattered(64, MOST_LINKS, random);
    let base = filled(64, &shape, Fill::Some, random);
    let before = base.links[254];
    vec![
        longest(random),
        with_ends(&base, 255, 63, 63),
        with_ends(&base, 255, 63, 64),
        with_ends(&base, 255, before.low, before.high),
        Mesh {
            count: 257,
            ..base.clone()
        },
        Mesh {
            count: 65_535,
            ..base.clone()
        },
        Mesh {
            nodes: 65,
            ..base.clone()
        },
        Mesh {
            count: 255,
            ..base.clone()
        },
        base,
    ]
}

/// 11, after the mesh checks.
fn small_rooms(random: &mut Random) -> Vec<Case> {
    let mut cases = Vec::new();
    for count in [0, 1, 2, 5, 9, 14, 40] {
        let mesh = random_mesh(30, count, random);
        let needed = bytes_of(&mesh).len();
        for room in [0, 1, 3, 4, needed / 2, needed - 1, needed, needed + 1] {
            cases.push(case(room as u16, &mesh));
        }
        let mut wrong = mesh.clone();
        wrong.links[255].length = 1;
        cases.push(case(needed as u16 - 1, &wrong));
        cases.push(case(0, &wrong));
    }
    cases
}
