//! Books with a wrong header, or with more or fewer records than it says.

use super::draft::Draft;
use super::meshes::{filled, longest, plain, random_mesh, with_ducts, Fill};
use super::shapes;
use crate::mesh::{Link, Mesh};
use crate::random::Random;
use crate::record::Record;

const VERSIONS: [u8; 3] = [0, 2, 255];
const NODES: [u8; 4] = [0, 1, 65, 255];
const COUNTS: [u16; 4] = [257, 258, 512, 65_535];

pub fn books(random: &mut Random) -> Vec<Vec<u8>> {
    let bases = [
        plain(2, &[]),
        plain(3, &[(0, 1), (0, 2), (1, 2)]),
        random_mesh(20, 9, random),
    ];
    let mut drafts = Vec::new();
    for base in &bases {
        drafts.extend(one_wrong(base));
        drafts.extend(several_wrong(base));
        drafts.extend(wrong_header_and_record(base));
        drafts.extend(wrong_count(base));
    }
    for base in &bases[1..] {
        drafts.extend(nodes_too_few(base));
    }
    drafts.extend(extra_bytes(random));
    drafts.extend(too_many_records(random));
    drafts.iter().map(Draft::bytes).collect()
}

/// 2, 3 or 4.
pub fn one_wrong(mesh: &Mesh) -> Vec<Draft> {
    let good = Draft::of(mesh);
    let mut drafts = Vec::new();
    drafts.extend(VERSIONS.map(|version| Draft {
        version,
        ..good.clone()
    }));
    drafts.extend(NODES.map(|nodes| Draft {
        nodes,
        ..good.clone()
    }));
    drafts.extend(COUNTS.map(|count| Draft {
        count,
        ..good.clone()
    }));
    drafts
}

/// 2 before 3 before 4.
fn several_wrong(mesh: &Mesh) -> Vec<Draft> {
    let mut drafts = Vec::new();
    for version in [1, 2] {
        for nodes in [mesh.nodes, 1, 65] {
            for count in [mesh.count, 257, 65_535] {
                drafts.push(Draft {
                    version,
                    nodes,
                    count,
                    ..Draft::of(mesh)
                });
            }
        }
    }
    drafts
}

/// The header before the records.
fn wrong_header_and_record(mesh: &Mesh) -> Vec<Draft> {
    let mut wrong_records = one_wrong(mesh);
    for draft in &mut wrong_records {
        draft.extra = vec![0xff, 0];
        if let Some(first) = draft.records.first_mut() {
            first.reserved = 0x80;
        }
    }
    wrong_records
}

/// 1 where L is above the number of records, 10 where it is below.
fn wrong_count(mesh: &Mesh) -> Vec<Draft> {
    let good = Draft::of(mesh);
    let counts = [0, mesh.count / 2, mesh.count + 1, mesh.count + 2, 255, 256];
    counts
        .map(|count| Draft {
            count,
            ..good.clone()
        })
        .into()
}

/// 6: N is not above the greatest end, or less still.
fn nodes_too_few(mesh: &Mesh) -> Vec<Draft> {
    let greatest = mesh.counted().iter().map(|link| link.high).max();
    let nodes = 2..=greatest.unwrap_or(0);
    let draft = |nodes| Draft {
        nodes,
        ..Draft::of(mesh)
    };
    nodes.map(draft).collect()
}

/// 10: 1 to 5 bytes after the last record, and 287 after the longest book
/// without ducts.
fn extra_bytes(random: &mut Random) -> Vec<Draft> {
    let mut drafts = Vec::new();
    for turn in 0..50 {
        let nodes = random.between(3, 64) as u8;
        let mesh = random_mesh(nodes, turn % 12, random);
        drafts.push(with_extra(&mesh, 1 + turn % 5, random));
    }
    let shape = shapes::scattered(64, 256, random);
    let full = filled(64, &shape, Fill::Some, random);
    for count in 1..=5 {
        drafts.push(with_extra(&full, count, random));
    }
    let without_ducts = with_ducts(&longest(random), |_| 0);
    drafts.push(with_extra(&without_ducts, 287, random));
    drafts
}

pub fn with_extra(mesh: &Mesh, count: usize, random: &mut Random) -> Draft {
    let extra = match random.below(3) {
        0 => vec![0; count],
        1 => vec![0xff; count],
        _ => random.bytes(count),
    };
    Draft {
        extra,
        ..Draft::of(mesh)
    }
}

/// 4 with 257 records that are in order themselves, and 10 with L of 256.
fn too_many_records(random: &mut Random) -> Vec<Draft> {
    let shape = shapes::scattered(64, 257, random);
    let mesh = plain(64, &shape[..256]);
    let (low, high) = shape[256];
    let last = Link {
        low,
        high,
        ..Link::ZERO
    };
    let mut draft = Draft::of(&mesh);
    draft.records.push(Record::of(&last, mesh.links.last()));
    let too_many = Draft {
        count: 257,
        ..draft.clone()
    };
    vec![draft, too_many]
}
