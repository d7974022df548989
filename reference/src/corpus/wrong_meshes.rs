//! Meshes that the mesh checks refuse, and meshes in which a pair is repeated.

use crate::mesh::{Link, Mesh};

/// Every kind of wrong mesh made from a good one with at least three links.
pub fn wrong_meshes(base: &Mesh) -> Vec<Mesh> {
    let mut meshes = wrong_numbers(base);
    meshes.extend(wrong_links(base));
    meshes.extend(several_wrong(base));
    meshes.extend(entries_past_count(base));
    meshes
}

/// 3 and 4, and counts that are not the number of links.
fn wrong_numbers(base: &Mesh) -> Vec<Mesh> {
    let mut meshes = Vec::new();
    for nodes in [0, 1, 2, 64, 65, 255] {
        meshes.push(Mesh {
            nodes,
            ..base.clone()
        });
    }
    let near = [base.count - 1, base.count + 1];
    for count in [0, 256, 257, 65_535].into_iter().chain(near) {
        meshes.push(Mesh {
            count,
            ..base.clone()
        });
        meshes.push(Mesh {
            nodes: 65,
            count,
            ..base.clone()
        });
    }
    meshes
}

/// 7, 6, 8 and a pair that is repeated in the first, a middle and the last link.
fn wrong_links(base: &Mesh) -> Vec<Mesh> {
    let last = base.counted().len() - 1;
    let mut meshes = Vec::new();
    for at in [0, last / 2, last] {
        for (low, high) in wrong_ends(base, at) {
            meshes.push(with_ends(base, at, low, high));
        }
    }
    meshes
}

fn wrong_ends(base: &Mesh, at: usize) -> Vec<(u8, u8)> {
    let (low, nodes) = (base.links[at].low, base.nodes);
    // 7, some with 6 or 8 as well.
    let mut ends = vec![(low, low), (low + 1, low), (0, 0), (255, 0), (255, 255)];
    ends.extend([(nodes, nodes), (nodes + 1, nodes)]);
    // 6.
    ends.extend([(low, nodes), (nodes - 1, nodes), (nodes, nodes + 1)]);
    ends.extend([(low, 255), (254, 255)]);
    // The pair before again, 8, and 6 with 8.
    if let Some(before) = at.checked_sub(1) {
        let Link { low, high, .. } = base.links[before];
        ends.push((low, high));
        if high - low > 1 {
            ends.push((low, high - 1));
        }
        if low > 0 {
            ends.extend([(low - 1, low), (0, nodes - 1), (low - 1, nodes)]);
        }
    }
    ends
}

/// The mesh with other ends of one link.
pub fn with_ends(base: &Mesh, at: usize, low: u8, high: u8) -> Mesh {
    let mut mesh = base.clone();
    mesh.links[at] = Link {
        low,
        high,
        ..mesh.links[at]
    };
    mesh
}

/// The mesh with 7, 6 or the pair before again at one link, by turns; not the last
/// of these at link 0.
pub fn with_wrong_link(base: &Mesh, at: usize) -> Mesh {
    let Link { low, high, .. } = base.links[at];
    match at % 3 {
        0 => with_ends(base, at, high, low),
        1 => with_ends(base, at, low, base.nodes),
        _ => {
            let before = base.links[at - 1];
            with_ends(base, at, before.low, before.high)
        }
    }
}

/// Several faults, to show which is met first.
fn several_wrong(base: &Mesh) -> Vec<Mesh> {
    let last = base.counted().len() - 1;
    let same = base.links[0];
    let mut meshes = Vec::new();
    // 7, 6 or the pair before again at link 1, then 7 or 6 at the last link.
    for (low, high) in [(3, 3), (3, 255), (same.low, same.high)] {
        let earlier = with_ends(base, 1, low, high);
        meshes.push(with_ends(&earlier, last, 2, 1));
        meshes.push(with_ends(&earlier, last, 2, 200));
    }
    // Each of them with 13, with 4 and with 3.
    for index in 0..meshes.len() {
        let mut past = meshes[index].clone();
        past.links[200].pair = 7;
        meshes.push(Mesh {
            count: 257,
            ..past.clone()
        });
        meshes.push(Mesh {
            nodes: 1,
            ..past.clone()
        });
        meshes.push(past);
    }
    // 13 with 3, with 4, and with both.
    let mut past = base.clone();
    past.links[255].high = 1;
    meshes.push(Mesh {
        nodes: 0,
        ..past.clone()
    });
    meshes.push(Mesh {
        count: 257,
        ..past.clone()
    });
    meshes.push(Mesh {
        nodes: 65,
        count: 65_535,
        ..past
    });
    meshes
}

/// 13: an entry past the count with one field, or with both ends of a link.
pub fn entries_past_count(base: &Mesh) -> Vec<Mesh> {
    let zero = Link::ZERO;
    let entries = [
        Link { low: 1, ..zero },
        Link { high: 1, ..zero },
        Link { length: 1, ..zero },
        Link {
            length: 256,
            ..zero
        },
        Link { pair: 1, ..zero },
        Link {
            pair: 1 << 24,
            ..zero
        },
        Link {
            low: base.nodes - 2,
            high: base.nodes - 1,
            ..zero
        },
    ];
    let count = base.counted().len();
    let mut meshes = Vec::new();
    for at in [count, (count + 255) / 2, 255] {
        for entry in entries {
            let mut mesh = base.clone();
            mesh.links[at] = entry;
            meshes.push(mesh);
        }
    }
    meshes
}
