//! Well-formed meshes.

use super::shapes::{complete, scattered};
use crate::mesh::{Link, Mesh, MOST_LINKS, MOST_NODES};
use crate::random::Random;

pub const LENGTHS: [u16; 4] = [1, 255, 256, 65_535];
pub const PAIRS: [u32; 7] = [1, 255, 256, 65_535, 65_536, 1 << 24, u32::MAX];
pub const DUCTS: [u16; 6] = [1, 2, 255, 256, 257, 65_535];

/// Which links have a length, a fibre pair and a duct.
#[derive(Clone, Copy)]
pub enum Fill {
    None,
    Some,
    Most,
    All,
}

pub const FILLS: [Fill; 4] = [Fill::None, Fill::Some, Fill::Most, Fill::All];

/// The mesh with these links and random lengths, fibre pairs and ducts. The
/// ducts are drawn aside: lengths and pairs are what they were without them.
pub fn filled(nodes: u8, shape: &[(u8, u8)], fill: Fill, random: &mut Random) -> Mesh {
    let mut aside = random.aside();
    let make = |&(low, high): &(u8, u8)| Link {
        low,
        high,
        length: if stands(fill, random) {
            length(random)
        } else {
            0
        },
        pair: if stands(fill, random) {
            pair(random)
        } else {
            0
        },
        duct: if stands(fill, &mut aside) {
            duct(&mut aside)
        } else {
            0
        },
    };
    let links: Vec<Link> = shape.iter().map(make).collect();
    Mesh::new(nodes, &links)
}

/// The mesh with these links, and lengths, fibre pairs and ducts on none, some,
/// most or all of them.
pub fn partly_filled(nodes: u8, shape: &[(u8, u8)], random: &mut Random) -> Mesh {
    let fill = random.pick(&FILLS);
    filled(nodes, shape, fill, random)
}

/// The mesh with these links, without lengths, fibre pairs and ducts.
pub fn plain(nodes: u8, shape: &[(u8, u8)]) -> Mesh {
    filled(nodes, shape, Fill::None, &mut Random::new(0))
}

/// The mesh with random lengths, fibre pairs and ducts on all of its links.
pub fn all_filled(mesh: &Mesh, random: &mut Random) -> Mesh {
    let links = mesh.counted().iter();
    let shape: Vec<(u8, u8)> = links.map(|link| (link.low, link.high)).collect();
    filled(mesh.nodes, &shape, Fill::All, random)
}

/// The mesh with other lengths: that of each link by its number.
pub fn with_lengths(mesh: &Mesh, mut length: impl FnMut(usize) -> u16) -> Mesh {
    let mut mesh = mesh.clone();
    for link in 0..mesh.counted().len() {
        mesh.links[link].length = length(link);
    }
    mesh
}

/// The mesh, of at most 16 links, with the lengths 1, 2, 4 and so on: each sum
/// tells its links.
pub fn with_powers_of_two(mesh: &Mesh) -> Mesh {
    with_lengths(mesh, |link| 1 << link)
}

/// The mesh with other ducts: that of each link by its number.
pub fn with_ducts(mesh: &Mesh, mut duct: impl FnMut(usize) -> u16) -> Mesh {
    let mut mesh = mesh.clone();
    for link in 0..mesh.counted().len() {
        mesh.links[link].duct = duct(link);
    }
    mesh
}

/// The mesh with one link not measured.
pub fn with_unmeasured(mesh: &Mesh, link: usize) -> Mesh {
    let mut mesh = mesh.clone();
    mesh.links[link].length = 0;
    mesh
}

/// A mesh with at most `count` random links.
pub fn random_mesh(nodes: u8, count: usize, random: &mut Random) -> Mesh {
    let shape = scattered(nodes, count, random);
    let fill = random.pick(&[Fill::None, Fill::Some, Fill::Some, Fill::All]);
    filled(nodes, &shape, fill, random)
}

/// The length of the longest book of a well-formed mesh. Each of its 256
/// records has 9 bytes without the ends. A low end is written only where it is
/// above the one before, so at most once for each of 1 to 62. A high end is
/// written only where it is above low + 1, so not with the low end 62. The ends
/// therefore take at most 256 + 61 bytes.
pub const LONGEST_BOOK: usize = 4 + 256 * 9 + 256 + 61;

/// A mesh whose book has the greatest length.
pub fn longest(random: &mut Random) -> Mesh {
    let all = complete(MOST_NODES);
    let (mut shape, mut others): (Vec<_>, Vec<_>) = all
        .into_iter()
        .filter(|(low, high)| *low > 0 && high - low > 1)
        .partition(|(low, high)| high - low == 2);
    random.shuffle(&mut others);
    shape.extend(others);
    shape.truncate(MOST_LINKS);
    shape.sort_unstable();
    filled(MOST_NODES, &shape, Fill::All, random)
}

fn stands(fill: Fill, random: &mut Random) -> bool {
    match fill {
        Fill::None => false,
        Fill::Some => random.below(2) == 0,
        Fill::Most => random.below(8) > 0,
        Fill::All => true,
    }
}

pub fn length(random: &mut Random) -> u16 {
    match random.below(2) {
        0 => random.pick(&LENGTHS),
        _ => random.between(1, 65_535) as u16,
    }
}

fn pair(random: &mut Random) -> u32 {
    match random.below(2) {
        0 => random.pick(&PAIRS),
        _ => random.between(1, u32::MAX as usize) as u32,
    }
}

/// Mostly one of a few, so that links share it.
fn duct(random: &mut Random) -> u16 {
    match random.below(4) {
        0 => random.between(1, 65_535) as u16,
        _ => random.pick(&DUCTS),
    }
}
