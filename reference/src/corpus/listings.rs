//! Books to list: refused ones of every kind, and meshes of every size.

use super::accepted::every_mesh_on;
use super::graphs::Graph;
use super::meshes::{partly_filled, plain, with_lengths, with_powers_of_two, with_unmeasured};
use super::scripts::grounds::{largest, middle, p5, small, triangle};
use super::shapes;
use super::{faults, headers, named_graphs, parted_graphs, random_graphs};
use crate::book::bytes_of;
use crate::case::{Case, MOST_BYTES};
use crate::mesh::{Mesh, MOST_NODES};
use crate::plan::plan;
use crate::random::Random;

pub fn cases(random: &mut Random) -> Vec<Case> {
    let mut books = refused_by_reading();
    books.extend(meshes(random).iter().map(bytes_of));
    books.extend(measured_on_5_nodes().iter().map(bytes_of));
    books.extend(measured_on_4_nodes().iter().map(bytes_of));
    books.extend(rings().iter().map(bytes_of));
    books.into_iter().map(case).collect()
}

pub fn case(book: Vec<u8>) -> Case {
    Case::Listing { book }
}

/// 1 to 10.
fn refused_by_reading() -> Vec<Vec<u8>> {
    let book = bytes_of(&p5());
    let mut books: Vec<Vec<u8>> = (0..book.len()).map(|end| book[..end].to_vec()).collect();
    books.extend(headers::one_wrong(&p5()).iter().map(|draft| draft.bytes()));
    books.extend(faults::faults_in_each_place(&p5()));
    for length in [book.len() + 1, book.len() + 5, MOST_BYTES] {
        let mut longer = book.clone();
        longer.resize(length, 0);
        books.push(longer);
    }
    books
}

fn meshes(random: &mut Random) -> Vec<Mesh> {
    let mut meshes = vec![triangle(), p5()];
    for (nodes, shape) in graphs(random) {
        meshes.push(partly_filled(nodes, &shape, random));
    }
    meshes.extend((0..60).map(|_| small(random)));
    meshes.extend((0..60).map(|_| middle(random)));
    meshes.extend((0..3).map(|_| largest(random)));
    meshes
}

/// Every mesh on so many nodes that planning accepts.
fn planned_on(nodes: u8) -> Vec<Mesh> {
    let mut meshes = every_mesh_on(nodes);
    meshes.retain(|mesh| plan(mesh).1.is_ok());
    meshes
}

/// By turns with no link measured, with all, and with all but one; a sum tells
/// its links.
fn measured_on_5_nodes() -> Vec<Mesh> {
    let mut meshes = planned_on(5);
    for (turn, mesh) in meshes.iter_mut().enumerate() {
        let links = mesh.counted().len();
        match turn % 3 {
            0 => (),
            1 => *mesh = with_powers_of_two(mesh),
            _ => *mesh = with_unmeasured(&with_powers_of_two(mesh), turn % links),
        }
    }
    meshes
}

/// With all links measured, and with each one in turn not measured; a sum tells
/// its links.
fn measured_on_4_nodes() -> Vec<Mesh> {
    let mut meshes = Vec::new();
    for mesh in planned_on(4) {
        let measured = with_powers_of_two(&mesh);
        let links = 0..mesh.counted().len();
        meshes.extend(links.map(|link| with_unmeasured(&measured, link)));
        meshes.push(measured);
    }
    meshes
}

/// A ring of each size: with the lengths 1, with 65,535, or with these on all
/// but the first, a middle or the last link. Small ones and the largest have it
/// all, the others one by turns.
fn rings() -> Vec<Mesh> {
    let mut meshes = Vec::new();
    for nodes in 3..=MOST_NODES {
        let every = measured_rings(nodes);
        if nodes <= 16 || nodes == MOST_NODES {
            meshes.extend(every);
        } else {
            meshes.push(every[usize::from(nodes) % every.len()].clone());
        }
    }
    meshes
}

fn measured_rings(nodes: u8) -> [Mesh; 5] {
    let ring = plain(nodes, &shapes::ring(nodes));
    let shortest = with_lengths(&ring, |_| 1);
    let longest = with_lengths(&ring, |_| 65_535);
    let last = ring.counted().len() - 1;
    [
        with_unmeasured(&longest, 0),
        with_unmeasured(&shortest, last / 2),
        with_unmeasured(&longest, last),
        shortest,
        longest,
    ]
}

/// All named graphs, and some of the others: among them 20 and 21.
fn graphs(random: &mut Random) -> Vec<Graph> {
    let mut graphs = named_graphs::graphs(random);
    graphs.extend(random_graphs::graphs(random).into_iter().step_by(8));
    graphs.extend(parted_graphs::graphs(random).into_iter().step_by(4));
    graphs
}

#[cfg(test)]
mod tests {
    use super::*;
    use crate::meshplan::listing;

    /// The length in each cut line.
    fn lengths(mesh: &Mesh) -> Vec<String> {
        let listing = listing(&bytes_of(mesh));
        let cuts = listing.lines().filter(|line| line.starts_with("cut "));
        cuts.map(|line| line.split(' ').nth(5).unwrap().to_string())
            .collect()
    }

    #[test]
    fn on_a_ring_only_the_cut_of_a_link_without_a_length_has_a_known_route() {
        for nodes in 3..=MOST_NODES {
            let last = usize::from(nodes) - 1;
            let [first, middle, end, shortest, longest] =
                measured_rings(nodes).map(|r| lengths(&r));
            let only = |link: usize, metres: usize| {
                let mut lengths = vec!["-".to_string(); last + 1];
                lengths[link] = metres.to_string();
                lengths
            };
            assert_eq!(first, only(0, 65_535 * last));
            assert_eq!(middle, only(last / 2, last));
            assert_eq!(end, only(last, 65_535 * last));
            assert_eq!(shortest, vec![last.to_string(); last + 1]);
            assert_eq!(longest, vec![(65_535 * last).to_string(); last + 1]);
        }
    }

    #[test]
    fn a_sum_of_powers_of_two_tells_the_route() {
        for mesh in planned_on(4) {
            let listing = listing(&bytes_of(&with_powers_of_two(&mesh)));
            for line in listing.lines().filter(|line| line.starts_with("cut ")) {
                let numbers: Vec<u32> = line
                    .split(' ')
                    .skip(5)
                    .map(|word| word.parse().unwrap())
                    .collect();
                let route = numbers[1..].iter().map(|link| 1 << link);
                assert_eq!(numbers[0], route.sum::<u32>());
            }
        }
    }

    #[test]
    fn ten_meshes_on_4_nodes_are_planned() {
        // 3 with 4 links, 6 with 5 and 1 with 6.
        assert_eq!(planned_on(4).len(), 10);
        assert_eq!(measured_on_4_nodes().len(), 10 + 3 * 4 + 6 * 5 + 6);
    }
}
