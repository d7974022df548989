//! Graphs with several links between the same nodes.

use super::super::graphs::{joined, renumbered, side_by_side, Graph};
use super::super::shapes::{self, complete, repeated, Shape};
use crate::mesh::{MOST_LINKS, MOST_NODES};
use crate::random::Random;

/// So many links between two nodes.
pub fn two_nodes(links: usize) -> Graph {
    (2, vec![(0, 1); links])
}

/// Every pair as often as `times` says.
pub fn spans(nodes: u8, times: &[((u8, u8), usize)]) -> Graph {
    let copies = |(ends, times): &((u8, u8), usize)| vec![*ends; *times];
    (nodes, times.iter().flat_map(copies).collect())
}

/// Every link so many times.
pub fn each(graph: &Graph, times: usize) -> Graph {
    (graph.0, repeated(&graph.1, |_| times))
}

/// Every link so many times, save one that stands once.
pub fn each_but(graph: &Graph, single: (u8, u8), times: usize) -> Graph {
    let of = |ends| if ends == single { 1 } else { times };
    (graph.0, repeated(&graph.1, of))
}

/// Every number of links from 0 to `most` on every pair of so many nodes.
pub fn every(nodes: u8, most: usize) -> Vec<Graph> {
    let pairs = complete(nodes);
    let choices = (most + 1).pow(pairs.len() as u32);
    let chosen = |choice: usize| {
        let mut rest = choice;
        let shape = repeated(&pairs, |_| {
            let times = rest % (most + 1);
            rest /= most + 1;
            times
        });
        (nodes, shape)
    };
    (0..choices).map(chosen).collect()
}

/// Each link from `least` to `most` times, up to 256 links in all.
pub fn some_times(graph: &Graph, least: usize, most: usize, random: &mut Random) -> Graph {
    let mut shape = repeated(&graph.1, |_| random.between(least, most));
    while shape.len() > MOST_LINKS {
        shape.remove(random.below(shape.len()));
    }
    (graph.0, shape)
}

/// Graphs with a name whose links all stand twice or more.
pub fn named(random: &mut Random) -> Vec<Graph> {
    let mut graphs: Vec<Graph> = (2..=8).map(two_nodes).collect();
    for nodes in [3, 4, 5, 8, 33, 64] {
        graphs.push(each(&(nodes, shapes::ring(nodes)), 2));
        graphs.push(each(&(nodes, shapes::path(nodes)), 2));
        graphs.push(each(&(nodes, shapes::path(nodes)), 3));
        graphs.push(each(&(nodes, shapes::star(nodes, nodes / 2)), 2));
        graphs.push(each(&(nodes, shapes::tree(nodes, random)), 2));
    }
    for (width, height) in [(2, 2), (3, 3), (4, 4), (8, 8)] {
        graphs.push(each(&(width * height, shapes::grid(width, height)), 2));
    }
    for nodes in [3, 4, 5, 9, 16] {
        graphs.push(each(&(nodes, complete(nodes)), 2));
    }
    graphs.push(each(&(7, shapes::wheel(7)), 2));
    graphs.push(each(&(7, shapes::bipartite(3, 4)), 3));
    graphs
}

/// 255 and 256 links.
pub fn largest(random: &mut Random) -> Vec<Graph> {
    let chords = shapes::ring_with_steps(MOST_NODES, &[5]);
    let tree = shapes::tree(MOST_NODES, random);
    vec![
        two_nodes(255),
        two_nodes(256),
        spans(3, &[((0, 1), 255), ((1, 2), 1)]),
        spans(3, &[((0, 1), 1), ((1, 2), 255)]),
        spans(3, &[((0, 2), 1), ((1, 2), 255)]),
        spans(3, &[((0, 1), 254), ((0, 2), 1), ((1, 2), 1)]),
        spans(3, &[((0, 1), 1), ((0, 2), 1), ((1, 2), 254)]),
        spans(3, &[((0, 1), 128), ((1, 2), 128)]),
        spans(4, &[((0, 1), 127), ((1, 2), 2), ((2, 3), 127)]),
        spans(4, &[((0, 1), 127), ((1, 2), 1), ((2, 3), 127)]),
        each(&(MOST_NODES, shapes::ring(MOST_NODES)), 4),
        each(&(MOST_NODES, chords), 2),
        each(&(MOST_NODES, shapes::path(MOST_NODES)), 4),
        some_times(&(MOST_NODES, tree), 2, 6, random),
    ]
}

/// Two parts that one pair joins: with a single link, with two and with three;
/// the links of the parts once or twice.
pub fn bridged(random: &mut Random) -> Vec<Graph> {
    let triangle = (3, complete(3));
    let square = (4, shapes::ring(4));
    let mut graphs = Vec::new();
    for (left, right) in [(&triangle, &triangle), (&square, &triangle)] {
        for (from, to) in [(0, 0), (2, 0), (1, 2)] {
            let graph = joined(left, right, &[(from, to)]);
            let bridge = (from, left.0 + to);
            graphs.push(each_but(&graph, bridge, 2));
            graphs.push(each(&graph, 2));
            for times in [2, 3] {
                graphs.push(only(&graph, &[bridge], times));
            }
        }
    }
    graphs.extend((0..20).map(|_| some_bridges(random)));
    graphs
}

/// These links so many times, all others once.
fn only(graph: &Graph, chosen: &[(u8, u8)], times: usize) -> Graph {
    let of = |ends| if chosen.contains(&ends) { times } else { 1 };
    (graph.0, repeated(&graph.1, of))
}

/// A tree with some links twice: 21 at the lowest that stands once, if there is
/// one.
fn some_bridges(random: &mut Random) -> Graph {
    let nodes = random.between(4, 30) as u8;
    let tree = renumbered(&(nodes, shapes::tree(nodes, random)), random);
    let mut single: Shape = tree.1.clone();
    random.shuffle(&mut single);
    single.truncate(random.below(4));
    let of = |ends| if single.contains(&ends) { 1 } else { 2 };
    (nodes, repeated(&tree.1, of))
}

/// Paths in which every span is doubled but one, which stands at each place.
pub fn paths_with_one_bridge() -> Vec<Graph> {
    let mut graphs = Vec::new();
    for (nodes, places) in [
        (3, vec![0, 1]),
        (6, (0..5).collect()),
        (64, vec![0, 31, 62]),
    ] {
        let path = (nodes, shapes::path(nodes));
        let but = |place: usize| each_but(&path, path.1[place], 2);
        graphs.extend(places.into_iter().map(but));
    }
    graphs
}

/// Doubled links and nodes that none of them reaches: 20.
pub fn apart() -> Vec<Graph> {
    let doubled = each(&(3, complete(3)), 2);
    vec![
        (3, vec![(0, 1); 2]),
        (3, vec![(1, 2); 2]),
        (4, vec![(0, 1), (0, 1), (2, 3), (2, 3)]),
        (64, vec![(0, 1); 256]),
        (64, vec![(62, 63); 256]),
        side_by_side(&doubled, &doubled),
        side_by_side(&doubled, &two_nodes(5)),
        side_by_side(&two_nodes(3), &doubled),
    ]
}

/// Paths added to paths, or any links; each of them once, twice or more often.
pub fn random_ones(times: usize, most_nodes: usize, random: &mut Random) -> Vec<Graph> {
    (0..times)
        .map(|turn| random_one(turn, most_nodes, random))
        .collect()
}

fn random_one(turn: usize, most_nodes: usize, random: &mut Random) -> Graph {
    let nodes = random.between(3, most_nodes) as u8;
    let shape = match turn % 4 {
        0 => shapes::ears(nodes, random),
        1 => shapes::tree(nodes, random),
        2 => shapes::scattered(nodes, nodes.into(), random),
        _ => shapes::scattered(nodes, 2 * usize::from(nodes), random),
    };
    let graph = renumbered(&(nodes, shape), random);
    let most = [2, 2, 3, 6][random.below(4)];
    some_times(&graph, 1, most, random)
}

#[cfg(test)]
mod tests {
    use super::*;
    use crate::corpus::meshes::plain;
    use crate::plan::plan;
    use crate::refusal::{Reason, Refusal};

    fn answer(graph: &Graph) -> Option<Refusal> {
        plan(&plain(graph.0, &graph.1)).1.err()
    }

    #[test]
    fn named_ones_are_planned_and_none_has_more_than_256_links() {
        let random = &mut Random::new(1);
        for graph in named(random) {
            assert_eq!(answer(&graph), None);
        }
        let others = [
            largest(random),
            bridged(random),
            random_ones(50, 64, random),
        ];
        assert!(others.concat().iter().all(|graph| graph.1.len() <= 256));
    }

    #[test]
    fn a_bridge_is_a_single_link() {
        let graphs = bridged(&mut Random::new(1));
        for four in graphs[..24].chunks(4) {
            let parting = answer(&four[0]).unwrap();
            assert_eq!(parting.reason, Reason::RemovalParts);
            assert!(four[1..].iter().all(|graph| answer(graph).is_none()));
        }
    }

    #[test]
    fn the_one_span_of_a_path_that_is_not_doubled_parts_it() {
        let places = [0, 1].into_iter().chain(0..5).chain([0, 31, 62]);
        for (graph, place) in paths_with_one_bridge().iter().zip(places) {
            let parting = Refusal::new(Reason::RemovalParts, 2 * place);
            assert_eq!(answer(graph), Some(parting));
        }
    }

    #[test]
    fn the_others_are_apart() {
        for graph in apart() {
            assert_eq!(answer(&graph).unwrap().reason, Reason::NoPath);
        }
    }

    #[test]
    fn every_number_of_links_on_three_pairs() {
        let graphs = every(3, 3);
        assert_eq!(graphs.len(), 64);
        assert_eq!(graphs[63], each(&(3, complete(3)), 3));
        assert!(graphs.windows(2).all(|two| two[0] != two[1]));
    }
}
