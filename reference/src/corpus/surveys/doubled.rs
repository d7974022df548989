//! Links that would be bridging and stand twice or more often.

use super::super::doubled::graphs::{
    apart, bridged, each_but, largest, named, paths_with_one_bridge, random_ones, some_times, spans,
};
use super::super::graphs::{renumbered, Graph};
use super::super::shapes::{self, repeated};
use super::apart::several_parts;
use crate::random::Random;

pub fn graphs(random: &mut Random) -> Vec<Graph> {
    let mut graphs = runs_of_equal_pairs();
    graphs.extend(paths_with_one_bridge());
    graphs.extend(one_doubled());
    graphs.extend(bridged(random));
    graphs.extend(apart());
    graphs.extend(named(random).into_iter().step_by(3));
    graphs.extend(largest(random));
    graphs.extend(random_ones(60, 16, random));
    graphs.extend((0..30).map(|turn| in_parts(turn, random)));
    graphs
}

/// Two to four equal pairs before, between and after single links.
fn runs_of_equal_pairs() -> Vec<Graph> {
    let mut graphs = Vec::new();
    for times in 2..=4 {
        graphs.push(spans(4, &[((0, 1), times), ((1, 2), 1), ((2, 3), 1)]));
        graphs.push(spans(4, &[((0, 1), 1), ((1, 2), times), ((2, 3), 1)]));
        graphs.push(spans(4, &[((0, 1), 1), ((1, 2), 1), ((2, 3), times)]));
        graphs.push(spans(5, &[((0, 1), times), ((2, 3), 1), ((2, 4), times)]));
        graphs.push(spans(5, &[((0, 4), 1), ((1, 3), times), ((2, 3), 1)]));
    }
    graphs
}

/// Paths, stars and trees in which one link is doubled.
fn one_doubled() -> Vec<Graph> {
    let mut graphs = Vec::new();
    for shape in [shapes::path(6), shapes::star(6, 0), shapes::star(6, 5)] {
        for chosen in &shape {
            let times = |ends| 1 + usize::from(ends == *chosen);
            graphs.push((6, repeated(&shape, times)));
        }
    }
    let star = (64, shapes::star(64, 63));
    graphs.extend([(0, 63), (62, 63)].map(|single| each_but(&star, single, 2)));
    graphs
}

/// Several parts with some of their links doubled.
fn in_parts(turn: usize, random: &mut Random) -> Graph {
    let graph = several_parts(2 + turn % 4, random);
    some_times(&renumbered(&graph, random), 1, 2, random)
}

#[cfg(test)]
mod tests {
    use super::super::met::{bridges, counted};
    use super::*;

    #[test]
    fn a_run_of_equal_pairs_holds_no_bridge() {
        let found: Vec<Vec<u16>> = runs_of_equal_pairs()[5..10].iter().map(bridges).collect();
        let expected: [&[u16]; 5] = [&[3, 4], &[0, 4], &[0, 1], &[3], &[0, 4]];
        assert_eq!(found, expected);
    }

    #[test]
    fn one_doubled_link_is_the_only_one_that_is_not_bridging() {
        for graph in &one_doubled()[..15] {
            assert_eq!(counted(graph), (1, 4));
        }
        for graph in &one_doubled()[15..] {
            assert_eq!(counted(graph), (1, 1));
        }
    }

    #[test]
    fn some_are_apart_and_some_have_no_bridge() {
        for seed in 0..20 {
            let graphs = graphs(&mut Random::new(seed));
            let counts: Vec<(usize, usize)> = graphs.iter().map(counted).collect();
            let count = |test: fn(&&(usize, usize)) -> bool| counts.iter().filter(test).count();
            assert!(count(|counts| counts.0 > 1) > 40);
            assert!(count(|counts| counts.1 == 0) > 50);
            assert!(count(|counts| counts.1 > 1) > 60);
        }
    }
}
