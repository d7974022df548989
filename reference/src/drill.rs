//! The heaviest drill: how many middle nodes an input asks for, and the mesh of
//! so many.

use std::collections::BTreeSet;

use crate::mesh::{Link, Mesh};

pub const MOST_MIDDLES: u8 = 62;

/// The number from 1 to 62 whose decimal text is the whole input, with or
/// without one line feed after it; none if there is no such number.
pub fn asked(input: &[u8]) -> Option<u8> {
    (1..=MOST_MIDDLES).find(|middles| {
        let text = middles.to_string();
        let line = format!("{text}\n");
        input == text.as_bytes() || input == line.as_bytes()
    })
}

/// Each of the first `middles` nodes has a link to both of the two nodes after
/// them, the outer nodes, and these two have one to each other. Where `middles` is
/// not 1 to 62 the mesh is all zeros.
pub fn mesh(middles: u8) -> Mesh {
    if !(1..=MOST_MIDDLES).contains(&middles) {
        return Mesh::ZERO;
    }
    let outer_nodes = [middles, middles + 1];
    let mut pairs = BTreeSet::from([outer_nodes.into()]);
    for middle in 0..middles {
        pairs.extend(outer_nodes.map(|outer| (middle, outer)));
    }
    // The set gives the pairs in rising order.
    let link = |(low, high)| Link {
        low,
        high,
        ..Link::ZERO
    };
    let links: Vec<Link> = pairs.into_iter().map(link).collect();
    Mesh::new(middles + 2, &links)
}

#[cfg(test)]
mod tests {
    use super::*;

    #[test]
    fn every_number_from_1_to_62_is_asked_for_in_two_ways() {
        for middles in 1..=62 {
            let text = middles.to_string();
            assert_eq!(asked(text.as_bytes()), Some(middles));
            assert_eq!(asked(format!("{text}\n").as_bytes()), Some(middles));
        }
    }

    #[test]
    fn no_other_input_of_up_to_two_bytes_asks_for_a_drill() {
        let mut one_byte = Vec::new();
        let mut two_bytes = Vec::new();
        for first in 0..=255 {
            one_byte.extend(asked(&[first]));
            two_bytes.extend((0..=255).filter_map(|second| asked(&[first, second])));
        }
        assert_eq!(asked(&[]), None);
        assert_eq!(one_byte, (1..=9).collect::<Vec<u8>>());
        // 1 to 9 with a line feed, and 10 to 62 without one.
        two_bytes.sort_unstable();
        assert_eq!(two_bytes, (1..=62).collect::<Vec<u8>>());
    }

    #[test]
    fn of_three_bytes_only_two_digits_and_a_line_feed_ask_for_a_drill() {
        let near = |digit: u8| (b'/'..=b':').contains(&digit);
        let mut all = Vec::new();
        for first in (0..=255).filter(|byte| near(*byte)) {
            for second in (0..=255).filter(|byte| near(*byte)) {
                all.extend((0..=255).filter_map(|last| asked(&[first, second, last])));
            }
        }
        assert_eq!(all, (10..=62).collect::<Vec<u8>>());
    }

    #[test]
    fn links_stand_in_rising_order_with_that_of_the_outer_nodes_last() {
        for middles in 1..=62 {
            let mesh = mesh(middles);
            assert_eq!(mesh.check(), Ok(()));
            assert_eq!(
                (mesh.nodes, mesh.count),
                (middles + 2, 2 * u16::from(middles) + 1)
            );
            let (last, others) = mesh.counted().split_last().unwrap();
            assert_eq!((last.low, last.high), (middles, middles + 1));
            for (number, link) in (0..).zip(others) {
                let expected = (number / 2, middles + number % 2);
                assert_eq!((link.low, link.high), expected);
            }
            let plain = |link: &Link| (link.length, link.pair, link.duct) == (0, 0, 0);
            assert!(mesh.links.iter().all(plain));
        }
    }

    #[test]
    fn other_numbers_give_the_mesh_of_zeros() {
        for middles in (63..=255).chain([0]) {
            assert_eq!(mesh(middles), Mesh::ZERO);
        }
    }
}
