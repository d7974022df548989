//! The lines of a collection route.

use super::Lines;
use crate::collection::{collect, tree_links};
use crate::listing::scripts::spaced;
use crate::mesh::Mesh;

/// Every entry of an output before it is lent; no node has this number.
const FILL: u8 = 165;

impl Lines {
    pub fn collection(&mut self, number: usize, room: u16, root: u8, mesh: &Mesh) {
        self.line(&format!("collection {number}"));
        let mut output = vec![FILL; room.into()];
        let (tree, written) = collect(mesh, root, &mut output);
        self.answer("collect", written.map(|_| ()));
        self.line(&format!("count {}", written.unwrap_or(0)));
        self.digits("tree", &spaced(tree_links(&tree)));
        self.nodes("out", &output);
    }

    /// The nodes in decimal.
    pub fn nodes(&mut self, word: &str, nodes: &[u8]) {
        let numbers = nodes.iter().map(|node| u16::from(*node));
        self.digits(word, &spaced(numbers));
    }
}

#[cfg(test)]
mod tests {
    use crate::case::{read_cases, write_cases};
    use crate::listing::listing;

    /// P1's triangle; the room, then the root.
    fn asked(room: u8, root: u8) -> Vec<u8> {
        let entries = b"\x03\x03\0\x03\0\
            \x00\0\x01\0\0\0\0\0\0\0\0\
            \x01\0\x02\0\0\0\0\0\0\x02\x01\
            \x02\x01\x02\0\0\0\0\0\0\0\0";
        [&[b'C', room, 0, root][..], entries].concat()
    }

    fn listed(corpus: &[u8]) -> String {
        listing(&read_cases(corpus).unwrap()).unwrap()
    }

    #[test]
    fn lists_routes() {
        let corpus = [asked(7, 0), asked(5, 2), asked(4, 2), asked(0, 3)].concat();
        let expected = "collection 0\ncollect accepted\ncount 5\ntree 0 2\n\
            out 0 1 2 1 0 165 165\n\
            collection 1\ncollect accepted\ncount 5\ntree 0 1\nout 2 0 1 0 2\n\
            collection 2\ncollect refused 11 5\ncount 0\ntree\nout 165 165 165 165\n\
            collection 3\ncollect refused 6 0\ncount 0\ntree\nout\n";
        assert_eq!(listed(&corpus), expected);
        assert_eq!(write_cases(&read_cases(&corpus).unwrap()), corpus);
    }

    #[test]
    fn an_output_has_at_most_300_entries() {
        let with_room = |room: u16| {
            let mut corpus = asked(0, 0);
            corpus[1..3].copy_from_slice(&room.to_le_bytes());
            read_cases(&corpus)
        };
        assert!(with_room(300).is_ok());
        assert!(with_room(301).is_err());
    }

    #[test]
    fn a_case_that_ends_early_is_ill_formed() {
        let corpus = asked(5, 0);
        for length in 1..corpus.len() {
            assert!(read_cases(&corpus[..length]).is_err());
        }
    }
}
