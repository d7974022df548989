//! The lines of a duct query.

use super::Lines;
use crate::ducts::sharing;
use crate::listing::scripts::spaced;
use crate::mesh::Mesh;

/// Every entry of an output before it is lent; no link has this number.
const FILL: u16 = 42_405;

impl Lines {
    pub fn ducts(&mut self, number: usize, room: u16, link: u16, mesh: &Mesh) {
        self.line(&format!("ducts {number}"));
        let mut output = vec![FILL; room.into()];
        let written = sharing(mesh, link, &mut output);
        self.answer("sharing", written.map(|_| ()));
        self.line(&format!("count {}", written.unwrap_or(0)));
        self.digits("out", &spaced(output.into_iter()));
    }
}

#[cfg(test)]
mod tests {
    use crate::case::{read_cases, write_cases};
    use crate::listing::listing;

    /// P1's triangle with links 0 and 2 in duct 258; the room, then the link.
    fn asked(room: u8, link: u8) -> Vec<u8> {
        let entries = b"\x03\x03\0\x03\0\
            \x00\0\x01\0\0\0\0\0\0\x02\x01\
            \x01\0\x02\0\0\0\0\0\0\0\0\
            \x02\x01\x02\0\0\0\0\0\0\x02\x01";
        [&[b'D', room, 0, link, 0][..], entries].concat()
    }

    fn listed(corpus: &[u8]) -> String {
        listing(&read_cases(corpus).unwrap()).unwrap()
    }

    #[test]
    fn lists_queries() {
        let corpus = [asked(4, 2), asked(1, 1), asked(1, 2), asked(0, 3)].concat();
        let expected = "ducts 0\nsharing accepted\ncount 2\nout 0 2 42405 42405\n\
            ducts 1\nsharing accepted\ncount 1\nout 1\n\
            ducts 2\nsharing refused 11 2\ncount 0\nout 42405\n\
            ducts 3\nsharing refused 12 3\ncount 0\nout\n";
        assert_eq!(listed(&corpus), expected);
        assert_eq!(write_cases(&read_cases(&corpus).unwrap()), corpus);
    }

    #[test]
    fn an_output_has_at_most_300_entries() {
        let with_room = |room: u16| {
            let mut corpus = asked(0, 0);
            corpus[1..3].copy_from_slice(&room.to_le_bytes());
            read_cases(&corpus)
        };
        assert!(with_room(300).is_ok());
        assert!(with_room(301).is_err());
    }
}
