//! What the program `bus` reads and prints.

use super::with_length;
use crate::book::decode;
use crate::collection::{collect, tree_links, MOST_ENTRIES};
use crate::listing::Lines;
use crate::mesh::Mesh;
use crate::reader::Reader;
use crate::refusal::in_words;
use crate::script::number;

/// A root from words; otherwise what is wrong with them. Numbers that are no
/// node are let through: the route refuses them.
pub fn root_of(words: &[&str]) -> Result<u8, String> {
    let mut rest = words.iter();
    let root = number("root", "ROOT", u8::MAX, rest.next())?;
    match rest.next() {
        None => Ok(root),
        Some(word) => Err(format!("`{word}` comes after a root; name one alone")),
    }
}

/// The input: the length of a book, the book, and the root.
pub fn input_of(book: &[u8], root: u8) -> Vec<u8> {
    let mut output = with_length(book);
    output.push(root);
    output
}

/// What `bus` prints; none if the input is ill-formed.
pub fn answer(input: &[u8]) -> Option<String> {
    let mut reader = Reader::new(input);
    let length = reader.two()?;
    let book = reader.take(length.into())?;
    let root = reader.one()?;
    let mut lines = Lines::default();
    add_bus(book, root, &mut lines);
    reader.is_at_end().then_some(lines.text)
}

/// A refusal of reading is the only line.
fn add_bus(book: &[u8], root: u8, lines: &mut Lines) {
    match decode(book) {
        (mesh, Ok(())) => add_route(&mesh, root, lines),
        (_, refused) => lines.answer("read", refused),
    }
}

/// The answer with the number of entries, the route, and a line for each tree
/// link.
fn add_route(mesh: &Mesh, root: u8, lines: &mut Lines) {
    let mut output = [0; MOST_ENTRIES];
    let (tree, answer) = collect(mesh, root, &mut output);
    match answer {
        Err(refusal) => lines.line(&format!("collect {root} {}", in_words(Err(refusal)))),
        Ok(count) => {
            lines.line(&format!("collect {root} accepted {count}"));
            lines.nodes("route", &output[..count]);
            for link in tree_links(&tree).map(usize::from) {
                lines.link(link, &mesh.links[link]);
            }
        }
    }
}

#[cfg(test)]
mod tests {
    use super::*;
    use crate::book::bytes_of;
    use crate::corpus::meshes::plain;
    use crate::corpus::shapes;

    /// The triangle with links 0 and 2 in duct 258.
    const DUCTED: [u8; 13] = [1, 3, 3, 0, 16, 2, 1, 2, 2, 17, 1, 2, 1];

    fn bus(book: &[u8], root: u8) -> String {
        answer(&input_of(book, root)).unwrap()
    }

    #[test]
    fn prints_the_route_and_the_tree_links() {
        let expected = "collect 0 accepted 5\nroute 0 1 2 1 0\n\
            link 0 0 1 0 0 258\nlink 2 1 2 0 0 258\n";
        assert_eq!(bus(&DUCTED, 0), expected);
        let expected = "collect 2 accepted 5\nroute 2 0 1 0 2\n\
            link 0 0 1 0 0 258\nlink 1 0 2 0 0 0\n";
        assert_eq!(bus(&DUCTED, 2), expected);
        // One link, which parts the mesh.
        let expected = "collect 1 accepted 3\nroute 1 0 1\nlink 0 0 1 0 0 0\n";
        assert_eq!(bus(&[1, 2, 1, 0, 0], 1), expected);
    }

    #[test]
    fn the_longest_route_has_room() {
        let book = bytes_of(&plain(64, &shapes::path(64)));
        let printed = bus(&book, 63);
        assert!(printed.starts_with("collect 63 accepted 127\nroute 63 62 61 "));
        assert_eq!(printed.lines().count(), 2 + 63);
    }

    #[test]
    fn a_refusal_is_the_only_line() {
        assert_eq!(bus(&DUCTED, 3), "collect 3 refused 6 0\n");
        assert_eq!(bus(&DUCTED, 255), "collect 255 refused 6 0\n");
        assert_eq!(bus(&[1, 2, 0, 0], 1), "collect 1 refused 20 1\n");
        assert_eq!(bus(&DUCTED[..12], 0), "read refused 1 12\n");
        let long = [&DUCTED[..], &[0; 70_000]].concat();
        assert_eq!(bus(&long, 0), "read refused 10 13\n");
    }

    #[test]
    fn an_ill_formed_input_has_no_answer() {
        let input = input_of(&DUCTED, 1);
        for length in 0..input.len() {
            assert_eq!(answer(&input[..length]), None, "{length}");
        }
        assert_eq!(answer(&[&input[..], &[0]].concat()), None);
    }

    #[test]
    fn words_of_a_root() {
        assert_eq!(root_of(&["0"]), Ok(0));
        assert_eq!(root_of(&["255"]), Ok(255));
        let range = "ROOT is a number from 0 to 255";
        for (words, why) in [
            (&[][..], format!("root: ROOT is missing; {range}")),
            (&["256"], format!("root 256: {range}")),
            (&["-1"], format!("root -1: {range}")),
            (&["hub"], format!("root hub: {range}")),
            (
                &["7", "9"],
                "`9` comes after a root; name one alone".to_string(),
            ),
        ] {
            assert_eq!(root_of(words), Err(why));
        }
    }
}
