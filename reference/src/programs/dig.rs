//! What the program `dig` reads and prints.

use super::with_length;
use crate::book::decode;
use crate::ducts::{lowest_in, sharing};
use crate::listing::Lines;
use crate::mesh::{Mesh, MOST_LINKS};
use crate::reader::Reader;
use crate::refusal::in_words;
use crate::script::number;

/// The words of each dig.
const DIGS: &str = "link LINK | duct DUCT";

const LINK: u8 = b'L';
const DUCT: u8 = b'D';

/// What is asked for: the links that share the duct of a link, or those in a
/// duct.
#[derive(Clone, Copy, Debug, PartialEq, Eq)]
pub enum Dig {
    Link(u16),
    Duct(u16),
}

/// A dig from words; otherwise what is wrong with them.
pub fn dig_of(words: &[&str]) -> Result<Dig, String> {
    let mut rest = words.iter();
    let dig = match rest.next().copied() {
        Some("link") => Dig::Link(number("link", "LINK", u16::MAX, rest.next())?),
        Some("duct") => Dig::Duct(number("duct", "DUCT", u16::MAX, rest.next())?),
        Some(word) => return Err(format!("`{word}` is no dig; the digs are: {DIGS}")),
        None => return Err(format!("no dig is named; the digs are: {DIGS}")),
    };
    match rest.next() {
        None => Ok(dig),
        Some(word) => Err(format!("`{word}` comes after a dig; name one alone")),
    }
}

/// The input: the length of a book, the book, a letter for a link or a duct, and
/// its number.
pub fn input_of(book: &[u8], dig: Dig) -> Vec<u8> {
    let (letter, number) = match dig {
        Dig::Link(link) => (LINK, link),
        Dig::Duct(duct) => (DUCT, duct),
    };
    let mut output = with_length(book);
    output.push(letter);
    output.extend(number.to_le_bytes());
    output
}

/// What `dig` prints; none if the input is ill-formed.
pub fn answer(input: &[u8]) -> Option<String> {
    let mut reader = Reader::new(input);
    let length = reader.two()?;
    let book = reader.take(length.into())?;
    let dig = match reader.one()? {
        LINK => Dig::Link(reader.two()?),
        DUCT => Dig::Duct(reader.two()?),
        _ => return None,
    };
    let mut lines = Lines::default();
    add_dig(book, dig, &mut lines);
    reader.is_at_end().then_some(lines.text)
}

/// A refusal of reading is the only line, and so is a duct without a link.
fn add_dig(book: &[u8], dig: Dig, lines: &mut Lines) {
    let (mesh, answer) = decode(book);
    if answer.is_err() {
        return lines.answer("read", answer);
    }
    match dig {
        Dig::Link(link) => add_sharing(&mesh, link, lines),
        Dig::Duct(duct) => match lowest_in(&mesh, duct) {
            None => lines.line(&format!("duct {duct} none")),
            Some(link) => {
                lines.line(&format!("duct {duct} lowest {link}"));
                add_sharing(&mesh, link, lines);
            }
        },
    }
}

/// The answer with the number of the links, and a line for each.
fn add_sharing(mesh: &Mesh, link: u16, lines: &mut Lines) {
    let mut output = [0; MOST_LINKS];
    match sharing(mesh, link, &mut output) {
        Err(refusal) => lines.line(&format!("sharing {link} {}", in_words(Err(refusal)))),
        Ok(count) => {
            lines.line(&format!("sharing {link} accepted {count}"));
            for number in output[..count].iter().map(|link| usize::from(*link)) {
                lines.link(number, &mesh.links[number]);
            }
        }
    }
}

#[cfg(test)]
mod tests {
    use super::*;

    /// The triangle with links 0 and 2 in duct 258.
    const DUCTED: [u8; 13] = [1, 3, 3, 0, 16, 2, 1, 2, 2, 17, 1, 2, 1];

    fn dug(book: &[u8], from: Dig) -> String {
        answer(&input_of(book, from)).unwrap()
    }

    #[test]
    fn digs_by_link_and_by_duct() {
        let shared = "link 0 0 1 0 0 258\nlink 2 1 2 0 0 258\n";
        for (from, expected) in [
            (Dig::Link(2), format!("sharing 2 accepted 2\n{shared}")),
            (
                Dig::Link(1),
                "sharing 1 accepted 1\nlink 1 0 2 0 0 0\n".to_string(),
            ),
            (Dig::Link(3), "sharing 3 refused 12 3\n".to_string()),
            (
                Dig::Duct(258),
                format!("duct 258 lowest 0\nsharing 0 accepted 2\n{shared}"),
            ),
            (Dig::Duct(259), "duct 259 none\n".to_string()),
            // Link 1 has no duct, and lies in none.
            (Dig::Duct(0), "duct 0 none\n".to_string()),
        ] {
            assert_eq!(dug(&DUCTED, from), expected);
        }
        assert_eq!(dug(&DUCTED[..12], Dig::Duct(0)), "read refused 1 12\n");
        let long = [&DUCTED[..], &[0; 70_000]].concat();
        assert_eq!(dug(&long, Dig::Link(0)), "read refused 10 13\n");
    }

    #[test]
    fn an_ill_formed_input_has_no_answer() {
        let input = input_of(&DUCTED, Dig::Duct(258));
        for length in 0..input.len() {
            assert_eq!(answer(&input[..length]), None, "{length}");
        }
        assert_eq!(answer(&[&input[..], &[0]].concat()), None);
        let mut other = input.clone();
        other[15] = b'X';
        assert_eq!(answer(&other), None);
    }

    #[test]
    fn words_of_a_dig() {
        assert_eq!(dig_of(&["link", "3"]), Ok(Dig::Link(3)));
        assert_eq!(dig_of(&["duct", "65535"]), Ok(Dig::Duct(65_535)));
        for (words, why) in [
            (
                &[][..],
                "no dig is named; the digs are: link LINK | duct DUCT",
            ),
            (
                &["pit", "3"],
                "`pit` is no dig; the digs are: link LINK | duct DUCT",
            ),
            (
                &["link"],
                "link: LINK is missing; LINK is a number from 0 to 65535",
            ),
            (&["link", "-1"], "link -1: LINK is a number from 0 to 65535"),
            (
                &["duct", "65536"],
                "duct 65536: DUCT is a number from 0 to 65535",
            ),
            (&["duct", "7", "9"], "`9` comes after a dig; name one alone"),
        ] {
            assert_eq!(dig_of(words), Err(why.to_string()));
        }
    }
}
