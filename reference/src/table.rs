//! The text table of a mesh: the line `nodes N`, then a line for each link with
//! its low end, high end, length, fibre pair and duct. The last one, two or
//! three of these can be left out and are then 0. What stands from `#` to the
//! end of a line is a comment, and lines without data do not count, nor does a
//! byte order mark at the beginning.

use std::fmt::{Display, Formatter, Result as Written};
use std::mem::size_of;
use std::str::FromStr;

use crate::mesh::{check_count, check_ends, check_nodes, Ends, Link, Mesh};
use crate::mesh::{FEWEST_NODES, MOST_LINKS, MOST_NODES};
use crate::refusal::{Reason, Refusal};

/// Why a table is not a mesh: the line, counted from 1, and the reason.
#[derive(Clone, Debug, PartialEq, Eq)]
pub struct Fault {
    pub line: usize,
    pub reason: String,
}

impl Display for Fault {
    fn fmt(&self, formatter: &mut Formatter) -> Written {
        write!(formatter, "line {}: {}", self.line, self.reason)
    }
}

impl Fault {
    /// In words, for a table in a file of this name.
    pub fn in_file(&self, name: &str) -> String {
        format!("{name}:{}: {}", self.line, self.reason)
    }
}

/// Reads a table in which whole lines alone are comments, those that begin with
/// `#`; the fault is that of the first line with one.
pub fn read(table: &str) -> Result<Mesh, Fault> {
    let split = table.lines().map(|line| line.split_whitespace().collect());
    let numbered = (1..).zip(split);
    read_lines(numbered.filter(|(_, words): &(usize, Vec<&str>)| {
        let first = words.first();
        first.is_some_and(|word| !word.starts_with('#'))
    }))
}

/// Reads a table as people write it, with comments at the ends of lines and a
/// byte order mark.
pub fn read_remarked(table: &str) -> Result<Mesh, Fault> {
    read_lines(lines(table))
}

/// The mesh of the lines with data.
fn read_lines<'a>(mut lines: impl Iterator<Item = (usize, Vec<&'a str>)>) -> Result<Mesh, Fault> {
    let (line, words) = lines.next().unwrap_or((1, Vec::new()));
    let nodes = nodes_of(&words).map_err(|reason| Fault { line, reason })?;
    let mut links: Vec<Link> = Vec::new();
    for (line, words) in lines {
        let link = link_after(&links, &words, nodes);
        links.push(link.map_err(|reason| Fault { line, reason })?);
    }
    Ok(Mesh::new(nodes, &links))
}

/// The table of a well-formed mesh, with the shortest line for each link.
pub fn text_of(mesh: &Mesh) -> String {
    let links: String = mesh.counted().iter().map(line_of).collect();
    format!("nodes {}\n{links}", mesh.nodes)
}

/// The ends, and the other numbers up to the last that is not 0.
fn line_of(link: &Link) -> String {
    let others = [link.length.into(), link.pair, link.duct.into()];
    let last = others.iter().rposition(|number| *number != 0);
    let written = &others[..last.map_or(0, |last| last + 1)];
    let written: String = written.iter().map(|number| format!(" {number}")).collect();
    format!("{} {}{written}\n", link.low, link.high)
}

/// The table without a byte order mark.
pub(crate) fn without_mark(table: &str) -> &str {
    table.strip_prefix('\u{feff}').unwrap_or(table)
}

/// The lines with data, each with its number and its words.
pub(crate) fn lines(table: &str) -> impl Iterator<Item = (usize, Vec<&str>)> {
    let split = without_mark(table).lines().map(words_of);
    let numbered = (1..).zip(split);
    numbered.filter(|(_, words)| !words.is_empty())
}

/// The words of a line before its comment.
fn words_of(line: &str) -> Vec<&str> {
    let data = line.split('#').next().unwrap_or_default();
    data.split_ascii_whitespace().collect()
}

/// N from the words of the line `nodes N`.
pub(crate) fn nodes_of(words: &[&str]) -> Result<u8, String> {
    let ["nodes", word] = *words else {
        return Err("the table begins with `nodes N`, N the number of nodes".to_string());
    };
    let nodes: u64 = number("number of nodes", word)?;
    // A number that no byte holds is refused as the largest byte is.
    let byte = u8::try_from(nodes).unwrap_or(u8::MAX);
    check_nodes(byte, 0).map_err(|refusal| {
        let reason = format!("{nodes} nodes, a mesh has {FEWEST_NODES} to {MOST_NODES}");
        refused(refusal, &reason)
    })?;
    Ok(byte)
}

/// The link of a line's words, to stand after `links`.
fn link_after(links: &[Link], words: &[&str], nodes: u8) -> Result<Link, String> {
    check_room(links.len())?;
    link_of(words, links.last().map(Link::ends), nodes)
}

/// Whether a mesh has room for a link with this number.
pub(crate) fn check_room(number: usize) -> Result<(), String> {
    check_count(number as u16 + 1, 0).map_err(|refusal| {
        let reason = format!("link number {number}, a mesh has at most {MOST_LINKS} links");
        refused(refusal, &reason)
    })
}

/// The link of a line's words, to stand after one with the ends `previous`.
pub(crate) fn link_of(words: &[&str], previous: Option<Ends>, nodes: u8) -> Result<Link, String> {
    let [low, high, length, pair, duct] = fields(words)?;
    let ends = (number("low end", low)?, number("high end", high)?);
    check_ends(ends, previous, nodes, 0)
        .map_err(|refusal| refused(refusal, &ends_in_words(refusal, ends, previous, nodes)))?;
    Ok(Link {
        // Both ends are below N here, so they fit one byte.
        low: ends.0 as u8,
        high: ends.1 as u8,
        length: number("length", length)?,
        pair: number("fibre pair", pair)?,
        duct: number("duct", duct)?,
    })
}

/// The five fields of a link's line; a field left out is 0.
fn fields<'a>(words: &[&'a str]) -> Result<[&'a str; 5], String> {
    if !(2..=5).contains(&words.len()) {
        return Err(format!(
            "a link is `low high length pair duct`, the last one, two or three left out \
             where they are 0; here are {} words",
            words.len()
        ));
    }
    let mut fields = ["0"; 5];
    fields[..words.len()].copy_from_slice(words);
    Ok(fields)
}

/// The number, of a type without negative ones, that a word of decimal digits
/// stands for.
pub(crate) fn number<T: FromStr>(field: &str, word: &str) -> Result<T, String> {
    if !word.bytes().all(|byte| byte.is_ascii_digit()) {
        return Err(format!("{field} `{word}` is not a decimal number"));
    }
    let most = u128::MAX >> (u128::BITS as usize - 8 * size_of::<T>());
    let too_large = |_| format!("{field} {word} is too large, the most is {most}");
    word.parse().map_err(too_large)
}

fn ends_in_words(refusal: Refusal, ends: Ends, previous: Option<Ends>, nodes: u8) -> String {
    let (low, high) = ends;
    match (refusal.reason, previous) {
        (Reason::LowNotBelowHigh, _) => format!("low end {low} is not below high end {high}"),
        (Reason::BelowPrevious, Some((before_low, before_high))) => {
            format!("pair {low} {high} is below the previous pair {before_low} {before_high}")
        }
        // The low end is below the high end here.
        _ => format!("end {high} is not below {nodes}, the number of nodes"),
    }
}

fn refused(refusal: Refusal, reason: &str) -> String {
    format!("refused {}: {reason}", refusal.number())
}

#[cfg(test)]
mod tests {
    use super::*;

    const MEASURED: Mesh = {
        let mut mesh = Mesh::ZERO;
        mesh.nodes = 4;
        mesh.count = 4;
        mesh.links[0] = link(0, 1, 850, 101, 7);
        mesh.links[1] = link(0, 3, u16::MAX, 0, 0);
        mesh.links[2] = link(1, 2, 0, u32::MAX, 0);
        mesh.links[3] = link(2, 3, 0, 0, u16::MAX);
        mesh
    };

    const fn link(low: u8, high: u8, length: u16, pair: u32, duct: u16) -> Link {
        Link {
            low,
            high,
            length,
            pair,
            duct,
        }
    }

    fn assert_fault(table: &str, expected: &str) {
        let fault = read(table).map_err(|fault| fault.to_string());
        assert_eq!(fault, Err(expected.to_string()), "{table}");
    }

    #[test]
    fn writes_the_shortest_line_for_each_link() {
        let text = "nodes 4\n0 1 850 101 7\n0 3 65535\n1 2 0 4294967295\n2 3 0 0 65535\n";
        assert_eq!(text_of(&MEASURED), text);
        assert_eq!(read(text), Ok(MEASURED));
        let plain = "nodes 2\n0 1\n";
        assert_eq!(text_of(&read(plain).unwrap()), plain);
    }

    #[test]
    fn fields_left_out_are_zero() {
        let text = "nodes 4\n0 1 850 101 7\n0 3 65535 0 0\n1 2 0 4294967295 0\n2 3 0 0 65535";
        assert_eq!(read(text), Ok(MEASURED));
        for line in ["0 1", "0 1 0", "0 1 0 0", "0 1 0 0 0"] {
            let table = format!("nodes 2\n{line}\n");
            assert_eq!(text_of(&read(&table).unwrap()), "nodes 2\n0 1\n");
        }
    }

    #[test]
    fn comments_and_blanks_do_not_count() {
        let text = "# a mesh\n\n  nodes\t4 \r\n0 1 850 101 7\n   # 9 9\n#0 2\n \
            0  3 065535 0\n\n1 2 0 4294967295\n2 3 0 0 065535";
        assert_eq!(read(text), Ok(MEASURED));
    }

    #[test]
    fn a_comment_can_stand_at_the_end_of_a_line() {
        let text = "nodes 4 # a mesh\n0 1 850 101 7 # main trunk\n0 3 65535# 9\n\
            1 2 0 4294967295 ## 7 # 8\n2 3 0 0 65535 #";
        assert_eq!(read_remarked(text), Ok(MEASURED));
        let short = "nodes 4\n0 # 1\n";
        assert!(read_remarked(short)
            .unwrap_err()
            .reason
            .ends_with("here are 1 words"));
    }

    #[test]
    fn a_byte_order_mark_and_carriage_returns_do_not_count() {
        let text = "\u{feff}nodes\t4\r\n\r\n0\t1\t850 101 7\r\n0 3 65535\r\n\
            1 2 0 4294967295 # duct\r\n2 3 0 0 65535\r\n";
        assert_eq!(read_remarked(text), Ok(MEASURED));
        assert_eq!(
            read_remarked(&format!("\u{feff}# a mesh\n{text}"))
                .unwrap_err()
                .line,
            2
        );
    }

    #[test]
    fn a_mesh_can_have_no_link() {
        assert_eq!(read("nodes 64\n"), Ok(Mesh::new(64, &[])));
        assert_eq!(text_of(&Mesh::new(64, &[])), "nodes 64\n");
    }

    #[test]
    fn the_first_line_gives_the_nodes() {
        let begins = "the table begins with `nodes N`, N the number of nodes";
        assert_fault("", &format!("line 1: {begins}"));
        assert_fault("# nodes 3\n", &format!("line 1: {begins}"));
        assert_fault("# a mesh\n0 1\n", &format!("line 2: {begins}"));
        assert_fault("nodes\n0 1\n", &format!("line 1: {begins}"));
        assert_fault("nodes 3 3\n", &format!("line 1: {begins}"));
        assert_fault(
            "nodes x\n",
            "line 1: number of nodes `x` is not a decimal number",
        );
        assert_fault(
            "nodes -3\n",
            "line 1: number of nodes `-3` is not a decimal number",
        );
    }

    #[test]
    fn refuses_a_wrong_number_of_nodes() {
        for nodes in ["0", "1", "65", "256", "258", "18446744073709551615"] {
            let expected = format!("line 1: refused 3: {nodes} nodes, a mesh has 2 to 64");
            assert_fault(&format!("nodes {nodes}\n"), &expected);
        }
        let expected = "line 1: number of nodes 18446744073709551616 is too large, \
            the most is 18446744073709551615";
        assert_fault("nodes 18446744073709551616\n", expected);
    }

    #[test]
    fn refuses_wrong_ends() {
        let table = |line: &str| format!("# ends\nnodes 4\n0 3\n{line}\n");
        for (line, expected) in [
            (
                "1 4",
                "refused 6: end 4 is not below 4, the number of nodes",
            ),
            (
                "4 5",
                "refused 6: end 5 is not below 4, the number of nodes",
            ),
            (
                "0 256",
                "refused 6: end 256 is not below 4, the number of nodes",
            ),
            ("2 1", "refused 7: low end 2 is not below high end 1"),
            ("9 9", "refused 7: low end 9 is not below high end 9"),
            ("0 2", "refused 8: pair 0 2 is below the previous pair 0 3"),
        ] {
            assert_fault(&table(line), &format!("line 4: {expected}"));
        }
    }

    #[test]
    fn equal_pairs_stand_in_the_order_of_their_lines() {
        let text = "nodes 2\n0 1 300\n0 1 200 7\n0 1\n0 1 0 0 9\n";
        let mesh = read(text).unwrap();
        let expected = [
            link(0, 1, 300, 0, 0),
            link(0, 1, 200, 7, 0),
            link(0, 1, 0, 0, 0),
            link(0, 1, 0, 0, 9),
        ];
        assert_eq!(mesh, Mesh::new(2, &expected));
        assert_eq!(text_of(&mesh), text);
        let after_equal = "nodes 3\n0 2\n0 2\n0 1\n";
        assert_fault(
            after_equal,
            "line 4: refused 8: pair 0 1 is below the previous pair 0 2",
        );
    }

    #[test]
    fn refuses_more_than_256_links() {
        let pairs = (0..64).flat_map(|low| (low + 1..64).map(move |high| (low, high)));
        let lines: Vec<String> = pairs.map(|(low, high)| format!("{low} {high}")).collect();
        let table = |count: usize| format!("nodes 64\n{}\n", lines[..count].join("\n"));
        assert_eq!(read(&table(256)).map(|mesh| mesh.count), Ok(256));
        let expected = "line 258: refused 4: link number 256, a mesh has at most 256 links";
        assert_fault(&table(257), expected);
        assert_fault(&table(300), expected);
    }

    #[test]
    fn names_the_line_of_a_wrong_word() {
        let table = |line: &str| format!("nodes 4\n0 1\n\n{line}\n1 9\n");
        for (line, expected) in [
            ("0 b", "high end `b` is not a decimal number"),
            ("nodes 5", "low end `nodes` is not a decimal number"),
            ("+0 2", "low end `+0` is not a decimal number"),
            ("0 2 1.5", "length `1.5` is not a decimal number"),
            ("0 2 10 #", "fibre pair `#` is not a decimal number"),
            ("0 65536", "high end 65536 is too large, the most is 65535"),
            ("0 2 65536", "length 65536 is too large, the most is 65535"),
            (
                "0 2 1 4294967296",
                "fibre pair 4294967296 is too large, the most is 4294967295",
            ),
            ("0 2 1 1 -7", "duct `-7` is not a decimal number"),
            (
                "0 2 1 1 65536",
                "duct 65536 is too large, the most is 65535",
            ),
        ] {
            assert_fault(&table(line), &format!("line 4: {expected}"));
        }
    }

    #[test]
    fn names_the_line_with_too_few_or_too_many_words() {
        for (line, words) in [("2", 1), ("0 2 1 1 1 1", 6), ("0 2 1 1 1 # new", 7)] {
            let expected = format!(
                "line 2: a link is `low high length pair duct`, the last one, two or \
                 three left out where they are 0; here are {words} words"
            );
            assert_fault(&format!("nodes 4\n{line}\n"), &expected);
        }
    }
}
