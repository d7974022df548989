//! A text table with its links in the order that 01 wants: each with its low end
//! before its high end, then rising by low end, then high end. Links with the
//! same ends keep their order.
//!
//! A comment at the end of a link's line stays with the link, and so do the lines
//! without data between it and the link before it. What stands before the first
//! link stays at the top, and what stands after the last one at the end.

use std::fmt::{Display, Formatter, Result as Written};

use crate::mesh::{Ends, Link};
use crate::table::{check_room, lines, link_of, nodes_of, number, without_mark, Fault};

/// Where a link stood and stands, by number; the line of its table, counted
/// from 1; and whether its ends were exchanged.
#[derive(Clone, Copy, Debug, PartialEq, Eq)]
pub struct Moved {
    pub old: usize,
    pub line: usize,
    pub new: usize,
    pub turned: bool,
}

impl Display for Moved {
    fn fmt(&self, formatter: &mut Formatter) -> Written {
        let Moved { old, line, new, .. } = self;
        let turned = if self.turned { ", turned round" } else { "" };
        write!(formatter, "link {old} (line {line}) is link {new}{turned}")
    }
}

/// A link's line, by its number, with its ends in order.
struct Entry {
    line: usize,
    ends: Ends,
    turned: bool,
}

/// The table in order, and its links by their old numbers; the fault is that of
/// the first line with one, where the order of links is none.
pub fn sorted(table: &str) -> Result<(String, Vec<Moved>), Fault> {
    let entries = entries(table)?;
    let mut order: Vec<usize> = (0..entries.len()).collect();
    order.sort_by_key(|old| entries[*old].ends);
    Ok((text_in(table, &entries, &order), moves(&entries, &order)))
}

fn entries(table: &str) -> Result<Vec<Entry>, Fault> {
    let mut lines = lines(table);
    let (line, words) = lines.next().unwrap_or((1, Vec::new()));
    let nodes = nodes_of(&words).map_err(|reason| Fault { line, reason })?;
    let mut entries = Vec::new();
    for (line, words) in lines {
        let fault = |reason| Fault { line, reason };
        check_room(entries.len()).map_err(fault)?;
        let (turned, words) = with_low_end_first(words);
        let link = link_of(&words, None, nodes).map_err(fault)?;
        entries.push(Entry {
            line,
            ends: Link::ends(&link),
            turned,
        });
    }
    Ok(entries)
}

/// The words of a link with its low end first, and whether it was second.
fn with_low_end_first(mut words: Vec<&str>) -> (bool, Vec<&str>) {
    let end = |at: usize| {
        words
            .get(at)
            .and_then(|word| number::<u16>("end", word).ok())
    };
    let turned = matches!((end(0), end(1)), (Some(low), Some(high)) if high < low);
    if turned {
        words.swap(0, 1);
    }
    (turned, words)
}

fn moves(entries: &[Entry], order: &[usize]) -> Vec<Moved> {
    let mut new = vec![0; order.len()];
    for (at, old) in order.iter().enumerate() {
        new[*old] = at;
    }
    let moved = |(old, entry): (usize, &Entry)| Moved {
        old,
        line: entry.line,
        new: new[old],
        turned: entry.turned,
    };
    entries.iter().enumerate().map(moved).collect()
}

/// The table's lines with its links in this order.
fn text_in(table: &str, entries: &[Entry], order: &[usize]) -> String {
    let lines: Vec<&str> = without_mark(table).lines().collect();
    let first = entries.first().map_or(lines.len(), |entry| entry.line - 1);
    let last = entries.last().map_or(lines.len(), |entry| entry.line);
    let mut text: Vec<String> = owned(&lines[..first]);
    for old in order {
        let Entry { line, turned, .. } = entries[*old];
        let above = old
            .checked_sub(1)
            .map_or(first, |before| entries[before].line);
        text.extend(owned(&lines[above..line - 1]));
        text.push(if turned {
            turned_round(lines[line - 1])
        } else {
            lines[line - 1].to_string()
        });
    }
    text.extend(owned(&lines[last..]));
    text.iter().map(|line| format!("{line}\n")).collect()
}

fn owned(lines: &[&str]) -> Vec<String> {
    lines.iter().map(ToString::to_string).collect()
}

/// A link's line with its first two words exchanged; a comment may stand right
/// behind the second.
fn turned_round(line: &str) -> String {
    let data = line.split('#').next().unwrap_or_default();
    let mut words = data.split_ascii_whitespace();
    let (first, second) = (words.next(), words.next());
    let (first, second) = (first.unwrap_or_default(), second.unwrap_or_default());
    // Only blanks stand before each of the two.
    let (before, rest) = line.split_once(first).unwrap_or_default();
    let (between, after) = rest.split_once(second).unwrap_or_default();
    format!("{before}{second}{between}{first}{after}")
}

#[cfg(test)]
mod tests {
    use super::*;
    use crate::table::read_remarked;

    fn assert_sorted(table: &str, expected: &str, numbers: &[(usize, bool)]) {
        let (text, moves) = sorted(table).unwrap();
        assert_eq!(text, expected);
        let found: Vec<(usize, bool)> = moves
            .iter()
            .map(|moved| (moved.new, moved.turned))
            .collect();
        assert_eq!(found, numbers);
        assert!(read_remarked(&text).is_ok());
    }

    #[test]
    fn links_rise_by_low_end_then_high_end() {
        assert_sorted(
            "nodes 4\n2 3\n0 2 5\n1 2\n0 1\n",
            "nodes 4\n0 1\n0 2 5\n1 2\n2 3\n",
            &[(3, false), (1, false), (2, false), (0, false)],
        );
        assert_sorted(
            "nodes 11\n0 10\n0 9\n",
            "nodes 11\n0 9\n0 10\n",
            &[(1, false), (0, false)],
        );
    }

    #[test]
    fn a_table_in_order_stays_as_it_is() {
        for table in [
            "nodes 3\n",
            "# p\nnodes 3\n\n# q\n0 1\n# r\n0 1 7 # s\n\n1 2\n# t\n",
        ] {
            let (text, moves) = sorted(table).unwrap();
            assert_eq!(text, table);
            assert!(moves
                .iter()
                .all(|moved| moved.old == moved.new && !moved.turned));
        }
    }

    #[test]
    fn the_low_end_comes_first() {
        assert_sorted(
            "nodes 30\n 12\t1  420 # 12 1\n21 2\n2 1\n011 1\n",
            "nodes 30\n1 2\n1 011\n 1\t12  420 # 12 1\n2 21\n",
            &[(2, true), (3, true), (0, true), (1, true)],
        );
    }

    #[test]
    fn a_comment_may_stand_right_behind_the_ends() {
        assert_sorted(
            "nodes 3\n2 0# spare\n1 0#2 1\n",
            "nodes 3\n0 1#2 1\n0 2# spare\n",
            &[(1, true), (0, true)],
        );
    }

    #[test]
    fn links_with_the_same_ends_keep_their_order() {
        assert_sorted(
            "nodes 3\n1 2 1\n1 0 2\n2 1 3\n0 1 4\n1 2 5\n",
            "nodes 3\n0 1 2\n0 1 4\n1 2 1\n1 2 3\n1 2 5\n",
            &[(2, false), (0, true), (3, true), (1, false), (4, false)],
        );
    }

    #[test]
    fn comments_stay_with_their_links() {
        assert_sorted(
            "\u{feff}# p\r\nnodes 3\r\n# site 0 hall\r\n1 2 # late\r\n\r\n# early\r\n1 0 # trunk\r\n# end\r\n",
            "# p\nnodes 3\n# site 0 hall\n\n# early\n0 1 # trunk\n1 2 # late\n# end\n",
            &[(1, false), (0, true)],
        );
    }

    #[test]
    fn a_fault_is_that_of_the_first_line_with_one() {
        for (table, expected) in [
            (
                "",
                "line 1: the table begins with `nodes N`, N the number of nodes",
            ),
            (
                "nodes 3\n2 1\n1 1\n",
                "line 3: refused 7: low end 1 is not below high end 1",
            ),
            (
                "nodes 3\n2 1\n3 0\n",
                "line 3: refused 6: end 3 is not below 3, the number of nodes",
            ),
            (
                "nodes 3\n2 1\n# p\nx 0\n",
                "line 4: low end `x` is not a decimal number",
            ),
            (
                "nodes 3\n2 1\n2 0 -1\n",
                "line 3: length `-1` is not a decimal number",
            ),
        ] {
            let fault = sorted(table).map_err(|fault| fault.to_string());
            assert_eq!(fault, Err(expected.to_string()), "{table}");
        }
        let many = format!("nodes 2\n{}", "1 0\n".repeat(257));
        assert_eq!(sorted(&many).map_err(|fault| fault.line), Err(258));
    }

    #[test]
    fn says_the_old_and_the_new_number() {
        let moved = |turned| Moved {
            old: 3,
            line: 7,
            new: 0,
            turned,
        };
        assert_eq!(moved(false).to_string(), "link 3 (line 7) is link 0");
        assert_eq!(
            moved(true).to_string(),
            "link 3 (line 7) is link 0, turned round"
        );
    }
}
