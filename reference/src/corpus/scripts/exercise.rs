//! The scripts of docs/EXERCISE.md: on the mesh of P5, on the same links with
//! lengths, on the heaviest drill with two middle nodes, on two nodes with two
//! links, and on triangles with a doubled span.

use super::super::meshes::plain;
use super::grounds::p5;
use crate::book::bytes_of;
use crate::mesh::Mesh;
use crate::script::{calls_of, Origin, Script};

const PLAIN: &str = "examples/four-node.book";
const MEASURED: &str = "examples/four-node-measured.book";
const DRILL: &str = "examples/drill-2.book";
const TWO_NODES: &str = "examples/two-nodes.book";
const DOUBLED: &str = "doubled.table";
const ONE_WAY: &str = "one-way.table";

/// The book, or the table of the page, and the calls of each part, as its
/// command names them.
const PARTS: [(&str, &str); 21] = [
    (PLAIN, "status 1 1 cut 4 status 1 1"),
    (
        PLAIN,
        "cut 4 status 3 1 deliver 1 1 status 2 1 deliver 2 1 status 2 1 deliver 3 1 \
         status 0 1 deliver 0 1 status 0 1 deliver 0 1 status 3 1 deliver 3 1 status 3 1 \
         route 1 run 100 status 3 1 mend 4 status 3 1",
    ),
    (PLAIN, "cut 4 run 2 run 100 route 1"),
    (
        PLAIN,
        "cut 4 status 3 1 deliver 3 1 status 0 1 deliver 0 1 status 2 1 deliver 2 1 \
         status 2 1 deliver 1 1 status 1 1 deliver 1 1 status 1 1 route 1 run 100 \
         status 1 1 mend 4 status 1 1",
    ),
    (
        PLAIN,
        "mend 4 cut 4 cut 1 deliver 4 1 deliver 2 1 deliver 1 3 mend 4 status 1 1 \
         run 100 deliver 1 1 mend 1 mend 4 cut 5 status 5 3",
    ),
    (
        MEASURED,
        "cut 4 run 2 status 3 1 run 100 status 3 1 route 1 mend 4 status 3 1",
    ),
    (
        MEASURED,
        "cut 4 deliver 3 1 deliver 0 1 deliver 2 1 deliver 1 1 deliver 1 1 run 100 \
         status 3 1 route 1",
    ),
    (MEASURED, "cut 4 status 2 1 status 2 2"),
    (
        MEASURED,
        "cut 4 deliver 2 2 deliver 1 1 status 1 1 status 1 2 deliver 0 2 deliver 3 2 \
         deliver 1 2 deliver 1 2 status 1 2 route 2 mend 4 run 100 status 1 1 status 1 2 \
         route 1 route 2 mend 4",
    ),
    (
        MEASURED,
        "cut 4 run 2 status 2 1 status 2 2 run 1 status 2 2 run 100 route 1 route 2",
    ),
    (
        DRILL,
        "cut 4 status 2 1 deliver 0 1 deliver 1 1 status 2 1 deliver 2 1 deliver 3 1 \
         status 3 1 deliver 3 1 status 2 1 deliver 2 1 status 2 1 route 1",
    ),
    (
        DRILL,
        "cut 4 deliver 2 1 deliver 0 1 status 3 1 deliver 3 1 deliver 1 1 deliver 1 1 \
         deliver 0 1 status 0 1 route 1",
    ),
    (
        TWO_NODES,
        "cut 0 status 1 1 status 1 2 deliver 1 1 status 1 1 deliver 1 2 status 1 1 \
         route 1 route 2 mend 0",
    ),
    (
        DOUBLED,
        "cut 2 status 1 1 deliver 1 1 status 3 1 deliver 3 1 deliver 0 1 deliver 0 1 \
         deliver 3 1 status 3 1 route 1",
    ),
    (
        DOUBLED,
        "cut 2 deliver 3 1 deliver 0 1 deliver 1 1 deliver 1 1 status 1 1 route 1",
    ),
    (PLAIN, "cut 4 deliver 1 1 deliver 3 1 status 0 1 status 2 1"),
    (PLAIN, "cut 2 status 4 1 run 100 route 1"),
    (MEASURED, "cut 3 run 100 status 3 1 route 1"),
    (PLAIN, "cut 2 status 0 2 status 1 2 run 100 route 2"),
    (
        DOUBLED,
        "cut 1 status 2 1 status 2 2 run 100 route 1 route 2",
    ),
    (ONE_WAY, "cut 0 status 1 1 run 100 route 1 route 2"),
];

pub fn scripts() -> Vec<Script> {
    PARTS.map(|(book, calls)| script(book, calls)).into()
}

fn script(book: &str, calls: &str) -> Script {
    let words: Vec<&str> = calls.split_whitespace().collect();
    Script {
        book: bytes_of(&mesh(book)),
        origin: Origin::OwnPlan,
        calls: calls_of(&words).expect("a part has only words of calls"),
    }
}

fn mesh(book: &str) -> Mesh {
    match book {
        MEASURED => measured(),
        DRILL => plain(4, &[(0, 2), (0, 3), (1, 2), (1, 3), (2, 3)]),
        TWO_NODES => two_nodes(),
        DOUBLED => plain(3, &[(0, 1), (0, 2), (0, 2), (1, 2)]),
        ONE_WAY => plain(3, &[(0, 1), (0, 1), (0, 2), (1, 2)]),
        _ => p5(),
    }
}

/// P5 with lengths and fibre pairs, link 3 not measured and link 2 without a
/// pair.
fn measured() -> Mesh {
    let mut mesh = p5();
    let fields = [
        (420, 1_201),
        (655, 1_202),
        (390, 0),
        (0, 1_204),
        (580, 1_205),
    ];
    for (link, (length, pair)) in mesh.links.iter_mut().zip(fields) {
        link.length = length;
        link.pair = pair;
    }
    mesh
}

/// Two links of different lengths, each in a duct of its own.
fn two_nodes() -> Mesh {
    let mut mesh = plain(2, &[(0, 1), (0, 1)]);
    for (link, (length, duct)) in mesh.links.iter_mut().zip([(900, 1), (1_300, 2)]) {
        link.length = length;
        link.duct = duct;
    }
    mesh
}

#[cfg(test)]
mod tests {
    use std::fs;
    use std::path::PathBuf;

    use super::*;
    use crate::table::read;

    /// A file of the repository.
    fn file(name: &str) -> PathBuf {
        [env!("CARGO_MANIFEST_DIR"), "..", name].iter().collect()
    }

    #[test]
    fn the_books_are_those_of_the_examples() {
        for book in [PLAIN, MEASURED, DRILL, TWO_NODES] {
            assert_eq!(fs::read(file(book)).unwrap(), bytes_of(&mesh(book)));
        }
    }

    #[test]
    fn the_tables_are_those_of_the_page() {
        let page = fs::read_to_string(file("docs/EXERCISE.md")).unwrap();
        for name in [DOUBLED, ONE_WAY] {
            let (_, block) = page.split_once(&format!("```table {name}\n")).unwrap();
            let (table, _) = block.split_once("```").unwrap();
            assert_eq!(read(table), Ok(mesh(name)));
        }
    }

    #[test]
    fn the_parts_are_the_commands_of_the_page() {
        let page = fs::read_to_string(file("docs/EXERCISE.md")).unwrap();
        let commands = page
            .lines()
            .filter_map(|line| line.strip_prefix("scripts/calls "));
        let parts = PARTS.map(|(book, calls)| format!("{book} {calls}"));
        assert_eq!(commands.collect::<Vec<_>>(), parts);
    }
}
