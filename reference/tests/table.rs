//! The text table and the book of a mesh, each made from the other.

mod program;

use reference::book::bytes_of;
use reference::corpus::meshes::{filled, Fill};
use reference::corpus::shapes;
use reference::random::Random;
use reference::table::{read, text_of};

use program::run;

const P5: [u8; 13] = [1, 4, 5, 0, 0, 2, 2, 2, 3, 1, 1, 1, 2];
const P5_TABLE: &str = "nodes 4\n0 1\n0 2\n0 3\n1 2\n2 3\n";

fn assert_answers(command: &str, input: &[u8], expected: &[u8]) {
    let output = run(&[command], input);
    assert!(output.status.success());
    assert_eq!(output.stdout, expected);
    assert!(output.stderr.is_empty());
}

#[test]
fn the_commands_are_inverse_on_p5() {
    assert_answers("book", P5_TABLE.as_bytes(), &P5);
    assert_answers("table", &P5, P5_TABLE.as_bytes());
}

#[test]
fn a_comment_can_hold_any_bytes() {
    let table = [&b"# \xff\x00 site\n"[..], P5_TABLE.as_bytes()].concat();
    assert_answers("book", &table, &P5);
}

#[test]
fn a_faulty_table_is_answered_on_stderr_alone() {
    let output = run(&["book"], b"# p\nnodes 4\n\n0 1\n0 3\n# q\n0 2\n9 9\n");
    assert_eq!(output.status.code(), Some(1));
    assert!(output.stdout.is_empty());
    let expected = "line 7: refused 8: pair 0 2 is below the previous pair 0 3\n";
    assert_eq!(String::from_utf8(output.stderr).unwrap(), expected);
}

#[test]
fn a_refused_book_is_answered_with_one_line() {
    for (book, expected) in [
        (&[][..], "refused 1 0\n"),
        (&[1, 2, 1, 0, 2, 1], "refused 9 4\n"),
        (&[1, 65, 0, 0], "refused 3 1\n"),
    ] {
        let output = run(&["table"], book);
        assert_eq!(output.status.code(), Some(1));
        assert_eq!(String::from_utf8(output.stdout).unwrap(), expected);
    }
}

#[test]
fn reading_a_table_gives_the_written_mesh() {
    let random = &mut Random::new(1);
    for nodes in 2..=64 {
        let count = random.below(257);
        let shape = shapes::scattered(nodes, count, random);
        for fill in [Fill::All, Fill::Some] {
            let mesh = filled(nodes, &shape, fill, random);
            let read = read(&text_of(&mesh));
            assert_eq!(read.as_ref(), Ok(&mesh));
            assert_eq!(bytes_of(&read.unwrap()), bytes_of(&mesh));
        }
    }
}
