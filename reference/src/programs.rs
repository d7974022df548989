//! What the programs `calls`, `show`, `dig`, `bus`, `survey` and `drill` read and
//! print.

pub mod bus;
pub mod dig;
pub mod drill;
pub mod survey;

use crate::book::{decode, MOST_BOOK_BYTES};
use crate::listing::scripts::call_line;
use crate::listing::Lines;
use crate::plan::plan;
use crate::reader::Reader;
use crate::script::{read_calls, write_calls, Call};
use crate::session::start;

/// How much of a book the programs read. What stands past these bytes changes
/// no answer.
const MOST_READ: usize = 4_096;

/// The input of `calls`: the length of a book, the book, the number of calls
/// and the calls.
pub fn input_of_calls(book: &[u8], calls: &[Call]) -> Vec<u8> {
    let mut output = with_length(book);
    write_calls(calls, &mut output);
    output
}

/// The length of a book, or of as much of it as is read, and so many bytes.
fn with_length(book: &[u8]) -> Vec<u8> {
    let book = front(book);
    let mut output = Vec::from((book.len() as u16).to_le_bytes());
    output.extend(book);
    output
}

/// What `calls` prints; none if the input is ill-formed.
pub fn calls(input: &[u8]) -> Option<String> {
    let mut reader = Reader::new(input);
    let length = reader.two()?;
    let book = reader.take(length.into())?;
    let calls = read_calls(&mut reader)?;
    let mut lines = Lines::default();
    add_answers(book, &calls, &mut lines);
    reader.is_at_end().then_some(lines.text)
}

/// A refusal of reading or planning is the only line.
fn add_answers(book: &[u8], calls: &[Call], lines: &mut Lines) {
    let (mesh, answer) = decode(book);
    if answer.is_err() {
        return lines.answer("read", answer);
    }
    let (plan, answer) = plan(&mesh);
    if answer.is_err() {
        return lines.answer("plan", answer);
    }
    let (mut session, answer) = start(&mesh, &plan);
    lines.answer("start", answer);
    for call in calls {
        lines.line(&call_line(&mut session, *call));
    }
    lines.session("", &session, mesh.counted().len());
}

/// What `show` prints for a book.
pub fn show(book: &[u8]) -> String {
    let book = front(book);
    let room = if book.len() <= MOST_BOOK_BYTES {
        book.len() + 2
    } else {
        2
    };
    let mut lines = Lines::default();
    lines.line(&format!("book {}", book.len()));
    lines.book_lines(room as u16, 0, book);
    lines.text
}

fn front(book: &[u8]) -> &[u8] {
    &book[..book.len().min(MOST_READ)]
}

#[cfg(test)]
mod tests {
    use super::*;

    const TRIANGLE: [u8; 9] = [1, 3, 3, 0, 0, 2, 2, 1, 1];

    fn answers(book: &[u8], made: &[Call]) -> String {
        calls(&input_of_calls(book, made)).unwrap()
    }

    #[test]
    fn answers_calls() {
        let made = [
            Call::Cut(0),
            Call::Run(9),
            Call::Route(1),
            Call::Mend(1),
            Call::Status(2, 2),
        ];
        let expected = "start accepted\ncut 0 accepted\nrun 9 made 4 rest\n\
            route 1 accepted 1 2\nmend 1 refused 26 1\nstatus 2 2 state 2 busy 0 route -\n\
            cut-is 0\nstates 1 022\nreached 1 0 1 2\nstates 2 022\nreached 2 0 1 2\n";
        assert_eq!(answers(&TRIANGLE, &made), expected);
        let begun = "start accepted\ncut none\nstates 1 000\nreached 1\n\
            states 2 000\nreached 2\n";
        assert_eq!(answers(&TRIANGLE, &[]), begun);
    }

    #[test]
    fn a_refusal_is_the_only_line() {
        let made = [Call::Cut(0)];
        assert_eq!(answers(&[1, 2, 1, 0, 2, 1], &made), "read refused 9 4\n");
        assert_eq!(answers(&[1, 2, 1, 0, 0], &made), "plan refused 21 0\n");
        let long = [&TRIANGLE[..], &[0; 70_000]].concat();
        assert_eq!(answers(&long, &made), "read refused 10 9\n");
    }

    #[test]
    fn an_ill_formed_input_has_no_answers() {
        let input = input_of_calls(&TRIANGLE, &[Call::Run(256)]);
        for length in 0..input.len() {
            assert_eq!(calls(&input[..length]), None, "{length}");
        }
        assert_eq!(calls(&[&input[..], &[0]].concat()), None);
    }

    #[test]
    fn shows_a_book() {
        let expected = "book 9\nread accepted\nmesh 3 3\nlink 0 0 1 0 0 0\nlink 1 0 2 0 0 0\n\
            link 2 1 2 0 0 0\nrest 0\nwrite accepted\nlength 9\nout 010303000002020101a5a5\n\
            record accepted\npart 00\n";
        assert_eq!(show(&TRIANGLE), expected);
        let long = [&TRIANGLE[..], &[0; 5_000]].concat();
        let expected = "book 4096\nread refused 10 9\nmesh 0 0\nrest 0\nwrite refused 3 0\n\
            length 0\nout a5a5\nrecord refused 10 9\npart\n";
        assert_eq!(show(&long), expected);
    }
}
