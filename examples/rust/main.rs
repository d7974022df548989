//! Prints for a book what the programs meshplan, survey, dig and bus print (docs/CORPUS.md): its listing, its parts and bridging links, the
//! links that share the duct of a link, or the collection route from a root. The book is the file that is named, or standard input:
//!     main list examples/triangle.book
//!     main survey examples/apart.book
//!     main ducts 13 examples/campus.book
//!     main collect 0 examples/folded-bus.book
//! The exit status is 0 where the book and the question are accepted, 1 where one is refused, and 2 where the program was called in a wrong way,
//! cannot read the file or cannot write its lines.

mod covetureen;

use covetureen::Refusal;
use std::fmt::Write as _;
use std::fs::File;
use std::io::{self, Read, Write as _};
use std::process::ExitCode;

/// The lines of an answer, and whether it is a refusal.
struct Said {
    lines: String,
    refused: bool,
}

impl Said {
    /// Lines, or a refusal with some words before it.
    fn of(words: &str, lines: Result<String, Refusal>) -> Said {
        match lines {
            Ok(lines) => Said { lines, refused: false },
            Err(r) => Said { lines: format!("{words}refused {} {}\n", r.number, r.place), refused: true },
        }
    }
}

/// The line of a cut: x and y, the deliveries, the metres of the route or a hyphen, and its links.
fn cut_line(book: &[u8], k: u16, direction: u8) -> Result<String, Refusal> {
    let (l, r) = (covetureen::link(book, k)?, covetureen::route(book, k)?);
    let (x, y) = if direction == 0 { (l.low, l.high) } else { (l.high, l.low) };
    let metres = r.metres.map_or("-".to_string(), |metres| metres.to_string());
    let mut line = format!("cut {k} {x} {y} {} {metres}", r.deliveries);
    for link in r.route {
        write!(line, " {link}").unwrap();
    }
    Ok(line + "\n")
}

/// The mesh, each link with its direction, and each cut.
fn listing(book: &[u8]) -> Result<String, Refusal> {
    let directions = covetureen::plan(book)?;
    let (nodes, links) = covetureen::mesh(book)?;
    let mut lines = format!("mesh {nodes} {links}\n");
    for k in 0..links {
        let l = covetureen::link(book, k)?;
        writeln!(lines, "link {k} {} {} {}", l.low, l.high, directions[k as usize]).unwrap();
    }
    for k in 0..links {
        lines += &cut_line(book, k, directions[k as usize])?;
    }
    Ok(lines)
}

/// The lines of links with all that the book says of them.
fn link_lines(book: &[u8], links: &[u16]) -> Result<String, Refusal> {
    let mut lines = String::new();
    for &k in links {
        let l = covetureen::link(book, k)?;
        writeln!(lines, "link {k} {} {} {} {} {}", l.low, l.high, l.metres, l.pair, l.duct).unwrap();
    }
    Ok(lines)
}

fn survey(book: &[u8]) -> Result<String, Refusal> {
    let s = covetureen::survey(book)?;
    let mut lines = format!("survey {} {}\n", s.parts.len(), s.bridges.len());
    for part in &s.parts {
        let nodes: String = part.iter().map(|node| format!(" {node}")).collect();
        writeln!(lines, "part{nodes}").unwrap();
    }
    for &k in &s.bridges {
        let l = covetureen::link(book, k)?;
        writeln!(lines, "bridge {k} {} {}", l.low, l.high).unwrap();
    }
    Ok(lines)
}

fn sharing(book: &[u8], link: u16) -> Result<String, Refusal> {
    let links = covetureen::ducts(book, link)?;
    Ok(format!("sharing {link} accepted {}\n", links.len()) + &link_lines(book, &links)?)
}

fn collection(book: &[u8], root: u8) -> Result<String, Refusal> {
    let c = covetureen::collect(book, root)?;
    let nodes: String = c.nodes.iter().map(|node| format!(" {node}")).collect();
    Ok(format!("collect {root} accepted {}\nroute{nodes}\n", c.nodes.len()) + &link_lines(book, &c.tree)?)
}

/// What is asked of a book.
enum Question {
    List,
    Survey,
    Ducts(u16),
    Collect(u8),
}

fn answer(book: &[u8], question: &Question) -> Said {
    let read = covetureen::check(book);
    match *question {
        Question::List => Said::of("", listing(book)),
        _ if read.is_err() => Said::of("read ", read.map(|()| String::new())),
        Question::Survey => Said::of("", survey(book)),
        Question::Ducts(link) => Said::of(&format!("sharing {link} "), sharing(book, link)),
        Question::Collect(root) => Said::of(&format!("collect {root} "), collection(book, root)),
    }
}

/// The question and the words after it.
fn question_of<'a>(words: &'a [&'a str]) -> Option<(Question, &'a [&'a str])> {
    match words {
        ["list", rest @ ..] => Some((Question::List, rest)),
        ["survey", rest @ ..] => Some((Question::Survey, rest)),
        ["ducts", link, rest @ ..] => Some((Question::Ducts(link.parse().ok()?), rest)),
        ["collect", root, rest @ ..] => Some((Question::Collect(root.parse().ok()?), rest)),
        _ => None,
    }
}

/// The book in a file, or on standard input.
fn read_book(name: Option<&str>) -> io::Result<Vec<u8>> {
    let mut book = Vec::new();
    match name {
        None | Some("-") => io::stdin().read_to_end(&mut book)?,
        Some(name) => File::open(name)?.read_to_end(&mut book)?,
    };
    Ok(book)
}

/// What is said of the question on the book in a file, printed; whether it is a refusal. An error comes with the name of what fails.
fn say(question: &Question, name: Option<&str>) -> Result<bool, (String, io::Error)> {
    let book = read_book(name).map_err(|why| (name.unwrap_or("standard input").to_string(), why))?;
    let said = answer(&book, question);
    let mut output = io::stdout();
    let written = output.write_all(said.lines.as_bytes()).and_then(|()| output.flush());
    written.map_err(|why| ("standard output".to_string(), why))?;
    Ok(said.refused)
}

fn main() -> ExitCode {
    let arguments: Vec<String> = std::env::args().skip(1).collect();
    let words: Vec<&str> = arguments.iter().map(String::as_str).collect();
    let (question, name) = match question_of(&words) {
        Some((question, [])) => (question, None),
        Some((question, [name])) => (question, Some(*name)),
        _ => {
            eprintln!("usage: main list [FILE] | main survey [FILE] | main ducts LINK [FILE] | main collect ROOT [FILE]");
            return ExitCode::from(2);
        }
    };
    match say(&question, name) {
        Ok(refused) => ExitCode::from(u8::from(refused)),
        Err((name, why)) => {
            eprintln!("{name}: {why}");
            ExitCode::from(2)
        }
    }
}
