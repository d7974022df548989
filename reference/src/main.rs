//! `reference corpus SEED BOOK..` writes a corpus, with each book file as a
//! book to list at its end; `reference surveys SEED` writes a corpus of surveys
//! alone; `reference expect` reads a corpus and writes its listing; `reference
//! script CALL..` reads a book and writes the input of the program `calls` for
//! this book and these calls; `reference calls` reads such an input and writes
//! what `calls` prints; `reference show` reads a book and
//! writes what the program `show` prints; `reference digging link LINK` and
//! `reference digging duct DUCT` read a book and write the input of the program
//! `dig` for this book and this link or duct; `reference dig` reads such an
//! input and writes what `dig` prints; `reference collecting ROOT` reads a book
//! and writes the input of the program `bus` for this book and this root;
//! `reference bus` reads such an input and writes what `bus` prints;
//! `reference survey` reads a book and writes what the program `survey` prints,
//! the parts of its mesh and the bridging links;
//! `reference drill` reads a number of middle nodes and writes what the program
//! `drill` writes, the book of that drill's mesh;
//! `reference meshplan` reads a book and lists its mesh, its plan and every cut;
//! `reference book [NAME]` reads a text table and writes its book; a fault names
//! its line, and the file NAME where one is given;
//! `reference sort [NAME]` reads a text table and writes it with its links in
//! order, and on stderr the old and the new number of each link;
//! `reference table` reads a book and writes its text table;
//! `reference bench` repeats a job on a book; `reference time BENCH MESHPLAN`
//! measures two programs with the same input and output as `reference bench`
//! and `reference meshplan` against these, and with a third and a fourth name
//! two earlier ones beside them.

use std::fs;
use std::io::{self, Read, Write};
use std::process::ExitCode;

use reference::book::{bytes_of, decode};
use reference::case::{read_cases, write_cases, MOST_BYTES};
use reference::programs::bus::root_of;
use reference::programs::dig::{dig_of, Dig};
use reference::refusal::in_words;
use reference::script::{calls_of, Call};
use reference::sorting::sorted;
use reference::timing::program::Program;
use reference::timing::write_table;
use reference::{bench, corpus, listing, meshplan, programs, table};

fn main() -> ExitCode {
    let arguments: Vec<String> = std::env::args().skip(1).collect();
    let words: Vec<&str> = arguments.iter().map(String::as_str).collect();
    match words[..] {
        ["corpus", seed, ref books @ ..] => match seed.parse() {
            Ok(seed) => finish(write_corpus(seed, books)),
            Err(_) => usage(),
        },
        ["surveys", seed] => match seed.parse() {
            Ok(seed) => finish(write_surveys(seed)),
            Err(_) => usage(),
        },
        ["expect"] => finish(write_listing()),
        ["script", ref words @ ..] => match calls_of(words) {
            Ok(calls) => finish(write_script(&calls)),
            Err(why) => wrong_words(&why),
        },
        ["calls"] => finish(write_answers()),
        ["show"] => finish(write_shown()),
        ["digging", ref words @ ..] => match dig_of(words) {
            Ok(dig) => finish(write_digging(dig)),
            Err(why) => wrong_words(&why),
        },
        ["dig"] => finish(write_dug()),
        ["collecting", ref words @ ..] => match root_of(words) {
            Ok(root) => finish(write_collecting(root)),
            Err(why) => wrong_words(&why),
        },
        ["bus"] => finish(write_bus()),
        ["survey"] => finish(write_survey()),
        ["drill"] => finish(write_drill()),
        ["meshplan"] => finish(write_meshplan()),
        _ => tables_and_times(&words),
    }
}

/// The commands that read or write text tables, and those that measure.
fn tables_and_times(words: &[&str]) -> ExitCode {
    match words[..] {
        ["book"] => exit(write_book(None)),
        ["book", name] => exit(write_book(Some(name))),
        ["sort"] => exit(write_sorted(None)),
        ["sort", name] => exit(write_sorted(Some(name))),
        ["table"] => exit(write_text_table()),
        ["bench"] => finish(write_bench_line()),
        ["time", bench, meshplan] => finish(write_times(&[bench], &[meshplan])),
        ["time", bench, meshplan, earlier_bench, earlier_meshplan] => {
            let benches = [bench, earlier_bench];
            finish(write_times(&benches, &[meshplan, earlier_meshplan]))
        }
        _ => usage(),
    }
}

fn usage() -> ExitCode {
    eprintln!(
        "usage: reference corpus SEED BOOK.. | reference surveys SEED | reference expect | \
         reference script CALL.. | reference calls | reference show | reference digging link LINK | \
         reference digging duct DUCT | reference dig | reference collecting ROOT | \
         reference bus | reference survey | reference drill | reference meshplan | \
         reference book [NAME] | reference sort [NAME] | reference table | reference bench | \
         reference time BENCH MESHPLAN [EARLIER-BENCH EARLIER-MESHPLAN]"
    );
    ExitCode::from(2)
}

fn wrong_words(why: &str) -> ExitCode {
    eprintln!("{why}");
    ExitCode::from(2)
}

fn write_corpus(seed: u64, books: &[&str]) -> io::Result<()> {
    let mut cases = corpus::make(seed);
    for path in books {
        cases.push(corpus::listings::case(read_book(path)?));
    }
    io::stdout().write_all(&write_cases(&cases))
}

fn write_surveys(seed: u64) -> io::Result<()> {
    io::stdout().write_all(&write_cases(&corpus::surveys::cases(seed)))
}

/// The bytes of a file, at most as many as a case can hold.
fn read_book(path: &str) -> io::Result<Vec<u8>> {
    let error = |why: String| io::Error::other(format!("{path}: {why}"));
    let book = fs::read(path).map_err(|why| error(why.to_string()))?;
    if book.len() > MOST_BYTES {
        return Err(error(format!("more than {MOST_BYTES} bytes")));
    }
    Ok(book)
}

fn write_script(calls: &[Call]) -> io::Result<()> {
    let book = read_input()?;
    io::stdout().write_all(&programs::input_of_calls(&book, calls))
}

fn write_answers() -> io::Result<()> {
    write_answer(programs::calls(&read_input()?))
}

fn write_shown() -> io::Result<()> {
    let lines = programs::show(&read_input()?);
    io::stdout().write_all(lines.as_bytes())
}

fn write_digging(dig: Dig) -> io::Result<()> {
    let book = read_input()?;
    io::stdout().write_all(&programs::dig::input_of(&book, dig))
}

fn write_dug() -> io::Result<()> {
    write_answer(programs::dig::answer(&read_input()?))
}

fn write_collecting(root: u8) -> io::Result<()> {
    let book = read_input()?;
    io::stdout().write_all(&programs::bus::input_of(&book, root))
}

fn write_bus() -> io::Result<()> {
    write_answer(programs::bus::answer(&read_input()?))
}

fn write_survey() -> io::Result<()> {
    let lines = programs::survey::answer(&read_input()?);
    io::stdout().write_all(lines.as_bytes())
}

fn write_drill() -> io::Result<()> {
    io::stdout().write_all(&programs::drill::answer(&read_input()?))
}

/// None is the answer to an ill-formed input.
fn write_answer(lines: Option<String>) -> io::Result<()> {
    let lines = lines.ok_or_else(|| io::Error::other("ill-formed input"))?;
    io::stdout().write_all(lines.as_bytes())
}

fn write_listing() -> io::Result<()> {
    let cases = read_cases(&read_input()?).map_err(io::Error::other)?;
    let listing = listing::listing(&cases).map_err(io::Error::other)?;
    io::stdout().write_all(listing.as_bytes())
}

fn write_meshplan() -> io::Result<()> {
    let listing = meshplan::listing(&read_input()?);
    io::stdout().write_all(listing.as_bytes())
}

/// A table that is not a mesh is answered on stderr, with nothing on stdout.
fn write_book(name: Option<&str>) -> io::Result<ExitCode> {
    match table::read_remarked(&read_text()?) {
        Ok(mesh) => finish_with(&bytes_of(&mesh)),
        Err(fault) => Ok(faulty(name, &fault)),
    }
}

/// The same, with the number of each link on stderr.
fn write_sorted(name: Option<&str>) -> io::Result<ExitCode> {
    match sorted(&read_text()?) {
        Ok((table, moves)) => {
            moves.iter().for_each(|moved| eprintln!("{moved}"));
            finish_with(table.as_bytes())
        }
        Err(fault) => Ok(faulty(name, &fault)),
    }
}

fn faulty(name: Option<&str>, fault: &table::Fault) -> ExitCode {
    match name {
        Some(name) => eprintln!("{}", fault.in_file(name)),
        None => eprintln!("{fault}"),
    }
    ExitCode::FAILURE
}

fn finish_with(output: &[u8]) -> io::Result<ExitCode> {
    io::stdout().write_all(output)?;
    Ok(ExitCode::SUCCESS)
}

/// The refusal of a book is the only line.
fn write_text_table() -> io::Result<ExitCode> {
    let (mesh, answer) = decode(&read_input()?);
    let (text, code) = match answer {
        Ok(()) => (table::text_of(&mesh), ExitCode::SUCCESS),
        Err(_) => (format!("{}\n", in_words(answer)), ExitCode::FAILURE),
    };
    io::stdout().write_all(text.as_bytes())?;
    Ok(code)
}

fn write_bench_line() -> io::Result<()> {
    let line = bench::line(&read_input()?).map_err(io::Error::other)?;
    writeln!(io::stdout(), "{line}")
}

fn write_times(benches: &[&str], meshplans: &[&str]) -> io::Result<()> {
    let with_own = |names: &[&str], command| {
        let mut programs: Vec<Program> = names.iter().map(|name| Program::new(name, &[])).collect();
        programs.push(Program::new(std::env::current_exe()?, &[command]));
        Ok::<Vec<Program>, io::Error>(programs)
    };
    let benches = with_own(benches, "bench")?;
    let meshplans = with_own(meshplans, "meshplan")?;
    write_table(&benches, &meshplans, &mut io::stdout())
}

fn read_input() -> io::Result<Vec<u8>> {
    let mut input = Vec::new();
    io::stdin().read_to_end(&mut input)?;
    Ok(input)
}

/// A text in UTF-8, or else, as some editors write it, in Latin-1.
fn read_text() -> io::Result<String> {
    let latin = |bytes: Vec<u8>| bytes.into_iter().map(char::from).collect();
    Ok(String::from_utf8(read_input()?).unwrap_or_else(|error| latin(error.into_bytes())))
}

fn finish(result: io::Result<()>) -> ExitCode {
    exit(result.map(|()| ExitCode::SUCCESS))
}

fn exit(result: io::Result<ExitCode>) -> ExitCode {
    result.unwrap_or_else(|error| {
        eprintln!("reference: {error}");
        ExitCode::FAILURE
    })
}
