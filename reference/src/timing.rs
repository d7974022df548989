//! Measures other programs against this one's bench.

pub mod contest;
pub mod counter;
pub mod meshes;
pub mod program;

use std::io::{self, Write};

use crate::bench::{COLLECT, CUT, DECODE, DELIVER, ENCODE, PLAN, PLAN_IN_TWO_PASSES};
use crate::bench::{RUN, RUN_OF_FIRST, STATUS, STATUS_AT_REST};
use crate::book::bytes_of;
use crate::mesh::Mesh;
use contest::{contest, whole};
use counter::Counter;
use meshes::{subjects, Subject};
use program::Program;

/// The name of a row, the jobs of the measured programs and of the bench, and
/// the mesh of a subject that they get.
type Row = (&'static str, [u8; 2], fn(&Subject) -> Mesh);

/// Planning takes no heed of lengths and fibre pairs; the other jobs get them.
const ROWS: [Row; 10] = [
    ("decode", [DECODE; 2], Subject::filled),
    ("encode", [ENCODE; 2], Subject::filled),
    ("plan", [PLAN; 2], Subject::plain),
    (
        "plan, against two passes",
        [PLAN, PLAN_IN_TWO_PASSES],
        Subject::plain,
    ),
    ("run to rest", [RUN; 2], Subject::filled),
    (
        "run to rest, wavelength 1 alone",
        [RUN_OF_FIRST; 2],
        Subject::filled,
    ),
    ("cut by value", [CUT; 2], Subject::filled),
    ("delivery by value", [DELIVER; 2], Subject::filled),
    ("status", [STATUS; 2], Subject::filled),
    ("status at rest", [STATUS_AT_REST; 2], Subject::filled),
];

/// Those that an earlier program may not know: books with ducts, which it may
/// not read, and the collection route.
const LATER_ROWS: [Row; 3] = [
    ("decode, with ducts", [DECODE; 2], Subject::ducted),
    ("encode, with ducts", [ENCODE; 2], Subject::ducted),
    ("collection route", [COLLECT; 2], Subject::filled),
];

/// The rows for two programs, or for three with an earlier one.
fn rows(programs: usize) -> Vec<Row> {
    let mut rows = ROWS.to_vec();
    if programs < 3 {
        rows.extend(LATER_ROWS);
    }
    rows
}

/// Writes a Markdown table, a row for each job and mesh as it is measured:
/// first the repeated jobs of bench programs, then whole runs of meshplan
/// programs. The last program of each kind is this one, which the others are
/// measured against. Instructions are in it where something counts them.
pub fn write_table(
    benches: &[Program],
    meshplans: &[Program],
    output: &mut impl Write,
) -> io::Result<()> {
    let counter = Counter::find();
    writeln!(output, "{}", heading(benches.len(), counter.is_some()))?;
    for (name, pair, mesh_of) in rows(benches.len()) {
        let jobs = jobs_of(pair, benches.len());
        for subject in subjects() {
            let book = bytes_of(&mesh_of(&subject));
            let measured = contest(benches, &jobs, &book).and_then(|times| {
                let count = |counter: &Counter| counter.of_calls(benches, &jobs, &book);
                Ok((times, counter.as_ref().map(count).transpose()?))
            });
            let (times, counts) = measured.map_err(|error| named(name, &subject, &error))?;
            writeln!(output, "{}", row(name, subject.name, &times, counts))?;
        }
    }
    for subject in subjects() {
        let book = bytes_of(&subject.filled());
        let measured = whole(meshplans, &book).and_then(|times| {
            let count = |counter: &Counter| counter.of_runs(meshplans, &book);
            Ok((times, counter.as_ref().map(count).transpose()?))
        });
        let (times, counts) = measured.map_err(|error| named("meshplan", &subject, &error))?;
        writeln!(output, "{}", row("meshplan", subject.name, &times, counts))?;
    }
    Ok(())
}

/// The job of each program: the last is this one.
fn jobs_of([measured, own]: [u8; 2], programs: usize) -> Vec<u8> {
    let mut jobs = vec![measured; programs - 1];
    jobs.push(own);
    jobs
}

/// Two programs, or three with an earlier one in the middle.
fn heading(programs: usize, counted: bool) -> String {
    let (earlier, earlier_ratio) = match programs {
        3 => (" before |", " ratio before |"),
        _ => ("", ""),
    };
    let columns = |unit| format!(" {unit} |{earlier} reference | ratio |{earlier_ratio}");
    let mut names = columns("microseconds");
    if counted {
        names += &columns("instructions");
    }
    let bars = "--:|".repeat(names.matches('|').count());
    format!("| job | mesh |{names}\n|---|---|{bars}")
}

fn named(job: &str, subject: &Subject, error: &io::Error) -> io::Error {
    io::Error::other(format!("{job}, {}: {error}", subject.name))
}

fn row(job: &str, mesh: &str, times: &[f64], counts: Option<Vec<f64>>) -> String {
    let timed = format!("| {job} | {mesh} |{}", cells(times, 3));
    match counts {
        None => timed,
        Some(counts) => timed + &cells(&counts, 0),
    }
}

/// Each number, then the ratio of each to the last.
fn cells(numbers: &[f64], places: usize) -> String {
    let (last, others) = numbers.split_last().expect("a number for each program");
    let number = |n: &f64| format!(" {n:.places$} |");
    let ratio = |n: &f64| format!(" {:.2} |", n / last);
    numbers
        .iter()
        .map(number)
        .chain(others.iter().map(ratio))
        .collect()
}

#[cfg(test)]
mod tests {
    use super::{heading, jobs_of, row};

    #[test]
    fn a_row_of_the_table() {
        let timed = "| plan | P5 | 3.000 | 1.500 | 2.00 |";
        assert_eq!(row("plan", "P5", &[3.0, 1.5], None), timed);
        let counted = "| plan | P5 | 3.000 | 1.500 | 2.00 | 90 | 120 | 0.75 |";
        let counts = Some(vec![90.0, 120.0]);
        assert_eq!(row("plan", "P5", &[3.0, 1.5], counts), counted);
        let three = "| plan | P5 | 3.000 | 6.000 | 1.500 | 2.00 | 4.00 |";
        assert_eq!(row("plan", "P5", &[3.0, 6.0, 1.5], None), three);
    }

    #[test]
    fn a_heading_has_a_bar_for_each_column() {
        let two = "| job | mesh | microseconds | reference | ratio |\n|---|---|--:|--:|--:|";
        assert_eq!(heading(2, false), two);
        for programs in [2, 3] {
            let heading = heading(programs, true);
            let (names, bars) = heading.split_once('\n').unwrap();
            assert_eq!(names.matches('|').count(), bars.matches('|').count());
        }
    }

    #[test]
    fn this_program_has_its_own_job() {
        assert_eq!(jobs_of(*b"PT", 3), b"PPT");
    }
}
