//! Counts the instructions of programs, which do not depend on what else the
//! machine does.

use std::io;
use std::process::Command;

use super::program::Program;
use crate::bench::input;

/// A run with few repeats is taken off a run with many. Both numbers are even,
/// so that sessions which are taken by turns have the same share; the roots
/// that are counted are the same in each program.
const FEW: u32 = 4;
const MANY: u32 = 104;

/// The line in which valgrind says the number.
const LABEL: &str = "Collected : ";

/// Runs a program under valgrind's tool callgrind.
pub struct Counter;

impl Counter {
    /// The counter, if valgrind is installed.
    pub fn find() -> Option<Counter> {
        let found = Command::new("valgrind").arg("--version").output().ok()?;
        found.status.success().then_some(Counter)
    }

    /// The instructions of one call in each program.
    pub fn of_calls(&self, programs: &[Program], jobs: &[u8], book: &[u8]) -> io::Result<Vec<f64>> {
        let of = |(program, job): (&Program, &u8)| {
            let few = self.count(program, &input(*job, FEW, book))?;
            let many = self.count(program, &input(*job, MANY, book))?;
            let more = many.saturating_sub(few) as f64;
            Ok(more / f64::from(MANY - FEW))
        };
        programs.iter().zip(jobs).map(of).collect()
    }

    /// The instructions of a whole run of each program.
    pub fn of_runs(&self, programs: &[Program], input: &[u8]) -> io::Result<Vec<f64>> {
        let of = |program: &Program| Ok(self.count(program, input)? as f64);
        programs.iter().map(of).collect()
    }

    fn count(&self, program: &Program, input: &[u8]) -> io::Result<u64> {
        let under = ["--tool=callgrind", "--callgrind-out-file=/dev/null"];
        let said = program.under("valgrind", &under).said(input)?;
        collected(&said).ok_or_else(|| io::Error::other(format!("no count in: {said}")))
    }
}

/// The number that callgrind says it collected.
fn collected(said: &str) -> Option<u64> {
    let line = said.lines().find_map(|line| line.split_once(LABEL))?.1;
    line.split(' ').next()?.parse().ok()
}

#[cfg(test)]
mod tests {
    use super::collected;

    #[test]
    fn reads_the_number_that_callgrind_says() {
        let said = "==1== Events    : Ir\n==1== Collected : 161473\n==1==\n";
        assert_eq!(collected(said), Some(161_473));
        assert_eq!(collected("==1== error\n"), None);
    }
}
