//! Programs at a job each, on the same book.

use std::io;
use std::time::Duration;

use super::program::Program;
use crate::bench::input;
use crate::book::decode;

/// How often each run is made; the best time counts.
const RUNS: usize = 7;

/// How long a run should take.
const AIM: Duration = Duration::from_millis(100);

/// How long a trial must take to choose the number of repeats by it.
const TRIAL: Duration = Duration::from_millis(20);

/// How long a trial may last on the clock without taking that time itself.
const LONGEST_TRIAL: Duration = Duration::from_secs(3);

/// The microseconds of one call in each program; an error if they ever print
/// different lines. The programs run by turns.
pub fn contest(programs: &[Program], jobs: &[u8], book: &[u8]) -> io::Result<Vec<f64>> {
    let mut runners = programs
        .iter()
        .zip(jobs)
        .map(|(program, job)| Runner::new(program, *job, book))
        .collect::<io::Result<Vec<Runner>>>()?;
    for _ in 0..RUNS {
        let texts = runners
            .iter_mut()
            .map(Runner::round)
            .collect::<io::Result<Vec<_>>>()?;
        same(&texts)?;
    }
    Ok(runners.iter().map(Runner::microseconds).collect())
}

/// The microseconds of a whole run of each program on the same input, start
/// and end of the process included; an error if they print different texts.
pub fn whole(programs: &[Program], input: &[u8]) -> io::Result<Vec<f64>> {
    let mut best = vec![Duration::MAX; programs.len()];
    for _ in 0..3 * RUNS {
        let mut texts = Vec::new();
        for (program, best) in programs.iter().zip(&mut best) {
            let run = program.run(input)?;
            *best = run.time.min(*best);
            texts.push(run.text);
        }
        same(&texts)?;
    }
    Ok(best.iter().map(|time| time.as_secs_f64() * 1e6).collect())
}

/// An error if the programs printed different texts.
fn same<T: PartialEq + std::fmt::Debug>(texts: &[T]) -> io::Result<()> {
    match texts.iter().all(|text| *text == texts[0]) {
        true => Ok(()),
        false => Err(io::Error::other(format!("different texts: {texts:?}"))),
    }
}

/// A program at one job, with its best times so far.
struct Runner<'a> {
    program: &'a Program,
    one: Vec<u8>,
    many: Vec<u8>,
    repeats: u32,
    best_of_one: Duration,
    best_of_many: Duration,
}

impl<'a> Runner<'a> {
    fn new(program: &'a Program, job: u8, book: &[u8]) -> io::Result<Runner<'a>> {
        let repeats = enough_repeats(program, job, book)?;
        Ok(Runner {
            program,
            one: input(job, 1, book),
            many: input(job, repeats, book),
            repeats,
            best_of_one: Duration::MAX,
            best_of_many: Duration::MAX,
        })
    }

    /// A run with one repeat and a run with many; gives what both print.
    fn round(&mut self) -> io::Result<[String; 2]> {
        let one = self.program.run(&self.one)?;
        let many = self.program.run(&self.many)?;
        self.best_of_one = self.best_of_one.min(one.time);
        self.best_of_many = self.best_of_many.min(many.time);
        Ok([one.text, many.text])
    }

    /// The time of a run with one repeat, which is mostly the process's own,
    /// is taken off.
    fn microseconds(&self) -> f64 {
        let time = self.best_of_many.saturating_sub(self.best_of_one);
        time.as_secs_f64() * 1e6 / f64::from(self.repeats - 1)
    }
}

/// The number of repeats that takes about as long as a run should, in whole
/// rounds: what is taken by turns can give different lines, and each program
/// has to end with the same one, however often it repeats.
fn enough_repeats(program: &Program, job: u8, book: &[u8]) -> io::Result<u32> {
    let time_of_one = program.run(&input(job, 1, book))?.time;
    let mut repeats: u32 = 2;
    loop {
        let run = program.run(&input(job, repeats, book))?;
        let time = run.time.saturating_sub(time_of_one);
        if time >= TRIAL {
            return Ok(scaled(repeats, time, round_of(book)));
        }
        if run.clock > LONGEST_TRIAL || repeats > u32::MAX / 4 {
            return Err(io::Error::other(
                "repeats take no time of the program's own",
            ));
        }
        repeats *= 4;
    }
}

/// After so many repeats two sessions, and all nodes as roots, have had their
/// turns.
fn round_of(book: &[u8]) -> u32 {
    2 * u32::from(decode(book).0.nodes.max(1))
}

/// At least one round.
fn scaled(repeats: u32, time: Duration, round: u32) -> u32 {
    let scaled = f64::from(repeats) * AIM.as_secs_f64() / time.as_secs_f64();
    (scaled as u32 / round).max(1) * round
}

#[cfg(test)]
mod tests {
    use super::{round_of, scaled, Duration};

    #[test]
    fn scales_repeats_to_the_aim() {
        assert_eq!(scaled(100, Duration::from_millis(20), 4), 500);
        assert_eq!(scaled(2, Duration::from_secs(9), 4), 4);
    }

    #[test]
    fn repeats_are_whole_rounds() {
        assert_eq!(scaled(100, Duration::from_micros(19_990), 4), 500);
        assert_eq!(scaled(101, Duration::from_millis(20), 4), 504);
        assert_eq!(scaled(101, Duration::from_millis(20), 128), 384);
        let most = scaled(u32::MAX, Duration::from_millis(20), 6);
        assert_eq!(most, u32::MAX - 3);
    }

    #[test]
    fn a_round_is_even_and_has_each_node_as_often() {
        assert_eq!(round_of(&[1, 3, 3, 0, 0, 2, 2, 1, 1]), 6);
        assert_eq!(round_of(&[1, 64, 0, 0]), 128);
        assert_eq!(round_of(&[]), 2);
    }
}
