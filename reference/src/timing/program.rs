//! A program that is run as a child process.

use std::ffi::OsString;
use std::fs;
use std::io::{self, Read, Write};
use std::process::{Child, Command, Stdio};
use std::time::{Duration, Instant};

pub struct Program {
    path: OsString,
    arguments: Vec<OsString>,
}

/// What a run printed and how long it took.
pub struct Run {
    pub text: String,
    /// The time that the process had a processor, so that other processes do
    /// not count; where the system does not tell it, the time on the clock.
    pub time: Duration,
    /// The time from start to end.
    pub clock: Duration,
}

impl Program {
    pub fn new(path: impl Into<OsString>, arguments: &[&str]) -> Program {
        Program {
            path: path.into(),
            arguments: arguments.iter().map(OsString::from).collect(),
        }
    }

    pub fn run(&self, input: &[u8]) -> io::Result<Run> {
        let start = Instant::now();
        let mut child = self.start()?;
        let text = exchange(&mut child, input)?;
        let clock = start.elapsed();
        // A child that has ended keeps its times until it is waited for.
        let time = processor_time(child.id()).unwrap_or(clock);
        let status = child.wait()?;
        if !status.success() {
            let error = format!("{} ended with {status}", self.path.display());
            return Err(io::Error::other(error));
        }
        Ok(Run { text, time, clock })
    }

    /// This program as the last arguments of another one.
    pub fn under(&self, path: &str, first: &[&str]) -> Program {
        let mut program = Program::new(path, first);
        program.arguments.push(self.path.clone());
        program.arguments.extend(self.arguments.iter().cloned());
        program
    }

    /// What a run says on standard error.
    pub fn said(&self, input: &[u8]) -> io::Result<String> {
        let mut child = self.command().stderr(Stdio::piped()).spawn()?;
        exchange(&mut child, input)?;
        let output = child.wait_with_output()?;
        Ok(String::from_utf8_lossy(&output.stderr).into_owned())
    }

    fn start(&self) -> io::Result<Child> {
        self.command().spawn()
    }

    fn command(&self) -> Command {
        let mut command = Command::new(&self.path);
        command
            .args(&self.arguments)
            .stdin(Stdio::piped())
            .stdout(Stdio::piped());
        command
    }
}

/// Writes all input, then reads all output.
fn exchange(child: &mut Child, input: &[u8]) -> io::Result<String> {
    if let Some(mut stdin) = child.stdin.take() {
        stdin.write_all(input)?;
    }
    let mut text = String::new();
    if let Some(mut stdout) = child.stdout.take() {
        stdout.read_to_string(&mut text)?;
    }
    Ok(text)
}

/// The first number of a Linux process's `schedstat`, in nanoseconds.
fn processor_time(process: u32) -> Option<Duration> {
    let text = fs::read_to_string(format!("/proc/{process}/schedstat")).ok()?;
    let nanoseconds = text.split(' ').next()?.parse().ok()?;
    Some(Duration::from_nanos(nanoseconds))
}
