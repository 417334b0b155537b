//! A solver from elsewhere, run on programs that someone has written out for it.

use crate::measure::median;
use std::fs::File;
use std::io;
use std::process::{Command, Stdio};
use std::time::Instant;

/// Runs of one file.
const RUNS: usize = 15;

/// What one file took, in seconds; medians over all runs.
#[derive(Clone, Debug, PartialEq)]
pub struct Taken {
    /// The solver's own time, reading and grounding included.
    pub own: f64,
    /// The part of it spent solving.
    pub solving: f64,
    /// From starting the process to its end.
    pub process: f64,
    /// What the solver said of the program, in its own word.
    pub said: String,
}

/// Runs the solver on a file. An error of the kind `NotFound` says that there is no solver.
pub fn solve(file: &str) -> io::Result<Taken> {
    let mut own = Vec::new();
    let mut solving = Vec::new();
    let mut process = Vec::new();
    let mut said = String::new();
    for _ in 0..RUNS {
        let start = Instant::now();
        let output = Command::new("clingo").args(["--stats=1", file]).output()?;
        process.push(start.elapsed().as_secs_f64());
        if !is_solved(output.status.code()) {
            return Err(io::Error::other(format!("clingo did not solve {file}: {}", output.status)));
        }
        let printed = String::from_utf8_lossy(&output.stdout);
        let times = times(&printed).ok_or_else(|| io::Error::other(format!("clingo gave no time for {file}")))?;
        own.push(times.0);
        solving.push(times.1);
        said = verdict(&printed);
    }
    Ok(Taken { own: median(&mut own), solving: median(&mut solving), process: median(&mut process), said })
}

/// The median time of a program's whole process, in seconds, with a file as its standard input.
pub fn whole_process(program: &str, input: &str) -> io::Result<f64> {
    let mut times = Vec::new();
    for _ in 0..RUNS {
        let file = File::open(input)?;
        let start = Instant::now();
        Command::new(program).stdin(file).stdout(Stdio::null()).status()?;
        times.push(start.elapsed().as_secs_f64());
    }
    Ok(median(&mut times))
}

/// The solver ends with 10 for an answer set, 20 for none, and 30 for all that there are.
fn is_solved(code: Option<i32>) -> bool {
    matches!(code, Some(10 | 20 | 30))
}

/// Own time and solving time from a line such as `Time : 0.004s (Solving: 0.00s 1st Model: 0.00s Unsat: 0.00s)`.
fn times(printed: &str) -> Option<(f64, f64)> {
    let line = printed.lines().find(|line| line.starts_with("Time"))?;
    let (_, rest) = line.split_once(':')?;
    let (_, solving) = rest.split_once("Solving:")?;
    Some((seconds(rest)?, seconds(solving)?))
}

/// The first number of a text, up to the letter s.
fn seconds(text: &str) -> Option<f64> {
    let (number, _) = text.split_once('s')?;
    number.trim().parse().ok()
}

/// The line that says whether there is an answer set.
fn verdict(printed: &str) -> String {
    let known = ["SATISFIABLE", "UNSATISFIABLE", "UNKNOWN"];
    let line = printed.lines().find(|line| known.contains(line));
    line.unwrap_or("no verdict").to_string()
}
