//! Two ways of doing the same work, timed in turn.

use std::hint::black_box;
use std::time::{Duration, Instant};

/// How long each side runs before anything is measured.
const WARM_UP: Duration = Duration::from_millis(60);
/// Measured runs of each side, at most.
const RUNS: usize = 301;
/// Measuring one pair stops after this time, but not before `FEWEST` runs.
const LONGEST: Duration = Duration::from_millis(1_500);
const FEWEST: usize = 15;
/// A run repeats its call until it takes about this long, so that the clock's own steps do not show.
const RUN_TIME: Duration = Duration::from_micros(200);

/// The median times of one call, in nanoseconds.
#[derive(Clone, Copy, Debug)]
pub struct Pair {
    pub first: f64,
    pub second: f64,
    /// Measured runs of each side.
    pub runs: usize,
}

impl Pair {
    /// How many times as long the first side takes.
    pub fn ratio(&self) -> f64 {
        self.first / self.second
    }
}

/// The middle one of some times.
pub fn median(times: &mut [f64]) -> f64 {
    times.sort_by(f64::total_cmp);
    times[times.len() / 2]
}

/// Runs a call for the warm-up time and answers how many calls make up one measured run.
fn warm_up(call: &mut impl FnMut()) -> u32 {
    let start = Instant::now();
    let mut calls = 0;
    while start.elapsed() < WARM_UP {
        call();
        calls += 1;
    }
    let each = start.elapsed() / calls;
    (RUN_TIME.as_nanos() / each.as_nanos().max(1)).clamp(1, 1_000_000) as u32
}

/// Nanoseconds a call, over one run of so many calls.
fn run(call: &mut impl FnMut(), calls: u32) -> f64 {
    let start = Instant::now();
    for _ in 0..calls {
        call();
    }
    start.elapsed().as_nanos() as f64 / f64::from(calls)
}

/// A call, warmed up: each run of it answers the nanoseconds of one call.
pub fn timed(mut call: impl FnMut()) -> impl FnMut() -> f64 {
    let calls = warm_up(&mut call);
    move || run(&mut call, calls)
}

/// Runs two sides by turns, so that whatever slows the machine down slows both. Each answers its nanoseconds.
pub fn by_turns(mut first: impl FnMut() -> f64, mut second: impl FnMut() -> f64) -> Pair {
    let mut first_times = Vec::new();
    let mut second_times = Vec::new();
    let start = Instant::now();
    while first_times.len() < RUNS && (first_times.len() < FEWEST || start.elapsed() < LONGEST) {
        first_times.push(first());
        second_times.push(second());
    }
    let runs = first_times.len();
    Pair { first: median(&mut first_times), second: median(&mut second_times), runs }
}

/// Times two calls by turns.
pub fn pair<T>(mut first: impl FnMut() -> T, mut second: impl FnMut() -> T) -> Pair {
    let first = timed(move || drop(black_box(first())));
    by_turns(first, timed(move || drop(black_box(second()))))
}

/// Prints a library's time beside the oracle's.
pub fn print_pair(what: &str, times: &Pair) {
    let (library, oracle, ratio) = (readable(times.first), readable(times.second), times.ratio());
    println!("  {what}: library {library}, oracle {oracle}, ratio {ratio:.2} ({} runs a side)", times.runs);
}

/// Nanoseconds in a readable unit.
pub fn readable(nanoseconds: f64) -> String {
    match nanoseconds {
        small if small < 1e4 => format!("{small:.0} ns"),
        middle if middle < 1e7 => format!("{:.1} us", middle / 1e3),
        large => format!("{:.1} ms", large / 1e6),
    }
}
