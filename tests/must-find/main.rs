//! Asks every copy of the oracle that has a slip, and fails unless each slip is found.
//!
//! `must-find [SEED [LISTS]]`: lists of calls drawn from a seed, at most so many, and the cases of tests/cases. A slip
//! is found where it answers otherwise than the oracle, or than a case says. One that falls over fails the run.

use compare::cases::{answered_otherwise, folder, Case};
use compare::draw::list;
use compare::random::Random;
use compare::run::differs;
use compare::sides::{answers, Oracle, Side};
use std::panic::{catch_unwind, set_hook, take_hook, AssertUnwindSafe};
use std::path::Path;
use std::process::ExitCode;
use std::sync::atomic::{AtomicBool, Ordering};

include!(concat!(env!("OUT_DIR"), "/slips.rs"));

/// Is a slip being asked? What it prints as it falls over is of no use.
static ASKING: AtomicBool = AtomicBool::new(false);

/// A slip, and what is known of it.
struct Slip {
    name: &'static str,
    side: Box<dyn Side>,
    /// How many lists it took to find it.
    lists: Option<u64>,
    fell_over: bool,
}

impl Slip {
    fn new((name, side): &(&'static str, fn() -> Box<dyn Side>)) -> Self {
        Slip { name, side: side(), lists: None, fell_over: false }
    }

    /// Does it answer otherwise, by what asks it?
    fn is_seen(&mut self, ask: impl FnOnce(&mut dyn Side) -> bool) -> bool {
        ASKING.store(true, Ordering::Relaxed);
        let seen = catch_unwind(AssertUnwindSafe(|| ask(self.side.as_mut())));
        ASKING.store(false, Ordering::Relaxed);
        self.fell_over |= seen.is_err();
        seen.unwrap_or(false)
    }
}

/// Draws lists until all slips are found, or so many were drawn.
fn ask_lists(slips: &mut [Slip], seed: u64, lists: u64) {
    for number in 0..lists {
        let calls = list(&mut Random::of_case(seed, number)).calls;
        let wanted = answers(&mut Oracle, &calls);
        let mut left = slips.iter_mut().filter(|slip| slip.lists.is_none()).peekable();
        if left.peek().is_none() {
            return;
        }
        for slip in left {
            let is_found = slip.is_seen(|side| differs(&wanted, &answers(side, &calls)).is_some());
            slip.lists = is_found.then_some(number + 1);
        }
    }
}

/// How many slips the cases find.
fn found_by_cases(slips: &mut [Slip], cases: &[Case]) -> usize {
    let mut found = 0;
    for slip in slips {
        let otherwise = |case: &Case| slip.is_seen(|side| answered_otherwise(side, case).is_some());
        found += usize::from(cases.iter().any(otherwise));
    }
    found
}

/// Tells what was found; false if a slip was not found by the lists, or fell over.
fn all_found(slips: &[Slip], by_cases: usize) -> bool {
    for slip in slips {
        match slip.lists {
            _ if slip.fell_over => println!("{} falls over", slip.name),
            None => println!("{} is not found by the lists", slip.name),
            Some(_) => (),
        }
    }
    let found = slips.iter().filter_map(|slip| slip.lists);
    let (count, most) = (found.clone().count(), found.max().unwrap_or(0));
    println!("{count} slips found by the lists, the last after {most} of them; {by_cases} by the cases");
    count == slips.len() && !slips.iter().any(|slip| slip.fell_over)
}

fn main() -> ExitCode {
    let cases = folder(Path::new(concat!(env!("CARGO_MANIFEST_DIR"), "/../cases"))).expect("the cases are read");
    let usual = take_hook();
    set_hook(Box::new(move |info| {
        if !ASKING.load(Ordering::Relaxed) {
            usual(info);
        }
    }));
    let mut slips: Vec<Slip> = SLIPS.iter().map(Slip::new).collect();
    let words: Vec<String> = std::env::args().collect();
    let number = |place: usize| words.get(place).map(|word| word.parse().expect("a number"));
    ask_lists(&mut slips, number(1).unwrap_or(7), number(2).unwrap_or(30_000));
    let by_cases = found_by_cases(&mut slips, &cases);
    if !all_found(&slips, by_cases) {
        println!("must-find: not all of {} slips found", slips.len());
        return ExitCode::FAILURE;
    }
    println!("must-find: {} slips, all found", slips.len());
    ExitCode::SUCCESS
}
