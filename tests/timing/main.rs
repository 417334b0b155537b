//! Times the linked library against the oracle, on the same inputs in one run.
//!
//! `benchmark [CHECK [PROGRAM=RECIPE ...]]`. CHECK is the program check; the others are programs for clingo, each with
//! the recipe it was made from: where clingo is installed, they are solved and timed as well. The figures hold for the
//! machine and the day they are taken on; nothing depends on them. The oracle looks through all rules for each
//! completion formula, so there the ratio says little; how the library's time grows says more, and how it stands to the
//! engine's.

#[path = "../compare/library.rs"]
mod library;

use compare::call::{Function, Part};
use compare::draw::known::{belt_recipe, full_recipe, inertia_recipe, largest_recipe};
use compare::sides::{Oracle, Side};
use library::{called, Library};
use oracle::header::{Answer, HOLDS, PASSES};
use oracle::report::read_input;
use oracle::translation::all_rules;
use oracle::MAX_HORIZON;
use std::hint::black_box;
use std::{env, fs, io};
use timing::clingo;
use timing::measure::{pair, print_pair, readable, Pair};

const HORIZONS: [usize; 8] = [1, 2, 5, 10, 15, 20, 25, 30];

/// A call to be timed.
struct Timed {
    what: &'static str,
    function: Function,
    parts: Vec<Part>,
}

impl Timed {
    /// The call by the library, on memory that is there already: nothing is copied or looked at besides.
    fn by_library(&self) -> impl FnMut() -> u64 {
        let mut places = Library { exact: true }.places(&self.parts);
        let function = self.function;
        move || called(function, black_box(&mut places))
    }

    /// The same call by the oracle.
    fn by_oracle(&self) -> impl FnMut() -> u64 {
        let (function, mut parts) = (self.function, self.parts.clone());
        move || Oracle.say(function, black_box(&mut parts))
    }

    /// Times the call by both sides, which must both say that the recipe passes or that the formulas hold; anything else is no
    /// measure of the same work.
    fn time(&self) -> Pair {
        let (mut library, mut own) = (self.by_library(), self.by_oracle());
        let wanted = match self.function {
            Function::CheckCompletion => HOLDS,
            _ => PASSES,
        };
        for said in [library(), own()] {
            assert_eq!(Answer::from_number(said), Answer::new(wanted, 0), "{}", self.what);
        }
        pair(library, own)
    }
}

/// The engine and the completion formulas on a table that is there already.
fn on_table(values: &[u8], table: &[u16]) -> Vec<Timed> {
    let calls = [("engine", Function::CheckSet), ("completion", Function::CheckCompletion)];
    let timed = |(what, function)| Timed { what, function, parts: vec![Part::bytes(values), Part::words(table)] };
    calls.map(timed).into()
}

/// The same for a recipe's text, and the history check from the text on: reading, translation and engine.
fn on_text(label: &str, text: &[u8]) -> Vec<Timed> {
    let read = read_input(text).expect("samples are good texts");
    let table = all_rules(&read.description);
    let (atoms, rules, words) = (read.values.len(), table.rules, table.words.len());
    println!("{label}: {atoms} atoms, {rules} rules, {words} words, {} bytes of text", text.len());
    let mut calls = on_table(&read.values, &table.words);
    calls.push(Timed {
        what: "history check",
        function: Function::CheckHistory,
        parts: vec![Part::bytes(text), Part::bytes(&read.values), Part::words(vec![0; words])],
    });
    calls
}

/// Times some calls, and the library's completion formulas against its engine; how they grew, where others came first.
fn time_all(calls: &[Timed], first: Option<&Vec<Pair>>) -> Vec<Pair> {
    let times: Vec<Pair> = calls.iter().map(Timed::time).collect();
    for (place, (call, times)) in calls.iter().zip(&times).enumerate() {
        print_pair(call.what, times);
        if let Some(first) = first.map(|first| &first[place]) {
            let (library, oracle) = (times.first / first.first, times.second / first.second);
            println!("    grown: library {library:.1} times the first, oracle {oracle:.1} times");
        }
    }
    let beside = pair(calls[1].by_library(), calls[0].by_library());
    println!("    library alone: completion by engine: ratio {:.2}", beside.ratio());
    times
}

/// The same description with growing horizons.
fn time_growth() {
    println!("growth with the horizon (belt of 24 places, 1 action, 48 laws):");
    let mut first = None;
    for horizon in HORIZONS {
        let calls = on_text(&format!("horizon {horizon}"), &belt_recipe(horizon));
        let times = time_all(&calls, first.as_ref());
        first.get_or_insert(times);
    }
}

/// The size of a hand-made table: atoms, rules for each atom, and negated parts of each rule.
type Size = (usize, usize, usize);

/// Hand-made tables: words doubled with the same atoms and rules, atoms doubled with the same words, and both doubled.
/// Work that grows with words times literals shows in the last two.
#[rustfmt::skip]
const GROWING: [(&str, [Size; 4]); 3] = [
    ("words", [(256, 1, 1), (256, 1, 5), (256, 1, 13), (256, 1, 29)]),
    ("atoms", [(128, 32, 1), (256, 16, 1), (512, 8, 1), (1_024, 4, 1)]),
    ("words and atoms", [(128, 4, 1), (256, 4, 1), (512, 4, 1), (1_024, 4, 1)]),
];

/// Rules for the positive literal of each atom, whose negated parts are negative literals of the atoms behind it.
fn grown((atoms, rules, parts): Size) -> Vec<u16> {
    let mut table = Vec::new();
    for rule in 0..atoms * rules {
        let atom = rule % atoms;
        table.extend([2 * atom as u16, parts as u16, 0]);
        table.extend((1..=parts).map(|step| 2 * ((atom + step) % atoms) as u16 + 1));
    }
    table
}

/// The engine and the completion formulas on tables of growing size, of which every positive literal holds.
fn time_grown() {
    for (what, sizes) in GROWING {
        println!("growth with doubled {what} (hand-made tables):");
        let mut first = None;
        for size in sizes {
            let table = grown(size);
            println!("{} atoms, {} rules, {} words", size.0, size.0 * size.1, table.len());
            let times = time_all(&on_table(&vec![1; size.0], &table), first.as_ref());
            first.get_or_insert(times);
        }
    }
}

/// The programs given as arguments, each with the recipe it was made from.
fn time_clingo() -> Result<(), String> {
    let mut given = env::args().skip(1);
    let Some(check) = given.next() else { return Ok(()) };
    println!("against clingo: ratios are the checker by clingo, 0 solving time left out");
    for pair in given {
        let (program, recipe) = pair.split_once('=').ok_or(format!("`{pair}` is not of the form PROGRAM=RECIPE"))?;
        match clingo::solve(program) {
            Ok(taken) => print_against(&taken, recipe, &check).map_err(|reason| reason.to_string())?,
            Err(reason) if reason.kind() == io::ErrorKind::NotFound => {
                println!("clingo is not installed; its files are left out");
                return Ok(());
            }
            Err(reason) => return Err(reason.to_string()),
        }
    }
    Ok(())
}

/// One recipe: clingo's times beside the history check's and beside those of the program check, as whole processes.
fn print_against(taken: &clingo::Taken, recipe: &str, check: &str) -> io::Result<()> {
    let calls = on_text(recipe, &fs::read(recipe)?);
    let library = calls[2].time().first / 1e9;
    let process = clingo::whole_process(check, recipe)?;
    let clingo::Taken { own, solving, .. } = taken;
    println!("  clingo says {}, solving {solving:.4} s, own time {own:.4} s", taken.said);
    if *solving > 0.0 {
        println!("    history check by solving: ratio {:.4}", library / solving);
    }
    let ratio = library / own;
    println!("    history check {} by clingo's own time: ratio {ratio:.4}", readable(library * 1e9));
    let ratio = process / taken.process;
    println!("    whole process {process:.4} s by clingo's {:.4} s: ratio {ratio:.3}", taken.process);
    Ok(())
}

fn main() -> Result<(), String> {
    println!("Times of one call; ratio is library by oracle. Each side is warmed up, then both run by turns.");
    println!("Table buffers are lent to every call as the call before left them; they are not cleared in between.");
    let samples = [
        ("full recipe", full_recipe()),
        ("largest table", largest_recipe()),
        ("inertia", inertia_recipe()),
        ("belt", belt_recipe(MAX_HORIZON)),
    ];
    for (label, text) in samples {
        time_all(&on_text(label, &text), None);
    }
    time_growth();
    time_grown();
    time_clingo()
}
