//! Compares the linked library with the oracle: on the cases of folders, on families of calls, and on lists drawn from a seed.
//!
//! `compare [--seed SEED] [--lists N] [--cases FOLDER] .. [--program CHECK] [--exact]`. A run prints its seed, so that it can be
//! made again. CHECK is the program `check_main`, which some of the recipes go through too. With `--exact` each part is lent in
//! memory of just its length, for a tool that watches memory; the families are left out, for such a tool is slow.

mod library;

use compare::cases::{answered_otherwise, folder};
use compare::kinds::Tally;
use compare::program::Program;
use compare::run::{compare, drawn, whole_families};
use compare::sides::{Oracle, Side};
use library::Library;
use std::path::PathBuf;
use std::process::ExitCode;
use std::{env, io};

/// What a run was asked for.
#[derive(Default)]
struct Asked {
    seed: u64,
    lists: u64,
    cases: Vec<PathBuf>,
    program: Option<PathBuf>,
    exact: bool,
}

fn asked() -> Result<Asked, String> {
    let mut asked = Asked::default();
    let mut given = env::args().skip(1);
    while let Some(word) = given.next() {
        if word == "--exact" {
            asked.exact = true;
            continue;
        }
        let value = given.next().ok_or(format!("nothing stands behind {word}"))?;
        let number = || value.parse().map_err(|_| format!("`{value}` is no number"));
        match word.as_str() {
            "--seed" => asked.seed = number()?,
            "--lists" => asked.lists = number()?,
            "--cases" => asked.cases.push(value.into()),
            "--program" => asked.program = Some(value.into()),
            _ => return Err(format!("`{word}` is not known")),
        }
    }
    Ok(asked)
}

/// The cases of a folder, by the oracle and by the library.
fn all_cases(library: &mut Library, path: &PathBuf) -> Result<(), String> {
    let cases = folder(path)?;
    let sides: [(&str, &mut dyn Side); 2] = [("oracle", &mut Oracle), ("library", library)];
    for (name, side) in sides {
        let otherwise = cases.iter().find_map(|case| answered_otherwise(side, case));
        if let Some(found) = otherwise {
            return Err(format!("{}: the {name} answers otherwise\n{found}", path.display()));
        }
    }
    println!("{}: {} cases answered as stated by both sides", path.display(), cases.len());
    Ok(())
}

/// The drawn lists, and whether each kind of case and answer was seen often enough.
fn all_lists(library: &mut Library, asked: &Asked) -> Result<(), String> {
    println!("seed {}", asked.seed);
    let mut tally = Tally::default();
    let mut program = asked.program.as_ref().map(Program::new);
    let families = whole_families().filter(|_| !asked.exact);
    let lists = families.chain(drawn(asked.seed, asked.lists));
    compare(library, program.as_mut(), lists, &mut tally)?;
    tally.print(&mut io::stdout()).map_err(|reason| reason.to_string())?;
    let rare = tally.too_rare(asked.lists);
    if !rare.is_empty() {
        return Err(format!("seen too rarely:\n{}", rare.join("\n")));
    }
    if let Some(program) = program {
        println!("{} recipes printed alike by the program", program.recipes());
    }
    println!("compare: {} lists, 0 differences", asked.lists);
    Ok(())
}

fn run() -> Result<(), String> {
    let asked = asked()?;
    let mut library = Library { exact: asked.exact };
    for path in &asked.cases {
        all_cases(&mut library, path)?;
    }
    match asked.lists {
        0 => Ok(()),
        _ => all_lists(&mut library, &asked),
    }
}

fn main() -> ExitCode {
    match run() {
        Ok(()) => ExitCode::SUCCESS,
        Err(reason) => {
            println!("compare: {reason}");
            ExitCode::FAILURE
        }
    }
}
