//! Prints the largest recipe, or with an argument T the belt of horizon T: description and passing history.

use compare::draw::known::{belt_recipe, largest_recipe};
use oracle::MAX_HORIZON;
use std::env;
use std::io::{self, Write};
use std::process::ExitCode;

/// The text asked for; none if the argument is no horizon.
fn text() -> Option<Vec<u8>> {
    let Some(given) = env::args().nth(1) else {
        return Some(largest_recipe());
    };
    let horizon: usize = given.parse().ok()?;
    (1..=MAX_HORIZON).contains(&horizon).then(|| belt_recipe(horizon))
}

fn main() -> ExitCode {
    let Some(text) = text() else {
        eprintln!("usage: largest [HORIZON from 1 to {MAX_HORIZON}]");
        return ExitCode::from(2);
    };
    match io::stdout().lock().write_all(&text) {
        Ok(()) => ExitCode::SUCCESS,
        Err(_) => ExitCode::FAILURE,
    }
}
