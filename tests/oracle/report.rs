//! What the program `check` prints for an input.

use super::causal::{causal_reading, Causal};
use super::check::check_history;
use super::description::read_description;
use super::engine::Verdict;
use super::history::read_lines;
use super::record::Description;
use super::translation::Table;
use super::{Refusal, MAX_LAWS};

/// A whole input, read: its description and its history's values.
pub struct Input {
    pub description: Description,
    pub values: Vec<u8>,
}

/// Reads a description and the history behind it. Lines count over the whole input, so a history's refusal is moved up
/// by the description's lines; a place that is no line stays as it is.
pub fn read_input(input: &[u8]) -> Result<Input, Refusal> {
    let description = read_description(input, MAX_LAWS)?;
    let behind = &input[description.length..];
    let values = read_lines(&description, behind).map_err(|refusal| match refusal.number {
        1 => refusal,
        _ => Refusal::new(refusal.number, refusal.place + description.lines),
    })?;
    Ok(Input { description, values })
}

/// The printed output, byte by byte.
pub fn output(input: &[u8]) -> Vec<u8> {
    match read_input(input).and_then(answers) {
        Ok(lines) => lines,
        Err(refusal) => format!("refused={}\nplace={}\n", refusal.number, refusal.place).into_bytes(),
    }
}

fn answers(input: Input) -> Result<Vec<u8>, Refusal> {
    let Input { description, values } = input;
    let (verdict, table) = check_history(&description, &values, usize::MAX)?;
    let causal = match verdict {
        Verdict::Missing(_) | Verdict::Clash(_) => None,
        _ => Some(causal_reading(&description, &values)?),
    };
    Ok(nine_lines(&description, &table, verdict, causal))
}

fn nine_lines(description: &Description, table: &Table, verdict: Verdict, causal: Option<Causal>) -> Vec<u8> {
    let (answer, at) = verdict_words(verdict);
    let (causal, time, item) = causal_words(description, causal);
    let mut lines = format!(
        "horizon={}\natoms={}\nrules={}\nwords={}\nanswer={answer}\nat={at}\ncausal={causal}\ntime={time}\nitem=",
        description.horizon,
        description.atoms(),
        table.rules,
        table.words.len(),
    )
    .into_bytes();
    lines.extend(item);
    lines.push(b'\n');
    lines
}

fn verdict_words(verdict: Verdict) -> (&'static str, String) {
    match verdict {
        Verdict::Passes => ("passes", String::new()),
        Verdict::Clash(atom) => ("clash", atom.to_string()),
        Verdict::Broken(rule) => ("broken", rule.to_string()),
        Verdict::Unfounded(code) => ("unfounded", code.to_string()),
        Verdict::Missing(atom) => ("missing", atom.to_string()),
    }
}

/// The causal verdict, its time, and its item: a law's number or a fluent's name.
fn causal_words(description: &Description, causal: Option<Causal>) -> (&'static str, String, Vec<u8>) {
    match causal {
        None => ("none", String::new(), Vec::new()),
        Some(Causal::Path) => ("path", String::new(), Vec::new()),
        Some(Causal::Contradicted { time, law }) => ("contradicted", time.to_string(), law.to_string().into_bytes()),
        Some(Causal::Uncaused { time, fluent }) => ("uncaused", time.to_string(), description.fluents[fluent].clone()),
    }
}
