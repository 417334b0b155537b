//! The functions of the C header over slices, with the one number in which each gives its answer. A slice that may be written
//! to is left as the caller is to find it.

use super::causal::{causal_reading as read_causes, Causal};
use super::check::check_history as check_values;
use super::completion::{check_by_levels as judge_by_levels, check_completion as judge, Completion};
use super::description::read_description;
use super::engine::{check_set as check_table, Verdict};
use super::history::read_history as read_values;
use super::report::{output, read_input};
use super::translation::translate as translated;
use super::{Refusal, MAX_LAWS};

/// Codes up to this one are refusals by that number; every other answer has a code above it.
pub const LAST_REFUSAL: u8 = 63;
/// Codes of the verdicts on a set, the history check's `missing` among them. The completion formulas share two of them.
pub const PASSES: u8 = 64;
pub const CLASH: u8 = 65;
pub const BROKEN: u8 = 66;
pub const UNFOUNDED: u8 = 67;
pub const MISSING: u8 = 68;
/// Codes of what the completion formulas say.
pub const HOLDS: u8 = 72;
pub const FAILS: u8 = 73;
/// Codes of the causal reading's verdicts.
pub const PATH: u8 = 80;
pub const CONTRADICTED: u8 = 81;
pub const UNCAUSED: u8 = 82;
/// Code of a table written by the translation.
pub const WRITTEN: u8 = 96;
/// Code of a history read into its values.
pub const READ: u8 = 112;

/// An answer taken apart: the number is the code plus 256 times the value.
#[derive(Clone, Copy, Debug, PartialEq, Eq)]
pub struct Answer {
    pub code: u8,
    pub value: u64,
}

impl Answer {
    pub fn new(code: u8, value: usize) -> Self {
        Answer { code, value: value as u64 }
    }

    pub fn from_number(number: u64) -> Self {
        Answer { code: (number % 256) as u8, value: number / 256 }
    }

    pub fn number(self) -> u64 {
        u64::from(self.code) + 256 * self.value
    }

    /// Counts of atoms, rules and words, 16 bits each.
    pub fn written(atoms: usize, rules: usize, words: usize) -> Self {
        Answer::new(WRITTEN, atoms + 65_536 * rules + 65_536 * 65_536 * words)
    }
}

impl From<Refusal> for Answer {
    fn from(refusal: Refusal) -> Self {
        Answer { code: refusal.number, value: refusal.place as u64 % (1 << 56) }
    }
}

impl From<Verdict> for Answer {
    fn from(verdict: Verdict) -> Self {
        match verdict {
            Verdict::Passes => Answer::new(PASSES, 0),
            Verdict::Clash(atom) => Answer::new(CLASH, atom),
            Verdict::Broken(rule) => Answer::new(BROKEN, rule),
            Verdict::Unfounded(code) => Answer::new(UNFOUNDED, code),
            Verdict::Missing(atom) => Answer::new(MISSING, atom),
        }
    }
}

impl From<Completion> for Answer {
    fn from(completion: Completion) -> Self {
        match completion {
            Completion::Holds => Answer::new(HOLDS, 0),
            Completion::Fails(code) => Answer::new(FAILS, usize::from(code)),
            Completion::Missing(atom) => Answer::new(MISSING, atom),
            Completion::Clash(atom) => Answer::new(CLASH, atom),
        }
    }
}

impl From<Causal> for Answer {
    fn from(causal: Causal) -> Self {
        match causal {
            Causal::Path => Answer::new(PATH, 0),
            Causal::Contradicted { time, law } => Answer::new(CONTRADICTED, 65_536 * time + law),
            Causal::Uncaused { time, fluent } => Answer::new(UNCAUSED, 65_536 * time + fluent),
        }
    }
}

/// What a code means, in a word.
pub fn meaning(code: u8) -> &'static str {
    match code {
        1..=LAST_REFUSAL => "refused",
        PASSES => "passes",
        CLASH => "clash",
        BROKEN => "broken",
        UNFOUNDED => "unfounded",
        MISSING => "missing",
        HOLDS => "holds",
        FAILS => "fails",
        PATH => "path",
        CONTRADICTED => "contradicted",
        UNCAUSED => "uncaused",
        WRITTEN => "written",
        READ => "read",
        _ => "unknown",
    }
}

/// One number for an answer or a refusal.
fn settled(answer: Result<Answer, Refusal>) -> u64 {
    answer.unwrap_or_else(Answer::from).number()
}

/// What the program `check` prints, as far as there is room; the answer is the length of the whole.
pub fn report(input: &[u8], out: &mut [u8]) -> u64 {
    let printed = output(input);
    let common = printed.len().min(out.len());
    out[..common].copy_from_slice(&printed[..common]);
    printed.len() as u64
}

pub fn check_set(values: &[u8], table: &[u16]) -> u64 {
    settled(check_table(values, table).map(Answer::from))
}

pub fn check_completion(values: &[u8], table: &[u16]) -> u64 {
    settled(judge(values, table).map(Answer::from))
}

pub fn check_by_levels(values: &[u8], table: &[u16], levels: &[u16]) -> u64 {
    settled(judge_by_levels(values, table, levels).map(Answer::from))
}

pub fn translate(text: &[u8], table: &mut [u16]) -> u64 {
    settled(read_description(text, MAX_LAWS).and_then(|description| {
        let made = translated(&description, table.len())?;
        table[..made.words.len()].copy_from_slice(&made.words);
        Ok(Answer::written(description.atoms(), made.rules, made.words.len()))
    }))
}

pub fn read_history(description: &[u8], history: &[u8], values: &mut [u8]) -> u64 {
    settled(read_values(description, history, values.len()).map(|read| {
        values.copy_from_slice(&read);
        Answer::new(READ, 0)
    }))
}

pub fn check_history(text: &[u8], values: &[u8], table: &mut [u16]) -> u64 {
    settled(read_description(text, MAX_LAWS).and_then(|description| {
        let (verdict, made) = check_values(&description, values, table.len())?;
        table[..made.words.len()].copy_from_slice(&made.words);
        Ok(Answer::from(verdict))
    }))
}

pub fn causal_reading(input: &[u8]) -> u64 {
    let read = read_input(input);
    settled(read.and_then(|input| Ok(Answer::from(read_causes(&input.description, &input.values)?))))
}
