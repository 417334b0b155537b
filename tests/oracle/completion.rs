//! The completion formulas (document 000, section 6): a verdict on a set without derivation.
//!
//! For each literal its presence in the set must equal that of some body of a rule for it, and no body of a rule headed
//! by false may hold. Whether that says the same as the engine depends on the rules: it does where they have levels,
//! and so a caller may lend them.

use super::check::{first_fault, Fault};
use super::engine::{accept, Rule};
use super::{Refusal, FALSE_HEAD};

/// What the formulas say of a set.
#[derive(Clone, Copy, Debug, PartialEq, Eq)]
pub enum Completion {
    Holds,
    /// The lowest literal code whose formula fails; false, which is 65535, comes last.
    Fails(u16),
    /// An atom without a value; every lower one has just one.
    Missing(usize),
    /// An atom with both values; every lower one has just one.
    Clash(usize),
}

impl From<Fault> for Completion {
    fn from(fault: Fault) -> Self {
        match fault {
            Fault::Missing(atom) => Completion::Missing(atom),
            Fault::Clash(atom) => Completion::Clash(atom),
        }
    }
}

/// The call without levels: conditions 10, 11 and 12, as the engine's, come first.
pub fn check_completion(values: &[u8], table: &[u16]) -> Result<Completion, Refusal> {
    let rules = accept(values, table)?;
    Ok(judge(values, &rules))
}

/// The call with one level for each literal code: condition 13 comes behind the others.
pub fn check_by_levels(values: &[u8], table: &[u16], levels: &[u16]) -> Result<Completion, Refusal> {
    let rules = accept(values, table)?;
    levels_fit(&rules, levels, 2 * values.len())?;
    Ok(judge(values, &rules))
}

/// Condition 13: as many levels as literal codes, and every literal head above each of its plain parts.
fn levels_fit(rules: &[Rule], levels: &[u16], codes: usize) -> Result<(), Refusal> {
    if levels.len() != codes {
        return Err(Refusal::new(13, usize::from(FALSE_HEAD)));
    }
    match rules.iter().position(|rule| !stands_above(rule, levels)) {
        Some(rule) => Err(Refusal::new(13, rule)),
        None => Ok(()),
    }
}

/// Does the head stand above the plain parts? False stands nowhere, and negated parts do not matter.
fn stands_above(rule: &Rule, levels: &[u16]) -> bool {
    let level = |code: &u16| levels[usize::from(*code)];
    rule.head == FALSE_HEAD || rule.plain.iter().all(|part| level(part) < level(&rule.head))
}

/// Values 0 and 3 come first, as in the history check; behind them every value is 1 or 2.
fn judge(values: &[u8], rules: &[Rule]) -> Completion {
    if let Some(fault) = first_fault(values) {
        return Completion::from(fault);
    }
    let codes = 2 * values.len() as u16;
    let failing = (0..codes).find(|code| is_member(values, *code) != has_body(values, rules, *code));
    match failing {
        Some(code) => Completion::Fails(code),
        None if has_body(values, rules, FALSE_HEAD) => Completion::Fails(FALSE_HEAD),
        None => Completion::Holds,
    }
}

/// Is the literal in the set? Its atom's value is 1 for the positive one and 2 for the negative one.
fn is_member(values: &[u8], code: u16) -> bool {
    u16::from(values[usize::from(code / 2)]) == 1 + code % 2
}

/// Is there a rule with this head whose body holds? Every rule is looked at.
fn has_body(values: &[u8], rules: &[Rule], head: u16) -> bool {
    rules.iter().any(|rule| rule.head == head && holds(values, rule))
}

/// A body as a formula: its plain parts, and the complements of its negated parts.
fn holds(values: &[u8], rule: &Rule) -> bool {
    let plain = rule.plain.iter().all(|part| is_member(values, *part));
    plain && rule.negated.iter().all(|part| is_member(values, complement(*part)))
}

/// Codes of complements differ in the lowest bit.
fn complement(code: u16) -> u16 {
    code ^ 1
}
