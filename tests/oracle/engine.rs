//! The answer-set engine, which knows nothing of fluents, actions or laws.

use super::{Refusal, FALSE_HEAD, MAX_ATOMS, MAX_RULES};

/// What the engine or the history check says of a set.
#[derive(Clone, Copy, Debug, PartialEq, Eq)]
pub enum Verdict {
    Passes,
    /// The lowest atom with both values.
    Clash(usize),
    /// The lowest rule the set breaks.
    Broken(usize),
    /// The lowest literal code of the set that nothing derives.
    Unfounded(usize),
    /// An atom without a value; said by the history check only, where no lower atom has both.
    Missing(usize),
}

/// A rule as it lies in the table.
#[derive(Clone, Copy, Debug)]
pub struct Rule<'a> {
    pub head: u16,
    pub negated: &'a [u16],
    pub plain: &'a [u16],
}

/// Is the set held by the values an answer set of the table's rules? Conditions 10, 11 and 12 come first.
pub fn check_set(values: &[u8], table: &[u16]) -> Result<Verdict, Refusal> {
    let rules = accept(values, table)?;
    Ok(verdict(values, &rules))
}

/// Conditions 10, 11 and 12 on values and a given table; the table's rules if none is met.
pub fn accept<'a>(values: &[u8], table: &'a [u16]) -> Result<Vec<Rule<'a>>, Refusal> {
    if values.len() > MAX_ATOMS {
        return Err(Refusal::new(10, values.len()));
    }
    values_known(values)?;
    read_rules(table, values.len())
}

/// Condition 11: no byte is over 3.
pub fn values_known(values: &[u8]) -> Result<(), Refusal> {
    match values.iter().position(|value| *value > 3) {
        Some(index) => Err(Refusal::new(11, index)),
        None => Ok(()),
    }
}

/// Cuts the table into rules, from the front; the first bad one decides.
pub fn read_rules(table: &[u16], atoms: usize) -> Result<Vec<Rule<'_>>, Refusal> {
    let mut rules = Vec::new();
    let mut start = 0;
    while start < table.len() {
        if rules.len() == MAX_RULES {
            return Err(Refusal::new(12, start));
        }
        let (rule, length) = first_rule(&table[start..], 2 * atoms).ok_or(Refusal::new(12, start))?;
        rules.push(rule);
        start += length;
    }
    Ok(rules)
}

/// The rule at the front of some words, with its length; none if it runs past the end or has a code out of range.
fn first_rule(words: &[u16], codes: usize) -> Option<(Rule<'_>, usize)> {
    let (&[head, negated, plain], rest) = words.split_first_chunk::<3>()?;
    let (negated, plain) = (usize::from(negated), usize::from(plain));
    let parts = rest.get(..negated + plain)?;
    let known = |code: &u16| usize::from(*code) < codes;
    if !(head == FALSE_HEAD || known(&head)) || !parts.iter().all(known) {
        return None;
    }
    let (negated_parts, plain_parts) = parts.split_at(negated);
    Some((Rule { head, negated: negated_parts, plain: plain_parts }, 3 + parts.len()))
}

/// One mark a literal code: is it in the set?
fn members(values: &[u8]) -> Vec<bool> {
    values.iter().flat_map(|value| [value & 1 != 0, value & 2 != 0]).collect()
}

/// The verdicts in the contract's order.
fn verdict(values: &[u8], rules: &[Rule]) -> Verdict {
    if let Some(atom) = values.iter().position(|value| *value == 3) {
        return Verdict::Clash(atom);
    }
    let set = members(values);
    let held = |code: &u16| set[usize::from(*code)];
    let kept = |rule: &Rule| !rule.negated.iter().any(held);
    let breaks = |rule: &Rule| {
        kept(rule) && rule.plain.iter().all(held) && (rule.head == FALSE_HEAD || !set[usize::from(rule.head)])
    };
    if let Some(rule) = rules.iter().position(breaks) {
        return Verdict::Broken(rule);
    }
    let founding: Vec<Rule> = rules.iter().filter(|rule| rule.head != FALSE_HEAD && kept(rule)).copied().collect();
    let derived = least_closed_set(&founding, set.len());
    match (0..set.len()).find(|code| set[*code] && !derived[*code]) {
        Some(code) => Verdict::Unfounded(code),
        None => Verdict::Passes,
    }
}

/// The least set closed under rules without negated parts, every one of which has a literal as head: round by round the heads
/// whose plain parts are in it are added, until a round adds nothing.
pub fn least_closed_set(rules: &[Rule], codes: usize) -> Vec<bool> {
    let mut derived = vec![false; codes];
    loop {
        let before = derived.clone();
        for rule in rules {
            if rule.plain.iter().all(|code| derived[usize::from(*code)]) {
                derived[usize::from(rule.head)] = true;
            }
        }
        if derived == before {
            return derived;
        }
    }
}
