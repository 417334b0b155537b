//! Rule tables with sets of values, many of which are answer sets.

use super::levels::{for_formulas, judged, lent_levels, looped, wide};
use super::List;
use crate::call::{Call, Function, Part};
use crate::claims::Claim;
use crate::random::Random;
use oracle::engine::{least_closed_set, read_rules, Rule};
use oracle::{FALSE_HEAD, MAX_ATOMS, MAX_RULES};

/// Values and a table.
pub(super) type Lent = (Vec<u8>, Vec<u16>);

/// What a kind is called, how often it is drawn, and by what.
pub(super) type Kind<Made> = (&'static str, usize, fn(&mut Random) -> Made);

const KINDS: [Kind<Lent>; 8] = [
    ("table of up to 5 atoms", 4_000, |random| sound(random, 5, 9)),
    ("table of up to 40 atoms", 2_600, |random| sound(random, 40, 60)),
    ("table of 41 to 1,024 atoms", 420, |random| wide(random, 41).lent()),
    ("table with loops", 1_500, |random| looped(random, false).lent()),
    ("table of about 1,024 atoms", 20, |random| wide(random, MAX_ATOMS - 60).lent()),
    ("table of about 4,096 rules", 16, many_rules),
    ("damaged table", 1_300, damaged_table),
    ("damaged values", 600, damaged_values),
];

/// One table for the engine, every second one for the completion formulas too.
pub fn list(random: &mut Random) -> List {
    let (kind, _, draw) = KINDS[random.weighted(&KINDS.map(|(_, weight, _)| weight))];
    let (values, table) = draw(random);
    let lent = [Part::bytes(&values), Part::words(&table)];
    let mut calls = vec![Call::new(Function::CheckSet, lent)];
    if random.chance(1, 2) {
        let values = for_formulas(random, values);
        let levels = lent_levels(random, values.len(), &table);
        calls.extend(judged(&values, &table, &levels));
    }
    let claim = Claim::Nothing;
    List { kind, calls, claim }
}

/// A rule that owns its parts.
pub(super) struct GroundRule {
    pub(super) head: u16,
    pub(super) negated: Vec<u16>,
    pub(super) plain: Vec<u16>,
}

impl GroundRule {
    pub(super) fn new(head: u16, negated: &[u16], plain: &[u16]) -> Self {
        let (negated, plain) = (negated.to_vec(), plain.to_vec());
        GroundRule { head, negated, plain }
    }

    pub(super) fn words(&self) -> Vec<u16> {
        let lengths = [&self.negated, &self.plain].map(|parts| parts.len() as u16);
        [&[self.head], &lengths[..], &self.negated, &self.plain].concat()
    }
}

/// Values that a set is spoiled by.
const ANY: [u8; 8] = [0, 0, 1, 1, 1, 2, 2, 3];

/// Rules and a set that may be an answer set of them. With no atoms there are rules for false only.
fn sound(random: &mut Random, most_atoms: usize, most_rules: usize) -> Lent {
    let atoms = random.between(0, most_atoms);
    let count = random.between(0, if atoms == 0 { 3 } else { most_rules });
    let table: Vec<u16> = (0..count).flat_map(|_| rule(random, atoms).words()).collect();
    let mut values = stable_values(random, &table, atoms);
    if random.chance(2, 5) {
        spoil(random, &mut values, &ANY);
    }
    (values, table)
}

fn rule(random: &mut Random, atoms: usize) -> GroundRule {
    let head = match atoms == 0 || random.chance(1, 12) {
        true => FALSE_HEAD,
        false => random.below(2 * atoms) as u16,
    };
    let negated = codes(random, atoms, &[5, 4, 2, 1]);
    let plain = codes(random, atoms, &[4, 4, 3, 1]);
    GroundRule { head, negated, plain }
}

/// A list of codes whose length is drawn by weight. Positive literals come more often, so that fewer sets clash.
fn codes(random: &mut Random, atoms: usize, lengths: &[usize]) -> Vec<u16> {
    let length = if atoms == 0 { 0 } else { random.weighted(lengths) };
    let mut code = || 2 * random.below(atoms) as u16 + u16::from(random.chance(1, 4));
    (0..length).map(|_| code()).collect()
}

/// Looks for a set that is the least closed set of its own reduct: a guess is replaced by the least closed set of the
/// guess's reduct, again and again. Where this comes to rest, the set is an answer set but for clashes and false heads.
fn stable_values(random: &mut Random, table: &[u16], atoms: usize) -> Vec<u8> {
    let rules = read_rules(table, atoms).unwrap_or_default();
    let mut set: Vec<bool> = (0..2 * atoms).map(|_| random.chance(1, 4)).collect();
    for round in 0..10 {
        let is_out = |code: &u16| !set[usize::from(*code)];
        let is_kept = |rule: &&Rule| rule.head != FALSE_HEAD && rule.negated.iter().all(is_out);
        let kept: Vec<Rule> = rules.iter().filter(is_kept).copied().collect();
        let next = least_closed_set(&kept, 2 * atoms);
        if next == set {
            break;
        }
        // Guesses that jump to and fro are led half way.
        let mut pick = |pair: (&bool, &bool)| if random.chance(1, 2) { *pair.0 } else { *pair.1 };
        set = match round % 3 {
            2 => set.iter().zip(&next).map(&mut pick).collect(),
            _ => next,
        };
    }
    let value = |pair: &[bool]| u8::from(pair[0]) + 2 * u8::from(pair[1]);
    set.chunks(2).map(value).collect()
}

/// Changes a few values, if there are any, to some of those given.
pub(super) fn spoil(random: &mut Random, values: &mut [u8], others: &[u8]) {
    for _ in 0..random.between(1, 3) {
        let place = random.below(values.len().max(1));
        let other = *random.pick(others);
        values.iter_mut().skip(place).take(1).for_each(|value| *value = other);
    }
}

/// About as many rules as the engine takes. Only the last one has the last atom as its head.
fn many_rules(random: &mut Random) -> Lent {
    let atoms = random.between(2, 8);
    let count = random.between(MAX_RULES - 1, MAX_RULES + 2);
    let mut heads: Vec<usize> = (1..count).map(|_| 2 * random.below(atoms - 1)).collect();
    heads.push(2 * atoms - 2);
    if random.chance(1, 4) {
        heads[random.below(count)] = 2 * atoms;
    }
    let mut table: Vec<u16> = heads.iter().flat_map(|head| [*head as u16, 0, 0]).collect();
    if random.chance(1, 6) {
        table.pop();
    }
    let mut values = vec![1; atoms];
    values[atoms - 1] = u8::from(random.chance(3, 4));
    (values, table)
}

/// A good table with one word changed, words cut off, or words put behind it.
pub(super) fn damaged_table(random: &mut Random) -> Lent {
    let (mut values, mut table) = sound(random, 12, 16);
    if table.is_empty() {
        table.extend([FALSE_HEAD, 0, 0]);
    }
    let codes = 2 * values.len() as u16;
    let at = random.below(table.len());
    match random.below(9) {
        0 => table.truncate(at),
        1 => table[at] = codes + random.below(2) as u16,
        2 => table[at] = FALSE_HEAD,
        3 => table[at] = FALSE_HEAD - 1,
        4 => table[at] = random.word(),
        5 => table[at] = table[at].wrapping_add(1),
        6 => table.extend((0..random.between(1, 3)).map(|_| FALSE_HEAD)),
        7 => table.extend([codes.saturating_sub(1), 1, 0, FALSE_HEAD]),
        _ => drop(values.pop()),
    }
    if random.chance(1, 10) {
        spoil(random, &mut values, &ANY);
    }
    (values, table)
}

/// A good or damaged table with values over 3, or with too many of them.
pub(super) fn damaged_values(random: &mut Random) -> Lent {
    let (mut values, table) = match random.chance(1, 3) {
        true => damaged_table(random),
        false => sound(random, 12, 16),
    };
    match random.below(4) {
        0 => values.resize(random.between(MAX_ATOMS - 1, MAX_ATOMS + 2), 1),
        1 => values.resize(random.between(MAX_ATOMS + 1, 3_000), random.below(6) as u8),
        _ => (),
    }
    if random.chance(3, 4) {
        let high = random.byte().max(4);
        spoil(random, &mut values, &[4, high, high]);
    }
    (values, table)
}

#[cfg(test)]
mod tests {
    use super::*;
    use crate::{call::Said, draw::levels, sides::answers, sides::Oracle};
    use oracle::header::{meaning, Answer};
    use std::collections::BTreeMap;

    /// Answers that must come so often; `last` stands for the value 65535, `high` for any other from 1,024 on.
    const OFTEN: [(&str, usize, &str); 5] = [
        ("check_set", 300, "passes,clash,broken,unfounded,10 high,11,12"),
        ("check_completion", 300, "holds,fails,fails last,missing,clash,11,12"),
        ("check_by_levels", 300, "holds,fails,fails last,missing,12,13,13 last"),
        ("wide check_set", 12, "passes,clash,broken,unfounded,unfounded high"),
        ("wide check_completion", 12, "holds,fails,fails last,missing"),
    ];

    /// The answers to a list in such words.
    fn labels(drawn: &List) -> Vec<String> {
        let wide = if drawn.kind == KINDS[2].0 { "wide " } else { "" };
        let label = |(call, said): (&Call, &Said)| {
            let Answer { code, value } = said.answer();
            let word = meaning(code).replace("refused", &code.to_string());
            let size = usize::from(value >= 1_024) + usize::from(value == 65_535);
            format!("{wide}{} {word}{}", call.function.name(), ["", " high", " last"][size])
        };
        let said = answers(&mut Oracle, &drawn.calls);
        drawn.calls.iter().zip(&said).map(label).collect()
    }

    #[test]
    fn every_kind_is_drawn_and_every_answer_comes_often() {
        let mut seen: BTreeMap<String, usize> = BTreeMap::new();
        for number in 0..20_000 {
            let random = &mut Random::of_case(5, number);
            for drawn in [list(random), levels::list(random)] {
                let labels = labels(&drawn).into_iter().chain([drawn.kind.to_string()]);
                labels.for_each(|label| *seen.entry(label).or_default() += 1);
            }
        }
        let count = |label: &str| seen.get(label).copied().unwrap_or(0);
        let kinds = [KINDS.map(|kind| kind.0), levels::KINDS.map(|kind| kind.0)].concat();
        assert!(kinds.iter().all(|kind| count(kind) >= 5), "{seen:#?}");
        let comes = |call: &str, least: usize, word: &str| count(&format!("{call} {word}")) >= least;
        let all_come =
            |(call, least, words): &(&str, usize, &str)| words.split(',').all(|word| comes(call, *least, word));
        assert!(OFTEN.iter().all(all_come), "{seen:#?}");
    }
}
