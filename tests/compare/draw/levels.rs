//! Rule tables with levels. Most sets are drawn first, with one value an atom, and then rules that fit them, so that
//! the completion formulas hold of many.

use super::histories::put_faults;
use super::tables::{damaged_table, damaged_values, spoil, GroundRule, Kind, Lent};
use super::List;
use crate::call::{Call, Function, Part};
use crate::claims::Claim;
use crate::random::Random;
use oracle::engine::read_rules;
use oracle::{FALSE_HEAD, MAX_ATOMS, MAX_RULES};

pub(super) const KINDS: [Kind<Draft>; 8] = [
    ("levels that fit", 3_000, |random| fitting(random, false)),
    ("levels that fit negated parts too", 900, |random| fitting(random, true)),
    ("levels off by one", 1_800, one_off),
    ("levels of loops", 1_200, |random| looped(random, true)),
    ("levels of another length", 700, wrong_length),
    ("levels with bad atoms", 700, incomplete),
    ("levels with a damaged table", 700, damaged),
    ("levels of about 1,024 atoms", 6, |random| wide(random, MAX_ATOMS - 9)),
];

/// One case with levels, for the formulas and the engine.
pub fn list(random: &mut Random) -> List {
    let (kind, _, draw) = KINDS[random.weighted(&KINDS.map(|(_, weight, _)| weight))];
    let made = draw(random);
    let (values, table) = made.lent();
    let calls = judged(&values, &table, &made.levels).to_vec();
    let claim = Claim::Nothing;
    List { kind, calls, claim }
}

/// One set judged by the formulas, without and with levels, and by the engine.
pub(super) fn judged(values: &[u8], table: &[u16], levels: &[u16]) -> [Call; 3] {
    let [values, table, levels] = [Part::bytes(values), Part::words(table), Part::words(levels)];
    let set = [values.clone(), table.clone()];
    [
        Call::new(Function::CheckCompletion, set.clone()),
        Call::new(Function::CheckByLevels, [values, table, levels]),
        Call::new(Function::CheckSet, set),
    ]
}

/// A case in the making.
pub(super) struct Draft {
    values: Vec<u8>,
    levels: Vec<u16>,
    rules: Vec<GroundRule>,
    /// Words behind those of the rules.
    tail: Vec<u16>,
    /// Negated parts too are taken from below the head.
    low_negated: bool,
}

impl Draft {
    /// A set with one value an atom and a level for each literal; no rules yet.
    fn new(random: &mut Random, atoms: usize, low_negated: bool) -> Self {
        Draft {
            values: (0..atoms).map(|_| random.between(1, 2) as u8).collect(),
            levels: some_levels(random, 2 * atoms),
            rules: vec![],
            tail: vec![],
            low_negated,
        }
    }

    pub(super) fn lent(&self) -> Lent {
        let rules = self.rules.iter().flat_map(GroundRule::words);
        (self.values.clone(), rules.chain(self.tail.iter().copied()).collect())
    }

    /// A code for a rule: its head's complement, as in choices, or any; of many mostly where a word of 64 marks ends.
    fn code(&self, random: &mut Random, head: u16) -> u16 {
        let codes = 2 * self.values.len();
        let code = match random.below(5) {
            0 if codes > 80 => codes - random.between(1, 8),
            1 | 2 if codes > 80 => (64 * random.between(1, codes / 64) + random.below(4) - 2).min(codes - 1),
            3 if head != FALSE_HEAD => usize::from(head ^ 1),
            _ => random.below(codes),
        };
        code as u16
    }

    /// Is the literal in the set?
    fn has(&self, code: u16) -> bool {
        self.values[usize::from(code / 2)] >> (code % 2) & 1 == 1
    }

    fn is_below(&self, part: u16, head: u16) -> bool {
        head == FALSE_HEAD || self.levels[usize::from(part)] < self.levels[usize::from(head)]
    }

    /// A rule whose body holds, or would hold but for one part, where a code for that part is soon found.
    fn rule(&self, random: &mut Random, head: u16, fails: bool) -> GroundRule {
        let mut made = GroundRule::new(head, &[], &[]);
        for _ in 0..random.weighted(&[1, 2, 4, 4, 2, 1]) {
            let part = self.code(random, head);
            let is_below = self.is_below(part, head);
            match self.has(part) {
                true if is_below => made.plain.push(part),
                false if is_below || !self.low_negated => made.negated.push(part),
                _ => (),
            }
        }
        if fails {
            let mut parts = (0..20).map(|_| self.code(random, head));
            match parts.find(|part| self.has(*part) || self.is_below(*part, head)) {
                Some(part) if self.has(part) => made.negated.push(part),
                Some(part) => made.plain.push(part),
                None => (),
            }
            random.shuffle(&mut made.negated);
            random.shuffle(&mut made.plain);
        }
        made
    }

    /// Rules for every literal in the set, and others whose bodies fail.
    fn explain(&mut self, random: &mut Random, others: usize) {
        let codes = 2 * self.values.len();
        let mut heads: Vec<u16> = (0..codes as u16).filter(|code| self.has(*code)).collect();
        for _ in 0..random.below(2 + heads.len() / 3) {
            heads.push(*random.pick(&heads));
        }
        for head in heads {
            self.rules.push(self.rule(random, head, false));
        }
        for _ in 0..others {
            let head = random.below(codes) as u16;
            let head = *random.pick(&[head, head, head, FALSE_HEAD]);
            self.rules.push(self.rule(random, head, true));
        }
        random.shuffle(&mut self.rules);
    }

    /// Some literal loses its rules, one not in the set gains a rule that holds, false does, or a value is another one.
    fn upset(&mut self, random: &mut Random) {
        let code = self.code(random, FALSE_HEAD);
        let member = code ^ u16::from(!self.has(code));
        let head = match random.below(7) {
            0 => return self.rules.retain(|rule| rule.head != member),
            1 | 2 => member ^ 1,
            3..=5 => FALSE_HEAD,
            _ => return self.values[usize::from(code / 2)] ^= 3,
        };
        let made = self.rule(random, head, false);
        self.rules.insert(random.below(self.rules.len() + 1), made);
    }

    /// Every atom from the one before it, the last one first, so that a round over the table derives one more only.
    fn chain(&mut self) {
        let atoms = self.values.len() as u16;
        self.values.fill(1);
        self.levels = (0..2 * atoms).collect();
        let link = |head: u16| GroundRule::new(head, &[head + 1], &[head - 2]);
        self.rules = (2..2 * atoms).step_by(2).rev().map(link).collect();
        self.rules.push(GroundRule::new(0, &[], &[]));
    }

    /// Cuts literals into loops that only support themselves, most of them begun from outside. Those are put into the
    /// set, and some others: a set that holds a whole loop breaks no rule, so only the derivation can tell.
    fn put_loops(&mut self, random: &mut Random, literals: &[u16]) {
        self.rules.retain(|rule| !literals.contains(&rule.head));
        let mut left = literals;
        while !left.is_empty() {
            let (members, rest) = left.split_at(random.between(1, left.len().min(12)));
            left = rest;
            let started = random.chance(4, 5);
            if started {
                self.rules.push(GroundRule::new(members[0], &[members[0] ^ 1], &[]));
            }
            let is_held = started || random.chance(1, 3);
            // Each member from the one before it, the first from the last, and some from any other too.
            for (index, member) in members.iter().enumerate() {
                self.values[usize::from(member / 2)] = u8::from(is_held) << (member % 2);
                let plain = [*member, *random.pick(members)];
                let parts = &plain[..1 + usize::from(random.chance(1, 4))];
                let next = members[(index + 1) % members.len()];
                self.rules.push(GroundRule::new(next, &[], parts));
            }
        }
        random.shuffle(&mut self.rules);
    }
}

/// Levels of a few steps, of more for many literals: low, high, about the middle, or with the lowest and the highest.
fn some_levels(random: &mut Random, codes: usize) -> Vec<u16> {
    let steps = random.between(1, if codes > 80 { 50 } else { 5 });
    let any = random.below(65_536 - steps);
    let first = *random.pick(&[0, 0, 1, 65_536 - steps, 32_768 - steps / 2, any]);
    let stretched = random.chance(1, 5);
    let level = |step: usize| match step {
        0 if stretched => 0,
        _ if stretched && step + 1 == steps => u16::MAX,
        _ => (first + step) as u16,
    };
    (0..codes).map(|_| level(random.below(steps))).collect()
}

/// Levels that fit.
fn fitting(random: &mut Random, low_negated: bool) -> Draft {
    let most = if random.chance(3, 4) { 5 } else { 25 };
    let atoms = random.between(1, most);
    let mut made = Draft::new(random, atoms, low_negated);
    let others = random.below(atoms + 3);
    made.explain(random, others);
    for _ in 0..random.weighted(&[5, 4, 1]) {
        made.upset(random);
    }
    made
}

/// A head at the level of one of its plain parts, or one step below it.
fn one_off(random: &mut Random) -> Draft {
    let low_negated = random.chance(1, 2);
    let mut made = fitting(random, low_negated);
    let has_both = |rule: &&GroundRule| rule.head != FALSE_HEAD && !rule.plain.is_empty();
    let rules: Vec<&GroundRule> = made.rules.iter().filter(has_both).collect();
    if rules.is_empty() {
        return made;
    }
    let rule = random.pick(&rules);
    let (head, part) = (usize::from(rule.head), usize::from(*random.pick(&rule.plain)));
    match random.below(4) {
        0 => made.levels[part] = made.levels[head],
        1 => made.levels[part] = made.levels[head].saturating_add(1),
        2 => made.levels[head] = made.levels[part],
        _ => made.levels[head] = made.levels[part].saturating_sub(1),
    }
    made
}

/// Rules in loops, which no levels fit. Where each atom is to have a value, other literals have rules of their own.
pub(super) fn looped(random: &mut Random, is_total: bool) -> Draft {
    let atoms = random.between(1, 40);
    let mut made = Draft::new(random, atoms, false);
    let literal = |atom: u16| 2 * atom + u16::from(random.chance(1, 6));
    let mut literals: Vec<u16> = (0..atoms as u16).map(literal).collect();
    random.shuffle(&mut literals);
    made.put_loops(random, &literals);
    for literal in literals.into_iter().filter(|_| is_total) {
        let value = &mut made.values[usize::from(literal / 2)];
        if *value == 0 {
            *value = 2 >> (literal % 2);
            made.rules.push(GroundRule::new(literal ^ 1, &[literal], &[]));
        }
    }
    if random.chance(1, 4) {
        made.upset(random);
    }
    made
}

fn wrong_length(random: &mut Random) -> Draft {
    let mut made = match random.chance(1, 4) {
        true => looped(random, true),
        false => fitting(random, false),
    };
    other_length(random, made.values.len(), &mut made.levels);
    made
}

/// Levels cut short or drawn out; with no atoms, one at least.
fn other_length(random: &mut Random, atoms: usize, levels: &mut Vec<u16>) {
    let codes = 2 * atoms;
    let length = match random.below(8) {
        0 | 1 => codes + 1,
        2 => codes + 2,
        3 => 2 * codes,
        4 => random.between(MAX_ATOMS, 70_000),
        5 => atoms,
        6 => random.below(codes + 1),
        _ => codes.saturating_sub(1),
    };
    levels.resize(if length == codes { codes + 1 } else { length }, 1);
}

/// Some atoms without a value or with both; in every second case several more, of both kinds.
fn incomplete(random: &mut Random) -> Draft {
    let mut made = match random.chance(1, 4) {
        true => one_off(random),
        false => fitting(random, false),
    };
    spoil(random, &mut made.values, &[0, 3]);
    if random.chance(1, 2) {
        put_faults(random, &mut made.values, |_| true);
    }
    made
}

/// A damaged table or damaged values, with levels of the right number and often of a wrong one.
fn damaged(random: &mut Random) -> Draft {
    let (values, tail) = match random.chance(1, 3) {
        true => damaged_values(random),
        false => damaged_table(random),
    };
    let mut made = Draft::new(random, 0, false);
    made.values = for_formulas(random, values);
    made.levels = lent_levels(random, made.values.len(), &tail);
    made.tail = tail;
    made
}

/// So many atoms at least, often up to where a word of marks ends: a chain, or rules that fit a set, some in loops.
pub(super) fn wide(random: &mut Random, least: usize) -> Draft {
    let most = *random.pick(&[MAX_ATOMS, MAX_ATOMS.min(5 * least)]);
    let mut atoms = random.between(least, most);
    if random.chance(1, 3) {
        atoms = (atoms / 32 * 32 + random.below(3) - 1).clamp(least, MAX_ATOMS);
    }
    let mut made = Draft::new(random, atoms, false);
    if random.chance(1, 2) {
        // Then what follows from a literal has higher codes.
        made.levels.sort();
    }
    if random.chance(1, 4) {
        made.chain();
    } else {
        let empty = if random.chance(1, 3) { random.below(atoms) } else { 0 };
        (0..empty).for_each(|_| made.values[random.below(atoms)] = 0);
        let others = random.below((3 * atoms).min(MAX_RULES + 1 - 2 * atoms));
        made.explain(random, others);
        if random.chance(1, 3) {
            let lowest = made.code(random, FALSE_HEAD);
            let codes = (0..random.between(1, 30)).map(|_| made.code(random, FALSE_HEAD));
            let members: Vec<u16> = codes.filter(|code| made.has(*code) && *code >= lowest).collect();
            made.put_loops(random, &members);
        }
    }
    let atom = usize::from(made.code(random, FALSE_HEAD) / 2);
    match random.below(8) {
        0 | 1 => made.upset(random),
        2 | 3 => made.rules.retain(|rule| usize::from(rule.head / 2) != atom),
        4 | 5 => made.values[atom] ^= random.between(1, 3) as u8,
        _ => (),
    }
    made
}

/// More often than not one value for each atom; then, in some cases, a few bad atoms again.
pub(super) fn for_formulas(random: &mut Random, mut values: Vec<u8>) -> Vec<u8> {
    if random.chance(1, 3) {
        return values;
    }
    for value in values.iter_mut().filter(|value| matches!(value, 0 | 3)) {
        *value = random.between(1, 2) as u8;
    }
    if !values.is_empty() && random.chance(1, 6) {
        put_faults(random, &mut values, |_| true);
    }
    values
}

/// Levels for any table: the least that fit where some do, and now and then others or too few or too many.
pub(super) fn lent_levels(random: &mut Random, atoms: usize, table: &[u16]) -> Vec<u16> {
    let mut levels = match random.below(8) {
        0 => some_levels(random, 2 * atoms),
        _ => least_levels(atoms, table),
    };
    match random.below(8) {
        0 => other_length(random, atoms, &mut levels),
        1 if atoms > 0 => {
            let code = random.below(2 * atoms);
            levels[code] = levels[code].wrapping_sub(1);
        }
        _ => (),
    }
    levels
}

/// The least levels that fit a table, if any do: heads are raised above their plain parts, so many times at most.
fn least_levels(atoms: usize, table: &[u16]) -> Vec<u16> {
    let mut levels = vec![0u16; 2 * atoms];
    let rules = read_rules(table, atoms).unwrap_or_default();
    for _ in 0..60 {
        for rule in rules.iter().filter(|rule| rule.head != FALSE_HEAD) {
            let above = |part: &u16| levels[usize::from(*part)].saturating_add(1);
            let least = rule.plain.iter().map(above).max().unwrap_or(0);
            let level = &mut levels[usize::from(rule.head)];
            *level = least.max(*level);
        }
    }
    levels
}
