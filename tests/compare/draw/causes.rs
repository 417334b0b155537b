//! Laws of every form that leave most states something to go on to: each fluent has causes in one way or another, and
//! effects, constraints and odd laws come on top.

use super::descriptions::any_law;
use crate::random::Random;
use oracle::record::{Description, Head, Law};
use oracle::{MAX_LAWS, MAX_LIST};

/// The laws of a description whose names are settled, in random order.
pub fn laws(random: &mut Random, names: &Description) -> Vec<Law> {
    let fluents = names.fluents.len();
    let mut laws = Vec::new();
    for fluent in 0..fluents {
        let made = explanation(random, names, fluent);
        // Two laws are kept free for each fluent to come.
        let room = MAX_LAWS - laws.len() - 2 * (fluents - 1 - fluent);
        laws.extend(if made.len() > room { inertia(fluent) } else { made });
    }
    laws.extend(additions(random, names));
    laws.truncate(MAX_LAWS);
    if random.chance(1, 6) && laws.len() < MAX_LAWS {
        laws.push(random.pick(&laws).clone());
    }
    laws.iter_mut().for_each(|law| roughen(random, law));
    random.shuffle(&mut laws);
    laws
}

/// The laws by which a fluent stays as it is.
pub fn inertia(fluent: usize) -> Vec<Law> {
    both_ways(fluent, |code| dynamic(code, vec![code], vec![code]))
}

fn law(head: Head, ifs: Vec<u16>, after: Option<Vec<u16>>) -> Law {
    Law { head, ifs, after }
}

fn dynamic(head: u16, ifs: Vec<u16>, after: Vec<u16>) -> Law {
    law(Head::Literal(head), ifs, Some(after))
}

fn static_law(head: u16, ifs: Vec<u16>) -> Law {
    law(Head::Literal(head), ifs, None)
}

/// One law for each value of a fluent.
fn both_ways(fluent: usize, law: impl Fn(u16) -> Law) -> Vec<Law> {
    let code = 2 * fluent as u16;
    vec![law(code), law(code + 1)]
}

/// Laws by which a fluent has causes.
fn explanation(random: &mut Random, names: &Description, fluent: usize) -> Vec<Law> {
    let one = 2 * fluent as u16 + random.below(2) as u16;
    match random.weighted(&[30, 10, 8, 14, 8, 10, 14, 6, 2]) {
        // It may be anything: each value causes itself, by dynamic laws with an empty after-list.
        1 => both_ways(fluent, |code| dynamic(code, vec![code], vec![])),
        // The same by static laws, defaults both ways.
        2 => both_ways(fluent, |code| static_law(code, vec![code])),
        // A default one way, and a dynamic law with no if-list against it.
        3 => {
            let after = vec![literal(random, names.stride())];
            vec![static_law(one, vec![one]), dynamic(one ^ 1, vec![], after)]
        }
        // It changes at every step.
        4 => both_ways(fluent, |code| dynamic(code, vec![], vec![code ^ 1])),
        // It takes over what another fluent was.
        5 => {
            let source = literal(random, names.fluents.len());
            both_ways(fluent, |code| dynamic(code, vec![], vec![source ^ code & 1]))
        }
        // It follows lower fluents of the same state: an indirect effect of what changes these.
        6 if fluent > 0 => follows(random, fluent, one),
        // One value lasts, and the other is a default.
        7 => vec![dynamic(one, vec![one], vec![one]), static_law(one ^ 1, vec![one ^ 1])],
        // It has one value at all times, by a law without conditions.
        8 => vec![law(Head::Literal(one), vec![], random.chance(1, 2).then(Vec::new))],
        _ => inertia(fluent),
    }
}

/// A fluent that is so exactly if one lower fluent is so, or two are.
fn follows(random: &mut Random, fluent: usize, one: u16) -> Vec<Law> {
    let [first, second] = [fluent; 2].map(|lower| literal(random, lower));
    let against = |cause: u16| static_law(one ^ 1, vec![cause ^ 1]);
    if random.chance(1, 2) {
        return vec![static_law(one, vec![first]), against(first)];
    }
    vec![static_law(one, vec![first, second]), against(first), against(second)]
}

/// Effects, constraints and a few laws of any form.
fn additions(random: &mut Random, names: &Description) -> Vec<Law> {
    let effects = 0..random.below(3 + 2 * names.actions.len());
    let mut laws: Vec<Law> = effects.flat_map(|_| effect(random, names)).collect();
    for _ in 0..random.weighted(&[3, 2, 1]) {
        laws.push(constraint(random, names));
    }
    if random.chance(1, 4) {
        laws.push(any_law(random, names));
    }
    laws
}

/// A literal of one of the first fluents and actions, of so many.
fn literal(random: &mut Random, symbols: usize) -> u16 {
    random.below(2 * symbols) as u16
}

/// The positive literal of an action, or where there is none, any literal.
fn done(random: &mut Random, names: &Description) -> u16 {
    match names.actions.len() {
        0 => literal(random, names.fluents.len()),
        actions => 2 * (names.fluents.len() + random.below(actions)) as u16,
    }
}

/// What an action does: a fluent gets a value, perhaps under conditions before or behind the step, or it gets either.
fn effect(random: &mut Random, names: &Description) -> Vec<Law> {
    let head = literal(random, names.fluents.len());
    let mut after = vec![done(random, names)];
    if random.chance(1, 3) {
        after.push(literal(random, names.stride()));
    }
    match random.below(8) {
        0 => both_ways(usize::from(head / 2), |code| dynamic(code, vec![code], after.clone())),
        1 | 2 => vec![dynamic(head, vec![literal(random, names.fluents.len())], after)],
        _ => vec![dynamic(head, vec![], after)],
    }
}

/// What must not be, at any time or in a step.
fn constraint(random: &mut Random, names: &Description) -> Law {
    let [first, second] = [names.fluents.len(); 2].map(|fluents| literal(random, fluents));
    let doing = done(random, names);
    match random.below(4) {
        0 => law(Head::False, vec![first, second], None),
        1 => law(Head::False, vec![first], Some(vec![doing])),
        _ => law(Head::False, vec![], Some(vec![doing, literal(random, names.stride())])),
    }
}

/// Now and then repeats a literal of a law's list, or sets its complement beside it.
fn roughen(random: &mut Random, law: &mut Law) {
    let lists = [&mut law.ifs].into_iter().chain(&mut law.after);
    for list in lists.filter(|list| (1..MAX_LIST).contains(&list.len())) {
        if random.chance(1, 24) {
            let again = *random.pick(list) ^ u16::from(random.chance(1, 4));
            list.push(again);
        }
    }
}
