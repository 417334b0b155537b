//! Random descriptions.

use super::damage::KEYS;
use crate::random::Random;
use oracle::record::{Description, Head, Law};
use oracle::{MAX_ACTIONS, MAX_FLUENTS, MAX_HORIZON, MAX_LAWS, MAX_LIST, MAX_NAME};

/// The most steps, fluents, actions and laws that a description may get.
pub type Size = [usize; 4];

/// Small ones are drawn most, for they cost least and show most.
pub const SMALL: Size = [3, 3, 2, 9];
const SIZES: [(Size, usize); 4] = [
    (SMALL, 58),
    ([8, 8, 4, 28], 32),
    ([MAX_HORIZON, 4, 2, 12], 6),
    ([MAX_HORIZON, MAX_FLUENTS, MAX_ACTIONS, MAX_LAWS], 4),
];

/// A random description within a given size, or within one that is drawn too.
pub fn description(random: &mut Random, given: Option<Size>) -> Description {
    let drawn = random.weighted(&SIZES.map(|(_, weight)| weight));
    let [horizon, fluents, actions, laws] = given.unwrap_or(SIZES[drawn].0);
    let fluents = random.between(1, fluents);
    let actions = random.between(0, actions);
    let names = names(random, fluents + actions);
    let mut made = without_laws(random.between(1, horizon), names, fluents);
    made.laws = random_laws(random, &made, laws);
    made
}

/// A description without laws, of which the first so many names are fluents and the others actions.
pub fn without_laws(horizon: usize, mut names: Vec<Vec<u8>>, fluents: usize) -> Description {
    Description { horizon, actions: names.split_off(fluents), fluents: names, laws: vec![], length: 0, lines: 0 }
}

pub fn law(head: Head, ifs: Vec<u16>, after: Option<Vec<u16>>) -> Law {
    Law { head, ifs, after }
}

/// One of the words that stand between bars.
pub fn pick_word<'a>(random: &mut Random, words: &'a str) -> &'a [u8] {
    let words: Vec<&str> = words.split('|').collect();
    random.pick(&words).as_bytes()
}

/// So many different names. Each is drawn up to 50 times before one is made up by counting.
pub fn names(random: &mut Random, count: usize) -> Vec<Vec<u8>> {
    let mut names: Vec<Vec<u8>> = Vec::new();
    for number in 0..count {
        let mut drawn = (0..50).map(|_| name(random));
        let fresh = drawn.find(|name| name != b"false" && !names.contains(name));
        names.push(fresh.unwrap_or_else(|| format!("name_number_{number:04}").into_bytes()));
    }
    names
}

/// A key, a name that is easy to mix up with the word false or with another one, or any name.
fn name(random: &mut Random) -> Vec<u8> {
    let longest = if random.chance(1, 10) { MAX_NAME } else { 4 };
    let length = random.between(1, longest);
    match random.below(16) {
        0 => random.pick(KEYS).to_vec(),
        1 => pick_word(random, "false_|fals|falsee|a|aa|a_|a0|aaaaaaaaaaaaaaaa").to_vec(),
        _ => spelled(random, length),
    }
}

/// A random word of a given length that is spelled as a name.
pub fn spelled(random: &mut Random, length: usize) -> Vec<u8> {
    let bytes = b"abcdefghijklmnopqrstuvwxyz0123456789_";
    let byte = |place| bytes[random.below(if place == 0 { 26 } else { bytes.len() })];
    (0..length).map(byte).collect()
}

/// The laws of a description whose names are settled, mostly in random order.
fn random_laws(random: &mut Random, names: &Description, limit: usize) -> Vec<Law> {
    let limit = if random.chance(1, 12) { 0 } else { limit };
    let explaining = if random.chance(9, 10) { limit } else { 0 };
    let mut laws = explaining_laws(random, names, explaining);
    let more = random.below(limit - laws.len() + 1);
    let more = if random.chance(1, 2) { more.min(3) } else { more };
    for _ in 0..more {
        let draw = if random.chance(3, 5) { effect } else { any_law };
        laws.push(draw(random, names));
    }
    if random.chance(3, 4) {
        random.shuffle(&mut laws);
    }
    laws
}

/// Laws that let a fluent keep its value, or take any value, so that many steps have explained successors.
fn explaining_laws(random: &mut Random, names: &Description, limit: usize) -> Vec<Law> {
    let mut laws = Vec::new();
    for fluent in 0..names.fluents.len().min(limit / 2) {
        let way = random.below(60);
        for code in [2 * fluent as u16, 2 * fluent as u16 + 1] {
            let after = match way {
                0 => continue,
                1..=9 => None,
                10..=12 => Some(vec![]),
                _ => Some(vec![code]),
            };
            laws.push(law(Head::Literal(code), vec![code], after));
        }
    }
    laws
}

/// False in so many of 40 cases, or a fluent literal.
fn head(random: &mut Random, names: &Description, false_of_forty: usize) -> Head {
    match random.chance(false_of_forty, 40) {
        true => Head::False,
        false => Head::Literal(random.below(2 * names.fluents.len()) as u16),
    }
}

/// An effect of an action, or of the state before; or a constraint now and then.
pub fn effect(random: &mut Random, names: &Description) -> Law {
    let (fluents, all) = (2 * names.fluents.len(), 2 * names.stride());
    let head = head(random, names, 5);
    let first = if all > fluents { fluents } else { 0 };
    let mut after = vec![random.between(first, all - 1) as u16];
    let more = random.below(if head == Head::False { 5 } else { 3 });
    after.extend(codes(random, more, all));
    let has_if = random.chance(1, 4);
    law(head, codes(random, usize::from(has_if), fluents), Some(after))
}

/// A law of any form the contract allows, repeated and contradictory literals included.
pub fn any_law(random: &mut Random, names: &Description) -> Law {
    let head = head(random, names, 8);
    let mut list = |symbols: usize| {
        let longest = if random.chance(1, 6) { MAX_LIST } else { 3 };
        let length = random.between(0, longest);
        codes(random, length, 2 * symbols)
    };
    let (ifs, after) = (list(names.fluents.len()), list(names.stride()));
    law(head, ifs, random.chance(1, 2).then_some(after))
}

/// So many literals whose codes lie below a limit.
pub fn codes(random: &mut Random, length: usize, limit: usize) -> Vec<u16> {
    (0..length).map(|_| random.below(limit) as u16).collect()
}
