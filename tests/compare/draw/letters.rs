//! Capitals brought into a text: names spelled anew where they are declared and used, and the damage that goes with it.

use super::damage::{edit_lines, keys_from, near_key, parts, pick_line, places, split, KEYS};
use super::descriptions::pick_word;
use super::render::line;
use crate::random::Random;

/// Bytes beside the letters, bytes 32 away from a digit or an underscore, and letters of another alphabet.
const NEAR_BYTES: &[u8] = b"@[`{\x7f\x10\x19\xc1\xe1\xda\xfa";

/// Which lines' names are spelled anew.
#[derive(Clone, Copy, Debug, PartialEq, Eq)]
pub enum Lines {
    Declaring,
    Using,
}

impl Lines {
    fn keys(self) -> &'static [&'static [u8]] {
        match self {
            Lines::Declaring => &keys_from(b"fluent")[..2],
            Lines::Using => keys_from(b"state"),
        }
    }
}

/// Brings capitals into most texts; in some they bring a fault.
pub fn put_capitals(random: &mut Random, text: &mut Vec<u8>) {
    if random.chance(3, 10) {
        return;
    }
    let declared = if random.chance(3, 4) { 4 } else { 0 };
    let used = *random.pick(&[0, 1, 3, 4, 4]);
    *text = respelled(random, text, Lines::Declaring, declared);
    *text = respelled(random, text, Lines::Using, used);
    if random.chance(4, 25) {
        edit_lines(text, |lines| put_fault(random, lines));
    }
}

/// The text with names spelled anew in lines of one sort, each name in so many of four cases.
pub fn respelled(random: &mut Random, text: &[u8], lines: Lines, of_four: usize) -> Vec<u8> {
    let mut changed = split(text, b'\n');
    for line in &mut changed {
        let (key, value) = parts(line);
        if lines.keys().contains(&key) && !value.is_empty() {
            let start = line.len() - value.len();
            for name in line[start..].split_mut(|byte| *byte == b',') {
                if random.chance(of_four, 4) {
                    spell(random, name);
                }
            }
        }
    }
    changed.join(&b'\n')
}

/// Spells a word otherwise: without capitals, in capitals, or with the first, any or some letters in the other case.
fn spell(random: &mut Random, word: &mut [u8]) {
    let letters: Vec<usize> = (0..word.len()).filter(|at| word[*at].is_ascii_alphabetic()).collect();
    let Some(first) = letters.first() else { return };
    match random.below(6) {
        0 => word.make_ascii_lowercase(),
        1 => word[*first] ^= 32,
        2 => word.make_ascii_uppercase(),
        3 => word[*random.pick(&letters)] ^= 32,
        _ => letters.iter().for_each(|at| word[*at] ^= 32 * random.below(2) as u8),
    }
}

/// A name is declared again, a key gets capitals, a name's byte changes, or false in any case stands for a literal.
fn put_fault(random: &mut Random, lines: &mut Vec<Vec<u8>>) {
    let sort = *random.pick(&[Lines::Declaring, Lines::Using]);
    let fault = random.below(4);
    let keys = [Lines::Declaring.keys(), KEYS, sort.keys(), keys_from(b"fluent")][fault];
    let at = pick_line(random, lines, keys);
    let (key, value) = parts(&lines[at]);
    let (mut key, mut items) = (key.to_vec(), split(value, b','));
    let place = random.below(items.len());
    match fault {
        0 => return declare_again(random, lines, at),
        1 => key = near_key(random, &key),
        2 => change_byte(random, &mut items[place]),
        _ => {
            items[place] = pick_word(random, "false|false|false|-false").to_vec();
            spell(random, &mut items[place]);
        }
    }
    lines[at] = line(key, &items.join(&b','));
}

/// A name is declared again, as a fluent or an action, with the case of some letters turned round.
fn declare_again(random: &mut Random, lines: &mut Vec<Vec<u8>>, first: usize) {
    let mut later = places(lines, Lines::Declaring.keys());
    later.retain(|at| *at >= first);
    let Some(&last) = later.last() else { return };
    later.extend(vec![last; later.len()]);
    let at = *random.pick(&later);
    let mut name = parts(&lines[first]).1.to_vec();
    spell(random, &mut name);
    // An action may follow a fluent, but not the other way round.
    let is_action = at == last && random.chance(1, 3);
    let key = if is_action { b"action" } else { parts(&lines[at]).0 };
    lines.insert(at + 1, line(key, &name));
}

/// A byte of a name, mostly one that is no letter, is changed by 32 or gives way to one near the letters.
fn change_byte(random: &mut Random, name: &mut [u8]) {
    let is_other = |at: &usize| name[*at].is_ascii_digit() || name[*at] == b'_';
    let others: Vec<usize> = (0..name.len()).filter(is_other).collect();
    let places = [(0..name.len()).collect(), others.repeat(3 * name.len())].concat();
    if !places.is_empty() {
        let byte = &mut name[*random.pick(&places)];
        *byte = [*byte ^ 32, *byte ^ 32, *random.pick(NEAR_BYTES)][random.below(3)];
    }
}
