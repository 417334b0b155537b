//! Damage done to a good text, from single bytes to whole lines.

use super::descriptions::pick_word;
use super::limits::HORIZONS;
use super::render::{join, line};
use crate::random::Random;

/// Words as byte strings.
macro_rules! words {
    ($($word:tt)*) => { &[$(stringify!($word).as_bytes()),*] };
}

/// All keys. Behind `horizon` and `end` come the two that declare a name; lines with the others use names. From `if` on
/// they are those of laws, from `static` on those that begin a law (`by` does not), from `default` on of short laws.
#[rustfmt::skip]
pub const KEYS: &[&[u8]] = words![
    horizon end fluent action state act if after static dynamic default inertial causes by nonexecutable
];

/// The keys from the given one on.
pub fn keys_from(first: &[u8]) -> &'static [&'static [u8]] {
    let start = KEYS.iter().position(|key| *key == first);
    &KEYS[start.expect("one of the keys")..]
}

/// Values that fit some place and not others.
const VALUES: &str = "|false|-false|--a|-|a|A|0a|_a|a-|a b|aB|a.|1|30|=|a=b|,|a,a|a,-a|\u{e9}|\r";

/// Values for lines of laws, where + is a fluent's literal and * an action's: none, one, or as many as may be or more.
pub const LAW_VALUES: &str = "|false|undeclared|+|*|*|+,*|+,+,+,+,+,+|+,+,+,+,+,+,*|+,+,+,+,+,+,false|-,+,+,+,+,+,+";

/// A line's key and value; a line without an equals sign is all key.
pub fn parts(line: &[u8]) -> (&[u8], &[u8]) {
    match line.iter().position(|byte| *byte == b'=') {
        Some(at) => (&line[..at], &line[at + 1..]),
        None => (line, b""),
    }
}

/// The parts of a text or a list between single bytes of one kind.
pub fn split(bytes: &[u8], between: u8) -> Vec<Vec<u8>> {
    bytes.split(|byte| *byte == between).map(<[u8]>::to_vec).collect()
}

/// Edits the lines of a text that has any; what stands behind the last line's end is no line, and stays.
pub fn edit_lines(text: &mut Vec<u8>, edit: impl FnOnce(&mut Vec<Vec<u8>>)) {
    let mut lines = split(text, b'\n');
    let rest = lines.pop().unwrap_or_default();
    if !lines.is_empty() {
        edit(&mut lines);
        *text = [join(&lines), rest].concat();
    }
}

/// The places of lines with some keys.
pub fn places(lines: &[Vec<u8>], keys: &[&[u8]]) -> Vec<usize> {
    let has_key = |at: &usize| keys.contains(&parts(&lines[*at]).0);
    (0..lines.len()).filter(has_key).collect()
}

/// A line with one of the keys, each key about as likely as another however many lines have it; or else any line.
pub fn pick_line(random: &mut Random, lines: &[Vec<u8>], keys: &[&[u8]]) -> usize {
    let with_key = places(lines, &[*random.pick(keys)]);
    let all = (0..lines.len()).collect();
    let mut found = [with_key, places(lines, keys), all].into_iter();
    *random.pick(&found.find(|found| !found.is_empty()).expect("there are lines"))
}

/// Damages a text at one to three places.
pub fn damage(random: &mut Random, text: &mut Vec<u8>) {
    let times = if random.chance(3, 4) { 1 } else { random.between(2, 3) };
    for _ in 0..times {
        match random.below(10) {
            0..=2 => damage_byte(random, text),
            3 | 4 => damage_end(random, text),
            _ => edit_lines(text, |lines| damage_line(random, lines)),
        }
    }
}

/// One byte changed, taken out or put in, often one that stands for something.
fn damage_byte(random: &mut Random, text: &mut Vec<u8>) {
    let at = random.below(text.len() + 1);
    match random.below(6) {
        _ if at == text.len() => text.push(random.byte()),
        0 | 1 => text[at] = random.byte(),
        2 => text[at] ^= 1 << random.below(8),
        3 => drop(text.remove(at)),
        4 => text.insert(at, random.byte()),
        _ => text.insert(at, *random.pick(b"\n=,-_ \r\0af0Z")),
    }
}

/// The text ends too early (without its last byte, behind some line, or anywhere), or more stands behind it.
fn damage_end(random: &mut Random, text: &mut Vec<u8>) {
    let ends: Vec<usize> = (0..text.len()).filter(|at| text[*at] == b'\n').collect();
    match random.below(16) {
        0 | 1 => drop(text.pop()),
        2 | 3 if !ends.is_empty() => text.truncate(random.pick(&ends) + 1),
        2..=7 => text.truncate(random.below(text.len() + 1)),
        8 => text.push(random.byte()),
        9 => text.extend_from_within(..),
        _ => text.extend(pick_word(random, "\n|end=\n|state=\n|x")),
    }
}

/// A line is changed, or moved. Lines of short laws have a share of their own.
fn damage_line(random: &mut Random, lines: &mut Vec<Vec<u8>>) {
    let at = match random.chance(1, 3) {
        true => short_line(random, lines),
        false => pick_line(random, lines, KEYS),
    };
    match random.chance(1, 3) {
        true => move_line(random, lines, at),
        false => lines[at] = changed_line(random, lines, at),
    }
}

/// The place of a line of a short law; where there is none with the key that is drawn, a good law with it is put in.
fn short_line(random: &mut Random, lines: &mut Vec<Vec<u8>>) -> usize {
    let key = *random.pick(keys_from(b"default"));
    if places(lines, &[key]).is_empty() {
        let first = if key == b"by" { b"causes" } else { key };
        let law = law_lines(random, lines, first, "+", "+");
        let end = places(lines, &[b"end"]).first().copied().unwrap_or(0);
        lines.splice(end..end, law);
    }
    *random.pick(&places(lines, &[key]))
}

/// A line taken out, doubled, exchanged or moved, or another put beside it.
fn move_line(random: &mut Random, lines: &mut Vec<Vec<u8>>, at: usize) {
    let other = random.below(lines.len());
    let next = (at + 1) % lines.len();
    match random.below(8) {
        0 => drop(lines.remove(at)),
        1 | 2 => lines.insert(at, lines[*random.pick(&[at, other])].clone()),
        3 | 4 => lines.swap(at, *random.pick(&[next, other])),
        5 => lines[at.min(other)..=at.max(other)].rotate_left(1),
        6 => lines.insert(at, line(random.pick(KEYS), pick_word(random, VALUES))),
        _ => lines.insert(at + 1, line(random.pick(&["fluent", "action"]), b"late")),
    }
}

/// A line with another key or value, or with signs where they should not be.
fn changed_line(random: &mut Random, lines: &[Vec<u8>], at: usize) -> Vec<u8> {
    let (key, value) = parts(&lines[at]);
    match random.below(24) {
        0 => line(random.pick(KEYS), value),
        1 | 2 => line(random.pick(keys_from(b"if")), value),
        3..=5 => line(near_key(random, key), value),
        6 => line(key, pick_word(random, VALUES)),
        7..=10 => line(key, &law_value(random, lines, LAW_VALUES)),
        11 | 12 => line(key, parts(random.pick::<Vec<u8>>(lines)).1),
        13 => line(key, &[value, pick_word(random, "-|_|,|=| |0|a|Z|\r")].concat()),
        14 => [key, value].concat(),
        15 => line(key, &line("", value)),
        16 => line("", &line(key, value)),
        17 | 18 if key == b"horizon" => line(key, pick_word(random, HORIZONS)),
        17 | 18 => line(key, b"false"),
        _ => line(key, &damaged_list(random, value)),
    }
}

/// A word near a key: with capitals, with letters too few, or with a letter or a space too many.
pub fn near_key(random: &mut Random, key: &[u8]) -> Vec<u8> {
    let mut near = key.to_vec();
    let last = key.len().saturating_sub(1);
    let at = [0, last, random.below(last + 1)][random.below(3)];
    match random.below(8) {
        0 | 1 => near[at..key.len().min(at + 1)].make_ascii_uppercase(),
        2 => near.make_ascii_uppercase(),
        3..=5 => near.truncate(at.max(1)),
        6 => near.insert(at, *random.pick(b"es ")),
        _ => near.push(*random.pick(b"es ")),
    }
    near
}

/// The lines of a law that begins with the given key, with values for heads and for lists.
pub fn law_lines(random: &mut Random, lines: &[Vec<u8>], key: &[u8], heads: &str, lists: &str) -> Vec<Vec<u8>> {
    let (first, others): (&str, &[&str]) = match key {
        b"static" => (heads, &["if"]),
        b"dynamic" => (heads, &["if", "after"]),
        b"causes" => (heads, &["by"]),
        b"nonexecutable" => (lists, &[]),
        _ => (heads, &[]),
    };
    let mut law = vec![line(key, &law_value(random, lines, first))];
    law.extend(others.iter().map(|key| line(key, &law_value(random, lines, lists))));
    law
}

/// One of the values between bars, with literals of declared names.
fn law_value(random: &mut Random, lines: &[Vec<u8>], values: &str) -> Vec<u8> {
    let items = split(pick_word(random, values), b',').into_iter();
    let items = items.map(|item| match &item[..] {
        b"+" => declared(random, lines, b"fluent"),
        b"*" => declared(random, lines, b"action"),
        _ => item,
    });
    items.collect::<Vec<_>>().join(&b',')
}

/// A literal of a name that some line with the key declares, or would declare.
fn declared(random: &mut Random, lines: &[Vec<u8>], key: &[u8]) -> Vec<u8> {
    let lines = lines.iter().map(|line| parts(line)).filter(|(found, _)| *found == key);
    let names: Vec<&[u8]> = lines.map(|(_, name)| name).collect();
    let name = if names.is_empty() { b"undeclared" } else { *random.pick(&names) };
    [pick_word(random, "||-"), name].concat()
}

/// A list with commas in wrong places, or literals repeated, contradicted or turned round.
fn damaged_list(random: &mut Random, value: &[u8]) -> Vec<u8> {
    let mut items = split(value, b',');
    let at = random.below(items.len());
    let item = items[at].clone();
    let name = item.strip_prefix(b"-");
    let opposite = name.map_or([b"-", &item[..]].concat(), <[u8]>::to_vec);
    let place = *random.pick(&[0, at, items.len()]);
    match random.below(7) {
        0..=2 => items.insert(place, Vec::new()),
        3 => items.insert(place, item),
        4 => items.insert(place, opposite),
        5 => items[at] = opposite,
        _ => items.extend(vec![item; 6]),
    }
    items.join(&b',')
}
