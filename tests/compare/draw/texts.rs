//! Texts of all kinds, drawn in proportion, and the calls that take a text.

use super::descriptions::{description, without_laws, Size, SMALL};
use super::histories::{explained_values, put_faults, reorder, spoil};
use super::letters::{put_capitals, respelled, Lines};
use super::render::{history_lines, join, log_lists, mixed_lines};
use super::{damage::damage, limits, List};
use crate::call::{Call, Function as F, Part};
use crate::{claims::Claim, random::Random};
use oracle::history::{filled, listed_values};
use oracle::{description::read_description, record::Description, report::output, translation::all_rules};
use oracle::{MAX_ATOMS, MAX_LAWS, MAX_TEXT};

/// A kind of text: its name, how often it is drawn, and what draws it.
type Kind = (&'static str, usize, fn(&mut Random) -> Vec<u8>);

const KINDS: [Kind; 7] = [
    ("text sound", 3_800, |random| whole(random, None, |_, _, _| ())),
    ("text with a spoilt history", 1_700, |random| whole(random, None, spoil)),
    ("text with several bad atoms", 900, |random| {
        // A text has no way to leave an action without a value.
        whole(random, None, |random, made, values| put_faults(random, values, |atom| !made.is_action(atom)))
    }),
    ("text at a limit", 1_200, limits::text),
    ("damaged text", 3_250, damaged),
    ("long text", 80, limits::long_text),
    ("largest text", 3, limits::largest_text),
];

/// One text, with capitals or without, and the name of its kind.
pub fn text(random: &mut Random) -> (&'static str, Vec<u8>) {
    let (kind, _, draw) = KINDS[random.weighted(&KINDS.map(|(_, weight, _)| weight))];
    let mut text = draw(random);
    put_capitals(random, &mut text);
    (kind, text)
}

/// A good description of the given or any size, with a history, which may be spoilt in a few values.
fn whole(random: &mut Random, size: Option<Size>, spoil: fn(&mut Random, &Description, &mut [u8])) -> Vec<u8> {
    let made = description(random, size);
    let mut values = explained_values(random, &made);
    spoil(random, &made, &mut values);
    let mut lists = log_lists(random, &made, &values);
    reorder(random, &mut lists);
    let mut lines = mixed_lines(random, &made);
    lines.extend(history_lines(&made, &lists));
    join(&lines)
}

/// A small text, good or at a limit, and then damaged.
fn damaged(random: &mut Random) -> Vec<u8> {
    let mut text = match random.chance(1, 8) {
        true => limits::text(random),
        false => whole(random, Some(SMALL), |_, _, _| ()),
    };
    damage(random, &mut text);
    text
}

/// One text and all calls that take a text; on some texts also those that take the table that an earlier call wrote.
pub fn list(random: &mut Random) -> List {
    let (kind, text) = text(random);
    let known = Known::new(random, &text);
    let mut calls = known.text_calls(random);
    if known.is_taken && known.values.iter().all(|value| matches!(value, 1 | 2)) && random.chance(1, 3) {
        known.add_complete(random, &mut calls);
    }
    if known.is_taken && random.chance(1, 6) {
        known.add_bad_atoms(random, &mut calls);
    }
    let claim = Claim::Nothing;
    List { kind, calls, claim }
}

/// A text as drawn, then with its used names and then with its declared names spelled anew, each put through the same
/// three calls with buffers of the same content.
pub fn respelled_list(random: &mut Random) -> List {
    let (_, text) = text(random);
    let uses = respelled(random, &text, Lines::Using, 4);
    let declarations = respelled(random, &text, Lines::Declaring, 4);
    // No output has more bytes, and few tables have more words.
    let (out, table) = (any_bytes(random, 400), any_words(random, 2_000));
    let texts = [text, uses, declarations].map(Part::Bytes);
    let calls = texts.iter().flat_map(|text| {
        [
            Call::new(F::Report, [text.clone(), out.clone()]),
            Call::new(F::CausalReading, [text.clone()]),
            Call::new(F::Translate, [text.clone(), table.clone()]),
        ]
    });
    let (kind, calls, claim) = ("text respelled", calls.collect(), Claim::Respelled);
    List { kind, calls, claim }
}

/// A buffer of so many words to be written to; what it holds beforehand looks random.
pub fn any_words(random: &mut Random, count: usize) -> Part {
    let next = |word: &u16| Some(word.wrapping_mul(5).wrapping_add(7_777));
    Part::Words(std::iter::successors(Some(random.word()), next).take(count).collect())
}

/// The same in bytes.
pub fn any_bytes(random: &mut Random, count: usize) -> Part {
    let words = any_words(random, count);
    Part::Bytes(words.as_words().iter().map(|word| *word as u8).collect())
}

/// A text and what the oracle knows of it. Where no description is taken, all of it counts as one, of five atoms.
struct Known<'a> {
    text: &'a [u8],
    is_taken: bool,
    description: &'a [u8],
    history: &'a [u8],
    /// Words of the translation.
    need: usize,
    /// The time of each literal, by which the rules of a translation can be levelled.
    times: Part,
    /// What the history's lines list, and its values; true for all atoms where it cannot be read.
    listed: Vec<u8>,
    values: Vec<u8>,
}

impl<'a> Known<'a> {
    /// A text over 65,535 bytes may still begin with a description of fewer.
    fn new(random: &mut Random, text: &'a [u8]) -> Self {
        let read = read_description(&text[..text.len().min(MAX_TEXT)], MAX_LAWS);
        let is_taken = read.is_ok();
        let read = read.unwrap_or(without_laws(1, vec![vec![]; 3], 2));
        let anywhere = random.below(text.len() + 1);
        let start = if is_taken { read.length } else { anywhere };
        let listed = listed_values(&read, &text[start..]).unwrap_or(vec![1; read.atoms()]);
        let time = |code| (code / 2 / read.stride()) as u16;
        Known {
            text,
            is_taken,
            description: if is_taken { &text[..start] } else { text },
            history: &text[start..],
            need: all_rules(&read).words.len(),
            times: Part::Words((0..2 * read.atoms()).map(time).collect()),
            values: filled(&read, &listed),
            listed,
        }
    }

    /// The calls that take a text; the report goes into a buffer longer than what is printed, and into a shorter one.
    fn text_calls(&self, random: &mut Random) -> Vec<Call> {
        let printed = output(self.text).len();
        let longer = printed + random.below(20);
        let shorter = random.below(printed + 1);
        let length = self.length(random);
        let [text, history] = [self.text, self.history].map(Part::bytes);
        let values = self.some_values(random);
        // The description with the history behind it, or alone.
        let front = |random: &mut Random| Part::bytes(random.pick(&[self.description, self.text]));
        vec![
            Call::new(F::Report, [text.clone(), any_bytes(random, longer)]),
            Call::new(F::Report, [text.clone(), any_bytes(random, shorter)]),
            Call::new(F::Translate, [front(random), self.table(random)]),
            Call::new(F::ReadHistory, [front(random), history, any_bytes(random, length)]),
            Call::new(F::CheckHistory, [front(random), values, self.table(random)]),
            Call::new(F::CausalReading, [text]),
        ]
    }

    /// For one value an atom: the translation's table is judged by the engine and by the completion formulas, without
    /// levels and with times as levels, and the history check judges the values.
    fn add_complete(&self, random: &mut Random, calls: &mut Vec<Call>) {
        let [text, values] = [self.description, &self.values].map(Part::bytes);
        let table = Part::Left(calls.len(), 1);
        calls.extend([
            Call::new(F::Translate, [text.clone(), any_words(random, self.need)]),
            Call::new(F::CheckSet, [values.clone(), table.clone()]),
            Call::new(F::CheckCompletion, [values.clone(), table.clone()]),
            Call::new(F::CheckByLevels, [values.clone(), table, self.times.clone()]),
            Call::new(F::CheckHistory, [text, values, any_words(random, self.need)]),
        ]);
    }

    /// Values with bad atoms of any sort: the table that the history check leaves is judged by the formulas.
    fn add_bad_atoms(&self, random: &mut Random, calls: &mut Vec<Call>) {
        let mut values = self.values.clone();
        put_faults(random, &mut values, |_| true);
        let [text, values] = [self.description, &values].map(Part::bytes);
        let table = Part::Left(calls.len(), 2);
        calls.extend([
            Call::new(F::CheckHistory, [text, values.clone(), any_words(random, self.need)]),
            Call::new(F::CheckCompletion, [values.clone(), table.clone()]),
            Call::new(F::CheckByLevels, [values, table, self.times.clone()]),
        ]);
    }

    /// A buffer for a table: as long as needed, one word short, longer, or of any length.
    fn table(&self, random: &mut Random) -> Part {
        let (need, longer) = (self.need, self.need + random.between(1, 40));
        let shorter = random.below(need + 1);
        let room = *random.pick(&[need, need, need, need, need - 1, longer, longer, shorter]);
        any_words(random, room)
    }

    /// How many values are lent: mostly as many as there are atoms.
    fn length(&self, random: &mut Random) -> usize {
        let atoms = self.values.len();
        let odd = *random.pick(&[0, MAX_ATOMS, MAX_ATOMS + 1, 2_000, 70_000]);
        [atoms - 1, atoms + 1, odd, atoms][random.weighted(&[1, 1, 1, 13])]
    }

    /// Values for the history check: the history's own or only what it lists, often spoilt in one place or in several.
    fn some_values(&self, random: &mut Random) -> Part {
        let mut values = [&self.listed, &self.values][random.weighted(&[1, 5])].clone();
        values.resize(self.length(random), 2);
        let any = random.byte();
        match (random.below(12), values.len()) {
            (way @ 0..=4, length @ 1..) => {
                let value = &mut values[random.below(length)];
                *value = [0, 3, 4, any, 3 - (*value).min(3)][way];
            }
            (5 | 6, 1..) => put_faults(random, &mut values, |_| true),
            _ => (),
        }
        Part::Bytes(values)
    }
}

#[cfg(test)]
mod tests {
    use super::*;

    #[test]
    fn every_kind_is_drawn() {
        let mut counts = KINDS.map(|(kind, _, _)| (kind, 0));
        for number in 0..12_000 {
            let drawn = list(&mut Random::of_case(1, number));
            let known = counts.iter_mut().find(|(kind, _)| *kind == drawn.kind);
            known.expect("a known kind").1 += 1;
        }
        assert!(counts.iter().all(|(_, count)| *count > 0), "{counts:?}");
    }
}
