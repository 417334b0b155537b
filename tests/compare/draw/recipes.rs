//! Recipes cut in two and joined (change request 6): histories that pass, found step by step, and the calls on them.
//!
//! A passed history cut in two gives two passed ones, and two passed ones that fit join into a passed one. Of recipes
//! that do not fit, are too long together or are cut at a wrong place nothing is claimed.

use super::causes::{inertia, laws};
use super::descriptions::names;
use super::histories::{first_state, mend, reorder};
use super::letters::{respelled, Lines};
use super::render::{history_lines, join as lines_joined, log_lists, mixed_lines};
use super::List;
use crate::call::{Call, Function, Part};
use crate::claims::Claim::{AllPass, Nothing};
use crate::random::Random;
use oracle::causal::{causal_reading, Causal};
use oracle::halves::{self, written, Parts, Recipe};
use oracle::record::Description;
use oracle::translation::all_rules;
use oracle::MAX_HORIZON;

/// How often laws are drawn for histories that are looked for.
const LAWS: usize = 60;
/// How often a state to begin in is drawn under the same laws.
const STARTS: usize = 6;
/// How often a next state is looked for before a history is given up.
const TRIES: usize = 16;
/// Up to so many atoms every cut goes through every call; of larger recipes three do.
const FEW_ATOMS: usize = 40;

/// Steps, fluents and actions of a recipe, each from the lowest to the highest, and how often such a recipe is drawn.
/// Small ones are drawn most; long ones with few names and wide ones with few steps cost little more. Each cut of a
/// recipe is checked, so that a large one costs as much as some hundred small ones.
const SIZES: [([(usize, usize); 3], usize); 6] = [
    ([(2, 4), (1, 3), (0, 2)], 70),
    ([(2, 10), (2, 8), (0, 4)], 42),
    ([(11, 29), (1, 5), (0, 3)], 16),
    ([(MAX_HORIZON, MAX_HORIZON), (1, 4), (0, 2)], 30),
    ([(2, 4), (22, 24), (6, 8)], 41),
    ([(20, MAX_HORIZON), (20, 24), (5, 8)], 1),
];

/// How often recipes are cut, joined, put together though they do not fit or are too long, and cut at a wrong place.
const KINDS: [usize; 5] = [36, 30, 28, 6, 18];

/// A list of calls on recipes that are cut or joined.
pub fn list(random: &mut Random) -> List {
    let (kind, claim, calls) = match random.weighted(&KINDS) {
        0 => ("recipe cut", AllPass, cuts(random)),
        1 => ("recipes joined", AllPass, joined(random)),
        2 => ("recipes that do not fit", Nothing, put_after(pair(random, false))),
        3 => ("recipes too long", Nothing, put_after(too_long(random))),
        _ => ("recipe cut at a wrong place", Nothing, wrong_cuts(random)),
    };
    List { kind, calls, claim }
}

/// A recipe that passes, cut after every step; then the whole once more, which must be judged as before.
fn cuts(random: &mut Random) -> Vec<Call> {
    let (whole, chosen) = whole(random);
    let mut calls = vec![];
    whole.ask(&mut calls, true);
    let last = whole.recipe.steps() - 1;
    for steps in 1..=last {
        let in_full = whole.recipe.values.len() <= FEW_ATOMS || [1, chosen, last].contains(&steps);
        for half in whole.cut(steps) {
            half.ask(&mut calls, in_full);
        }
    }
    whole.ask(&mut calls, false);
    calls
}

/// Two recipes that pass and fit, the two joined, and the joined one cut again.
fn joined(random: &mut Random) -> Vec<Call> {
    let [first, second] = pair(random, true);
    let whole = first.join(&second).expect("they fit");
    let mut calls = vec![];
    for each in [&first, &second, &whole] {
        each.ask(&mut calls, true);
    }
    for half in whole.cut(first.recipe.steps()) {
        half.ask(&mut calls, false);
    }
    calls
}

/// Two recipes that pass but cannot be joined, and the two put together all the same.
fn put_after([first, second]: [Written; 2]) -> Vec<Call> {
    let recipe = halves::put_together(&first.recipe, &second.recipe);
    let text = halves::put_texts_together(&first.text, &second.text).expect("both are whole texts");
    let mut calls = vec![];
    first.ask(&mut calls, false);
    second.ask(&mut calls, false);
    Written { recipe, text }.ask(&mut calls, true);
    calls
}

/// A recipe that passes, and halves with wrong values, with another first state, and with wrong lines.
fn wrong_cuts(random: &mut Random) -> Vec<Call> {
    let (whole, steps) = whole(random);
    let mut calls = vec![];
    whole.ask(&mut calls, false);
    for recipe in wrong_values(random, &whole.recipe, steps) {
        let lines = mixed_lines(random, &recipe.description);
        let text = spelled(random, &lines);
        Written { recipe, text }.ask(&mut calls, false);
    }
    let [_, Written { recipe: mut second, .. }] = whole.cut(steps);
    let turned = random.below(second.first_state().len());
    second.values[turned] = 3 - second.values[turned];
    Written::new(random, second).ask(&mut calls, true);
    for text in wrong_texts(&whole.text, steps) {
        ask_by_lines(&mut calls, &text, whole.recipe.values.len());
    }
    whole.ask(&mut calls, false);
    calls
}

/// Values cut at wrong places near a right cut, which is after so many steps.
fn wrong_values(random: &mut Random, whole: &Recipe, steps: usize) -> Vec<Recipe> {
    let Recipe { description, values } = whole;
    let (fluents, stride) = (description.fluents.len(), description.stride());
    let (start, left) = (steps * stride, whole.steps() - steps);
    let second = left * stride + fluents;
    let of = |horizon: usize, values: &[u8]| Recipe::new(description, horizon, values.to_vec());
    let mut wrong = vec![
        // The second half without its first state; the first half without its last one; the shared state kept twice.
        of(left, &values[start + fluents..]),
        of(steps, &values[..start]),
        of(whole.steps(), &[&values[..start + fluents], &values[start..]].concat()),
        // A right half with the whole's horizon, and the whole with a half's.
        of(whole.steps(), &values[start..]),
        of(left, values),
        // As many values as the second half has, from one value or one step too early; and the second half in the state
        // in which the whole begins.
        of(left, &values[start - 1..][..second]),
        of(left, &values[start - stride..][..second]),
        of(left, &[&values[..fluents], &values[start + fluents..]].concat()),
    ];
    if stride > fluents {
        // The first half one action short.
        let action = start - random.between(1, stride - fluents);
        let short = [&values[..action], &values[action + 1..start + fluents]].concat();
        wrong.push(of(steps, &short));
    }
    wrong
}

/// Texts cut at wrong lines near a right cut, which is after so many steps.
fn wrong_texts(text: &[u8], steps: usize) -> [Vec<u8>; 5] {
    let Parts { laws, history } = halves::parts(text).expect("it is a whole text");
    let (first, second) = (&history[..=2 * steps], &history[2 * steps..]);
    let horizon = text.split_inclusive(|byte| *byte == b'\n').next().unwrap_or_default();
    [
        // The shared state line kept twice, or left out; one half without it.
        written(&laws, &[first, second].concat()),
        written(&laws, &[&first[..2 * steps], &second[1..]].concat()),
        written(&laws, &first[..2 * steps]),
        written(&laws, &second[1..]),
        // The first half under the whole's horizon line.
        [horizon, &laws.concat(), &first.concat(), b"end=\n"].concat(),
    ]
}

/// A recipe and its text.
#[derive(Clone, Debug, PartialEq, Eq)]
struct Written {
    recipe: Recipe,
    text: Vec<u8>,
}

impl Written {
    /// The text has laws short or long, act lines with or without what was not done, lists in any order, and capitals.
    fn new(random: &mut Random, recipe: Recipe) -> Self {
        let Recipe { description, values } = &recipe;
        let mut lists = log_lists(random, description, values);
        reorder(random, &mut lists);
        let mut lines = mixed_lines(random, description);
        lines.extend(history_lines(description, &lists));
        let text = spelled(random, &lines);
        Written { recipe, text }
    }

    /// Both halves, the values cut by themselves and the lines by themselves.
    fn cut(&self, steps: usize) -> [Written; 2] {
        let (first, second) = halves::cut(&self.recipe, steps).expect("it has more steps");
        let texts = halves::cut_text(&self.text, steps).expect("it has more steps");
        [(first, texts.0), (second, texts.1)].map(|(recipe, text)| Written { recipe, text })
    }

    /// The two joined, the values by themselves and the lines by themselves, if both find that they fit.
    fn join(&self, second: &Written) -> Option<Written> {
        let recipe = halves::join(&self.recipe, &second.recipe);
        let text = halves::join_texts(&self.text, &second.text);
        assert_eq!(recipe.is_some(), text.is_some(), "values and lines fit alike");
        recipe.zip(text).map(|(recipe, text)| Written { recipe, text })
    }

    /// The history check in a table just long enough, and if it has a verdict, the engine on the words left there; in
    /// full, all that reads the history's lines too, and the completion formulas on the translation.
    fn ask(&self, calls: &mut Vec<Call>, in_full: bool) {
        let Recipe { description, values } = &self.recipe;
        let is_judged = description.horizon <= MAX_HORIZON && description.atoms() == values.len();
        // No translation has such a word.
        let table = Part::Words(vec![50_000; all_rules(description).words.len()]);
        let [text, values] = [&self.text, values].map(Part::bytes);
        let lent = [text.clone(), values.clone(), table.clone()];
        calls.push(Call::new(Function::CheckHistory, lent));
        if is_judged {
            let left = Part::Left(calls.len() - 1, 2);
            calls.push(Call::new(Function::CheckSet, [values.clone(), left]));
        }
        if in_full {
            ask_by_lines(calls, &self.text, self.recipe.values.len());
            calls.push(Call::new(Function::Translate, [text, table]));
        }
        if in_full && is_judged {
            let left = Part::Left(calls.len() - 1, 1);
            calls.push(Call::new(Function::CheckCompletion, [values, left]));
        }
    }
}

/// The calls that read a history's lines, with more room than is printed and so many values lent.
fn ask_by_lines(calls: &mut Vec<Call>, text: &[u8], atoms: usize) {
    let end = b"\nend=\n";
    let found = text.windows(end.len()).position(|bytes| bytes == end);
    let (description, history) = text.split_at(found.map_or(text.len(), |at| at + end.len()));
    let [text, description, history] = [text, description, history].map(Part::bytes);
    let lent = [description, history, Part::Bytes(vec![7; atoms])];
    calls.push(Call::new(Function::ReadHistory, lent));
    calls.push(Call::new(Function::CausalReading, [text.clone()]));
    calls.push(Call::new(Function::Report, [text, Part::bytes([b'.'; 400])]));
}

/// Lines as one text, in half of the cases with capitals.
fn spelled(random: &mut Random, lines: &[Vec<u8>]) -> Vec<u8> {
    let text = lines_joined(lines);
    if random.chance(1, 2) {
        return text;
    }
    let text = respelled(random, &text, Lines::Declaring, 2);
    respelled(random, &text, Lines::Using, 2)
}

/// A recipe that passes, of 2 to 30 steps, and a number of steps after which it may be cut.
fn whole(random: &mut Random) -> (Written, usize) {
    let names = settled(random);
    let [whole] = passed(random, &names, [names.horizon], true);
    (whole, random.between(1, names.horizon - 1))
}

/// Two recipes that pass, of at most 30 steps together.
fn pair(random: &mut Random, fits: bool) -> [Written; 2] {
    let names = settled(random);
    let first = drawn(random, (1, names.horizon - 1));
    passed(random, &names, [first, names.horizon - first], fits)
}

/// Two recipes that pass and fit, but have over 30 steps together.
fn too_long(random: &mut Random) -> [Written; 2] {
    let names = settled(random);
    let first = drawn(random, (1, MAX_HORIZON));
    let second = drawn(random, (MAX_HORIZON + 1 - first, MAX_HORIZON));
    passed(random, &names, [first, second], true)
}

/// Recipes that pass, of so many steps each, under one description with these names. Of those in which little changes
/// most are passed over. The last laws make every fluent inertial: each state may last then, so that all is found.
fn passed<const N: usize>(random: &mut Random, names: &Description, steps: [usize; N], fits: bool) -> [Written; N] {
    let mut description = names.clone();
    for tries in 0..=LAWS {
        description.laws = match tries {
            LAWS => (0..names.fluents.len()).flat_map(inertia).collect(),
            _ => laws(random, names),
        };
        let found = walks(random, &description, steps, fits);
        let is_good = |found: &[Recipe; N]| tries == LAWS || found.iter().any(is_busy) || random.chance(1, 4);
        if let Some(good) = found.filter(is_good) {
            return good.map(|recipe| Written::new(random, recipe));
        }
    }
    unreachable!("each state may last");
}

/// Histories that pass, of so many steps each, if they are found. The second begins where the first ends, or if they
/// are not to fit, in another state.
fn walks<const N: usize>(random: &mut Random, laws: &Description, all: [usize; N], fits: bool) -> Option<[Recipe; N]> {
    let mut made: Vec<Recipe> = vec![];
    for steps in all {
        let end = made.last().map(|last| truths_of(last.last_state()));
        let found = (0..STARTS).find_map(|_| {
            let start = match &end {
                None => first_state(random, laws),
                Some(end) if fits => end.clone(),
                Some(end) => elsewhere(random, laws, end),
            };
            walk(random, laws, start, steps)
        });
        made.push(found?);
    }
    made.try_into().ok()
}

/// A state other than the given one, often one much like it.
fn elsewhere(random: &mut Random, laws: &Description, state: &[bool]) -> Vec<bool> {
    let any = first_state(random, laws);
    let mut other = random.pick(&[state, state, state, &any]).to_vec();
    for _ in 0..random.between(1, 2) {
        turn(random, &mut other);
    }
    if other == state {
        turn(random, &mut other);
    }
    other
}

/// Turns one fluent of a state round.
fn turn(random: &mut Random, state: &mut [bool]) {
    let fluent = random.below(state.len());
    state[fluent] = !state[fluent];
}

/// A number from the lowest to the highest, the two ends more often than others.
fn drawn(random: &mut Random, (low, high): (usize, usize)) -> usize {
    let any = random.between(low, high);
    *random.pick(&[low, high, any, any])
}

/// Names and a horizon for one recipe or for two joined. They are settled before any laws are, so that no size is drawn
/// less because fewer of its laws have long histories.
fn settled(random: &mut Random) -> Description {
    let (ranges, _) = SIZES[random.weighted(&SIZES.map(|(_, weight)| weight))];
    let [horizon, fluents, actions] = ranges.map(|range| drawn(random, range));
    let mut fluents = names(random, fluents + actions);
    let actions = fluents.split_off(fluents.len() - actions);
    Description { horizon, fluents, actions, laws: vec![], length: 0, lines: 0 }
}

/// Does a fluent change in more than half of the steps?
fn is_busy(recipe: &Recipe) -> bool {
    let names = &recipe.description;
    let state = |time: usize| &recipe.values[time * names.stride()..][..names.fluents.len()];
    let changes = (0..recipe.steps()).filter(|time| state(*time) != state(time + 1));
    2 * changes.count() > recipe.steps()
}

/// A history of so many steps from a state, if one is found.
fn walk(random: &mut Random, laws: &Description, mut state: Vec<bool>, steps: usize) -> Option<Recipe> {
    let mut one = laws.clone();
    one.horizon = 1;
    let mut values = Vec::new();
    for _ in 0..steps {
        let [before, next] = step(random, &one, &state)?;
        values.extend(values_of(&before));
        state = next;
    }
    values.extend(values_of(&state));
    Some(Recipe::new(laws, steps, values))
}

fn values_of(truths: &[bool]) -> impl Iterator<Item = u8> + '_ {
    truths.iter().map(|truth| 2 - u8::from(*truth))
}

fn truths_of(values: &[u8]) -> Vec<bool> {
    values.iter().map(|value| *value == 1).collect()
}

/// A state with actions done in it, and the next state.
type Step = [Vec<bool>; 2];

/// One explained step from a state, of a description with horizon 1. Steps in which something is done and something
/// changes are looked for first; the last try is made with the state as it is.
fn step(random: &mut Random, one: &Description, state: &[bool]) -> Option<Step> {
    let mut best: Option<(usize, Step)> = None;
    for tries in 1..=TRIES {
        let turns = if tries == TRIES { 0 } else { random.below(3) };
        let made = explained_step(random, one, state, turns);
        best = best.into_iter().chain(made).max_by_key(|(worth, _)| *worth);
        if best.as_ref().is_some_and(|(worth, _)| *worth == 3 || random.chance(1, 12)) {
            break;
        }
    }
    best.map(|(_, step)| step)
}

/// Draws what is done, mostly one action or two, and a next state with so many fluents turned round, which is mended by
/// the laws. If the oracle finds the step explained, it is answered with what it is worth.
fn explained_step(random: &mut Random, one: &Description, state: &[bool], turns: usize) -> Option<(usize, Step)> {
    let mut acts = vec![false; one.actions.len()];
    if let Some(last) = acts.len().checked_sub(1) {
        let number = *random.pick(&[0, 1, 1, 1, 2, 2, 2, acts.len()]);
        (0..number).for_each(|_| acts[random.between(0, last)] = true);
    }
    let before = [state, &acts].concat();
    let mut next = state.to_vec();
    for _ in 0..turns {
        turn(random, &mut next);
    }
    let is_mended = mend(random, one, &before, &mut next);
    let values: Vec<u8> = values_of(&before).chain(values_of(&next)).collect();
    let is_done = acts.is_empty() || acts.contains(&true);
    let worth = usize::from(is_done) + 2 * usize::from(next != state);
    let is_explained = is_mended && causal_reading(one, &values) == Ok(Causal::Path);
    is_explained.then_some((worth, [before, next]))
}

#[cfg(test)]
mod tests {
    use super::*;
    use crate::claims::broken;
    use crate::sides::{answers, Oracle};
    use oracle::check::check_history;
    use oracle::engine::Verdict;
    use oracle::report::read_input;
    use std::collections::BTreeMap;

    /// Does the recipe pass, and are the values, horizon and laws of its text its own?
    fn passes(Written { recipe, text }: &Written) -> bool {
        let Recipe { description, values } = recipe;
        let (verdict, _) = check_history(description, values, usize::MAX).expect("it is taken");
        let read = read_input(text).expect("it is taken");
        verdict == Verdict::Passes
            && causal_reading(description, values) == Ok(Causal::Path)
            && read.values == *values
            && read.description.horizon == description.horizon
            && read.description.laws == description.laws
    }

    #[test]
    fn cut_histories_pass_and_are_the_whole_again() {
        let random = &mut Random::new(1);
        for _ in 0..300 {
            let (whole, _) = whole(random);
            assert!((2..=MAX_HORIZON).contains(&whole.recipe.steps()) && passes(&whole));
            for steps in 1..whole.recipe.steps() {
                let [first, second] = whole.cut(steps);
                assert!(passes(&first) && passes(&second));
                assert_eq!(first.join(&second).as_ref(), Some(&whole));
            }
        }
    }

    #[test]
    fn histories_that_fit_pass_joined_and_are_both_again() {
        let random = &mut Random::new(2);
        for number in 0..400 {
            let (fits, is_long) = (number % 2 == 0, number % 8 == 0);
            let [first, second] = if is_long { too_long(random) } else { pair(random, fits) };
            assert!(passes(&first) && passes(&second));
            assert_eq!(first.recipe.last_state() == second.recipe.first_state(), fits);
            let whole = first.join(&second);
            assert_eq!(whole.is_some(), fits && !is_long);
            if let Some(whole) = whole {
                let again = whole.cut(first.recipe.steps());
                assert!(passes(&whole) && again.iter().all(passes));
                assert_eq!(again.map(|half| half.recipe), [first.recipe, second.recipe]);
            }
        }
    }

    /// Lists of all kinds are drawn, and the oracle answers as is claimed.
    #[test]
    fn all_kinds_are_drawn() {
        let mut drawn = BTreeMap::new();
        for number in 0..400 {
            let made = list(&mut Random::of_case(4, number));
            *drawn.entry(made.kind).or_insert(0) += 1;
            assert_eq!(broken(&made, &answers(&mut Oracle, &made.calls)), None);
        }
        assert!(drawn.len() == KINDS.len() && drawn.values().all(|number| *number > 10), "{drawn:?}");
    }
}
