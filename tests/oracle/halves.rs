//! Cutting a recipe in two and joining two recipes (change request 6), in two ways that know nothing of each other: by the
//! values of a history, and by the lines of a text.

use super::record::Description;
use super::text::lowered;
use super::MAX_HORIZON;

/// A description and one value for each of its atoms.
#[derive(Clone, Debug, PartialEq, Eq)]
pub struct Recipe {
    pub description: Description,
    pub values: Vec<u8>,
}

impl Recipe {
    /// Values under the names and laws of a description, for another horizon.
    pub fn new(laws: &Description, horizon: usize, values: Vec<u8>) -> Self {
        let description = Description { horizon, ..laws.clone() };
        Recipe { description, values }
    }

    /// How many steps the history has.
    pub fn steps(&self) -> usize {
        self.description.horizon
    }

    /// The values of the fluents at time 0.
    pub fn first_state(&self) -> &[u8] {
        &self.values[..self.description.fluents.len()]
    }

    /// The values of the fluents at the last time.
    pub fn last_state(&self) -> &[u8] {
        &self.values[self.values.len() - self.description.fluents.len()..]
    }
}

/// The recipe cut after so many steps, from 1 to one below its horizon; there is no other cut. With n fluents and m actions
/// the first half is the first k(n + m) + n values, and the second one begins at place k(n + m): the state at which it is
/// cut belongs to both.
pub fn cut(whole: &Recipe, steps: usize) -> Option<(Recipe, Recipe)> {
    let Recipe { description, values } = whole;
    if steps < 1 || steps >= description.horizon {
        return None;
    }
    let start = steps * description.stride();
    let first = values[..start + description.fluents.len()].to_vec();
    let second = values[start..].to_vec();
    Some((Recipe::new(description, steps, first), Recipe::new(description, description.horizon - steps, second)))
}

/// Two recipes of one description put together as if they fitted: the first, then the second without its first state.
pub fn put_together(first: &Recipe, second: &Recipe) -> Recipe {
    let mut values = first.values.clone();
    values.extend(&second.values[second.description.fluents.len()..]);
    Recipe::new(&first.description, first.steps() + second.steps(), values)
}

/// Two recipes of one description joined: the second begins in the state in which the first ends, and both together have
/// at most 30 steps.
pub fn join(first: &Recipe, second: &Recipe) -> Option<Recipe> {
    let fits = first.last_state() == second.first_state();
    let is_short = first.steps() + second.steps() <= MAX_HORIZON;
    (fits && is_short).then(|| put_together(first, second))
}

/// The lines of a text, each with its end: what stands between the horizon line and the first state line, and the state
/// and act lines in turn.
pub struct Parts<'a> {
    pub laws: Vec<&'a [u8]>,
    pub history: Vec<&'a [u8]>,
}

/// A recipe's text in its parts, if it has them.
pub fn parts(text: &[u8]) -> Option<Parts<'_>> {
    let mut lines = text.split_inclusive(|byte| *byte == b'\n');
    let horizon = lines.next()?;
    let rest: Vec<&[u8]> = lines.collect();
    let end = rest.iter().position(|line| *line == b"end=\n")?;
    let (laws, history) = rest.split_at(end + 1);
    let (last, history) = history.split_last()?;
    let is_whole = horizon.starts_with(b"horizon=") && *last == b"end=\n" && history.len() % 2 == 1;
    is_whole.then(|| Parts { laws: laws.to_vec(), history: history.to_vec() })
}

/// A text of these lines. Its horizon is the number of its act lines.
pub fn written(laws: &[&[u8]], history: &[&[u8]]) -> Vec<u8> {
    let steps = history.iter().filter(|line| line.starts_with(b"act=")).count();
    let horizon = format!("horizon={steps}\n");
    [horizon.as_bytes(), &laws.concat(), &history.concat(), b"end=\n"].concat()
}

/// A recipe's text cut after so many act lines, each half with a horizon line of its own. The state line behind the last
/// act line of the first half is the first state line of the second.
pub fn cut_text(text: &[u8], steps: usize) -> Option<(Vec<u8>, Vec<u8>)> {
    let Parts { laws, history } = parts(text)?;
    let is_inside = steps >= 1 && 2 * steps + 1 < history.len();
    is_inside.then(|| (written(&laws, &history[..=2 * steps]), written(&laws, &history[2 * steps..])))
}

/// Two texts of one description put together as if they fitted: the history lines of the first, then those of the second
/// without its first state line.
pub fn put_texts_together(first: &[u8], second: &[u8]) -> Option<Vec<u8>> {
    let (first, second) = (parts(first)?, parts(second)?);
    let history = [&first.history, &second.history[1..]].concat();
    Some(written(&first.laws, &history))
}

/// Two texts of one description joined, where the last state line of the first and the first one of the second list the
/// same, and there are at most 30 act lines.
pub fn join_texts(first: &[u8], second: &[u8]) -> Option<Vec<u8>> {
    let (one, other) = (parts(first)?, parts(second)?);
    let fits = listed(one.history.last()?) == listed(other.history.first()?);
    let acts = (one.history.len() + other.history.len()) / 2 - 1;
    if !fits || acts > MAX_HORIZON {
        return None;
    }
    put_texts_together(first, second)
}

/// What a line lists, whatever its order, its repeats and its capitals.
fn listed(line: &[u8]) -> Vec<Vec<u8>> {
    let line = line.strip_suffix(b"\n").unwrap_or(line);
    let value = line.splitn(2, |byte| *byte == b'=').nth(1).unwrap_or_default();
    let items = value.split(|byte| *byte == b',');
    let mut items: Vec<Vec<u8>> = items.map(|item| item.iter().map(|byte| lowered(*byte)).collect()).collect();
    items.sort();
    items.dedup();
    items
}
