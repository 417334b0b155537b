//! The causal reading: is each step of a history explained by the laws?

use super::history::values_fit;
use super::record::{accept, Description, Head, Law};
use super::Refusal;

/// What the causal reading says.
#[derive(Clone, Copy, Debug, PartialEq, Eq)]
pub enum Causal {
    Path,
    /// The state at `time` does not satisfy what `law` causes there.
    Contradicted {
        time: usize,
        law: usize,
    },
    /// No law that applies has the literal of `fluent` at `time` as its head.
    Uncaused {
        time: usize,
        fluent: usize,
    },
}

/// A history seen through its description: which literals are true when.
struct History<'a> {
    description: &'a Description,
    values: &'a [u8],
}

impl History<'_> {
    /// Is the literal true at the time? Codes run through fluents and actions alike.
    fn holds(&self, code: u16, time: usize) -> bool {
        let atom = time * self.description.stride() + usize::from(code / 2);
        let wanted = if code.is_multiple_of(2) { 1 } else { 2 };
        self.values[atom] == wanted
    }

    fn all_hold(&self, codes: &[u16], time: usize) -> bool {
        codes.iter().all(|code| self.holds(*code, time))
    }

    fn head_holds(&self, head: Head, time: usize) -> bool {
        match head {
            Head::Literal(code) => self.holds(code, time),
            Head::False => false,
        }
    }

    /// Does the law apply in the step that ends at `time`?
    fn applies(&self, law: &Law, time: usize) -> bool {
        let after = match &law.after {
            Some(after) => self.all_hold(after, time - 1),
            None => true,
        };
        after && self.all_hold(&law.ifs, time)
    }
}

/// The causal reading, called by itself: conditions 8, 3, 10 and 11, the last for every value but 1 and 2.
pub fn causal_reading(description: &Description, values: &[u8]) -> Result<Causal, Refusal> {
    accept(description)?;
    values_fit(description, values.len())?;
    if let Some(index) = values.iter().position(|value| !matches!(value, 1 | 2)) {
        return Err(Refusal::new(11, index));
    }
    Ok(read_causes(description, values))
}

fn read_causes(description: &Description, values: &[u8]) -> Causal {
    let history = History { description, values };
    let breaks_state =
        |law: &Law| law.after.is_none() && history.all_hold(&law.ifs, 0) && !history.head_holds(law.head, 0);
    if let Some(law) = description.laws.iter().position(breaks_state) {
        return Causal::Contradicted { time: 0, law };
    }
    for time in 1..=description.horizon {
        if let Some(found) = read_step(&history, time) {
            return found;
        }
    }
    Causal::Path
}

/// What is wrong in the step that ends at `time`, if anything is.
fn read_step(history: &History, time: usize) -> Option<Causal> {
    let laws = &history.description.laws;
    let mut caused = vec![false; history.description.fluents.len()];
    for (law, body) in laws.iter().enumerate() {
        if history.applies(body, time) {
            match body.head {
                Head::Literal(code) if history.holds(code, time) => caused[usize::from(code / 2)] = true,
                _ => return Some(Causal::Contradicted { time, law }),
            }
        }
    }
    let fluent = caused.iter().position(|known| !known)?;
    Some(Causal::Uncaused { time, fluent })
}
