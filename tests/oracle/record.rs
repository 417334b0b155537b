//! Descriptions as records: what they hold, and which are accepted.
//!
//! What the description reader lets through is always accepted; the test stands here because the translation, the
//! history check and the causal reading make it first.

use super::text::same_name;
use super::{Refusal, MAX_ACTIONS, MAX_FLUENTS, MAX_HORIZON, MAX_LAWS, MAX_LIST};

/// The head of a law: the code of a fluent literal, or false.
#[derive(Clone, Copy, Debug, PartialEq, Eq)]
pub enum Head {
    Literal(u16),
    False,
}

/// A law. The after-list of a static law is not there at all; that of a dynamic law may be empty.
#[derive(Clone, Debug, PartialEq, Eq)]
pub struct Law {
    pub head: Head,
    pub ifs: Vec<u16>,
    pub after: Option<Vec<u16>>,
}

/// A description with its names as they were declared, and how much of its text it took.
#[derive(Clone, Debug, PartialEq, Eq)]
pub struct Description {
    pub horizon: usize,
    pub fluents: Vec<Vec<u8>>,
    pub actions: Vec<Vec<u8>>,
    pub laws: Vec<Law>,
    /// Bytes up to and including the end line.
    pub length: usize,
    /// Lines up to and including the end line.
    pub lines: usize,
}

impl Description {
    /// Atoms between one time and the next: fluents and actions together.
    pub fn stride(&self) -> usize {
        self.fluents.len() + self.actions.len()
    }

    /// All atoms: T times fluents and actions, and the fluents once more at time T.
    pub fn atoms(&self) -> usize {
        self.horizon * self.stride() + self.fluents.len()
    }

    /// Is the atom an action's? At each time the fluents come first, then the actions.
    pub fn is_action(&self, atom: usize) -> bool {
        atom % self.stride() >= self.fluents.len()
    }

    /// The number a name stands for in any spelling: fluents first, then actions.
    pub fn symbol(&self, name: &[u8]) -> Option<usize> {
        let mut declared = self.fluents.iter().chain(&self.actions);
        declared.position(|known| same_name(known, name))
    }
}

/// Conditions 8 and then 3, on a description that may come from anywhere.
pub fn accept(description: &Description) -> Result<(), Refusal> {
    let fluents = description.fluents.len();
    let actions = description.actions.len();
    let counts = (1..=MAX_FLUENTS).contains(&fluents) && actions <= MAX_ACTIONS && description.laws.len() <= MAX_LAWS;
    if !counts {
        return Err(Refusal::new(8, MAX_LAWS));
    }
    if let Some(bad) = description.laws.iter().position(|law| !accept_law(law, fluents, actions)) {
        return Err(Refusal::new(8, bad));
    }
    if !(1..=MAX_HORIZON).contains(&description.horizon) {
        return Err(Refusal::new(3, 0));
    }
    Ok(())
}

fn accept_law(law: &Law, fluents: usize, actions: usize) -> bool {
    let head = match law.head {
        Head::Literal(code) => usize::from(code) < 2 * fluents,
        Head::False => true,
    };
    let after = match &law.after {
        Some(after) => accept_list(after, fluents + actions),
        None => true,
    };
    head && accept_list(&law.ifs, fluents) && after
}

/// At most six literals, each of one of the first `symbols` fluents and actions.
fn accept_list(codes: &[u16], symbols: usize) -> bool {
    codes.len() <= MAX_LIST && codes.iter().all(|code| usize::from(*code) < 2 * symbols)
}
