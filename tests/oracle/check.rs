//! The history check: translation, then the lowest bad atom, then the engine on the translation.

use super::engine::{check_set, values_known, Verdict};
use super::history::values_fit;
use super::record::Description;
use super::translation::{translate, Table};
use super::Refusal;

/// Checks a history's values against a description, for a caller who lends `room` words: conditions 8, 3, 9, 10 and
/// 11, then missing or clash by the lowest atom without a value or with both, then the engine's verdict. Every verdict
/// comes with the whole translation.
pub fn check_history(description: &Description, values: &[u8], room: usize) -> Result<(Verdict, Table), Refusal> {
    let table = translate(description, room)?;
    values_fit(description, values.len())?;
    values_known(values)?;
    let verdict = match first_fault(values) {
        Some(fault) => Verdict::from(fault),
        None => check_set(values, &table.words)?,
    };
    Ok((verdict, table))
}

/// Which fault is said, and at which atom.
#[derive(Clone, Copy, Debug, PartialEq, Eq)]
pub enum Fault {
    /// The atom has value 0.
    Missing(usize),
    /// The atom has value 3.
    Clash(usize),
}

impl From<Fault> for Verdict {
    fn from(fault: Fault) -> Self {
        match fault {
            Fault::Missing(atom) => Verdict::Missing(atom),
            Fault::Clash(atom) => Verdict::Clash(atom),
        }
    }
}

/// The lowest atom that has either fault decides, and its value says which one it is.
pub fn first_fault(values: &[u8]) -> Option<Fault> {
    values.iter().enumerate().find_map(|(atom, value)| match value {
        0 => Some(Fault::Missing(atom)),
        3 => Some(Fault::Clash(atom)),
        _ => None,
    })
}
