//! The translation of a description into ground rules.

use super::record::{accept, Description, Head, Law};
use super::{Refusal, FALSE_HEAD};

/// A table of rules as 16-bit words, and how many rules it holds.
#[derive(Clone, Debug, Default, PartialEq, Eq)]
pub struct Table {
    pub words: Vec<u16>,
    pub rules: usize,
}

impl Table {
    fn rule(
        &mut self,
        head: u16,
        negated: impl ExactSizeIterator<Item = u16>,
        plain: impl ExactSizeIterator<Item = u16>,
    ) {
        self.words.extend([head, negated.len() as u16, plain.len() as u16]);
        self.words.extend(negated);
        self.words.extend(plain);
        self.rules += 1;
    }
}

/// Translates a description for a caller who lends `room` words: conditions 8, 3 and 9.
pub fn translate(description: &Description, room: usize) -> Result<Table, Refusal> {
    accept(description)?;
    let table = all_rules(description);
    if room < table.words.len() {
        return Err(Refusal::new(9, table.words.len()));
    }
    Ok(table)
}

/// All rules: static laws, dynamic laws, then the choices.
pub fn all_rules(description: &Description) -> Table {
    let mut table = Table::default();
    for law in &description.laws {
        if law.after.is_none() {
            static_rules(description, law, &mut table);
        }
    }
    for law in &description.laws {
        if let Some(after) = &law.after {
            dynamic_rules(description, law, after, &mut table);
        }
    }
    choice_rules(description, &mut table);
    table
}

/// How far a literal's code moves up from time 0 to the given time.
fn shift(description: &Description, time: usize) -> u16 {
    (2 * time * description.stride()) as u16
}

fn head_word(head: Head, shift: u16) -> u16 {
    match head {
        Head::Literal(code) => code + shift,
        Head::False => FALSE_HEAD,
    }
}

/// A static law at every time from 0 to T. Codes of complements differ in the lowest bit.
fn static_rules(description: &Description, law: &Law, table: &mut Table) {
    for time in 0..=description.horizon {
        let here = shift(description, time);
        let negated = law.ifs.iter().map(|code| (code + here) ^ 1);
        table.rule(head_word(law.head, here), negated, std::iter::empty());
    }
}

/// A dynamic law for every step: its head and if-list in the new state, its after-list in the old one.
fn dynamic_rules(description: &Description, law: &Law, after: &[u16], table: &mut Table) {
    for time in 0..description.horizon {
        let old = shift(description, time);
        let new = shift(description, time + 1);
        let negated = law.ifs.iter().map(|code| (code + new) ^ 1);
        let plain = after.iter().map(|code| code + old);
        table.rule(head_word(law.head, new), negated, plain);
    }
}

/// Two rules for each atom that no law needs to explain: fluents at time 0 and all actions.
fn choice_rules(description: &Description, table: &mut Table) {
    for atom in 0..description.horizon * description.stride() {
        if atom < description.fluents.len() || description.is_action(atom) {
            let yes = (2 * atom) as u16;
            let no = yes + 1;
            table.rule(no, std::iter::once(yes), std::iter::empty());
            table.rule(yes, std::iter::once(no), std::iter::empty());
        }
    }
}
