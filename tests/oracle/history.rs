//! The history reader.

use super::description::read_description;
use super::record::Description;
use super::text::{list, Key, Line, Lines, Sort};
use super::{Refusal, MAX_ATOMS, MAX_LAWS, MAX_TEXT};

/// Reads a history into one value an atom, for a caller who lends the description's text again and a buffer of
/// `values_length` bytes.
pub fn read_history(description: &[u8], history: &[u8], values_length: usize) -> Result<Vec<u8>, Refusal> {
    let names = read_description(description, MAX_LAWS)?;
    values_fit(&names, values_length)?;
    read_lines(&names, history)
}

/// Condition 10 for a history: as many values as atoms, and no more than 1,024.
pub fn values_fit(description: &Description, length: usize) -> Result<(), Refusal> {
    if length > MAX_ATOMS || length != description.atoms() {
        return Err(Refusal::new(10, length));
    }
    Ok(())
}

/// Reads the history's own text; its lines count from 1.
pub fn read_lines(names: &Description, history: &[u8]) -> Result<Vec<u8>, Refusal> {
    Ok(filled(names, &listed_values(names, history)?))
}

/// The values of what is listed and of what is not: an action absent from its act line has value false.
pub fn filled(names: &Description, listed: &[u8]) -> Vec<u8> {
    let value = |(atom, value): (usize, &u8)| match value {
        0 if names.is_action(atom) => 2,
        _ => *value,
    };
    listed.iter().enumerate().map(value).collect()
}

/// The values of what the history's lines list, and 0 for all else.
pub fn listed_values(names: &Description, history: &[u8]) -> Result<Vec<u8>, Refusal> {
    if history.len() > MAX_TEXT {
        return Err(Refusal::new(1, 0));
    }
    let mut lines = Lines::new(history);
    let mut values = vec![0; names.atoms()];
    for time in 0..=names.horizon {
        let state = lines.expect(Key::State)?;
        add_list(names, &state, Sort::Fluents, time, &mut values)?;
        if time < names.horizon {
            let act = lines.expect(Key::Act)?;
            add_list(names, &act, Sort::Actions, time, &mut values)?;
        }
    }
    lines.expect_end()?;
    if lines.position() < history.len() {
        return Err(Refusal::new(7, lines.count() + 1));
    }
    Ok(values)
}

/// Enters a list's literals at a time: bit 1 for true, bit 2 for false, both for both.
fn add_list(names: &Description, line: &Line, sort: Sort, time: usize, values: &mut [u8]) -> Result<(), Refusal> {
    for code in list(names, line, sort, None)? {
        let atom = time * names.stride() + usize::from(code / 2);
        values[atom] |= if code % 2 == 0 { 1 } else { 2 };
    }
    Ok(())
}
