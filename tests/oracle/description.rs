//! The description reader.

use super::record::{Description, Head, Law};
use super::text::{is_false, is_name, list, literal, Key, Line, Lines, Sort};
use super::{Refusal, MAX_ACTIONS, MAX_FLUENTS, MAX_HORIZON, MAX_LAWS, MAX_LIST, MAX_TEXT};

/// How far the reader is: each part of a description closes the ones before it.
#[derive(Clone, Copy, Debug, PartialEq, Eq, PartialOrd, Ord)]
enum Part {
    /// Behind the horizon, where a first fluent is due.
    FirstFluent,
    Fluents,
    Actions,
    Laws,
}

/// Reads the description at the text's start. `law_run` is how many law records are lent; 64 where none are.
pub fn read_description(text: &[u8], law_run: usize) -> Result<Description, Refusal> {
    if text.len() > MAX_TEXT {
        return Err(Refusal::new(1, 0));
    }
    let mut lines = Lines::new(text);
    let horizon = read_horizon(&lines.expect(Key::Horizon)?)?;
    let mut description =
        Description { horizon, fluents: Vec::new(), actions: Vec::new(), laws: Vec::new(), length: 0, lines: 0 };
    read_parts(&mut lines, &mut description, law_run.min(MAX_LAWS))?;
    description.length = lines.position();
    description.lines = lines.count();
    Ok(description)
}

/// Everything behind the horizon line, up to the end line.
fn read_parts(lines: &mut Lines, description: &mut Description, law_limit: usize) -> Result<(), Refusal> {
    let mut part = Part::FirstFluent;
    loop {
        let line = lines.take()?;
        match line.key {
            Key::Fluent if part <= Part::Fluents => {
                part = Part::Fluents;
                let name = read_name(description, &line, description.fluents.len(), MAX_FLUENTS)?;
                description.fluents.push(name);
            }
            Key::Action if part == Part::Fluents || part == Part::Actions => {
                part = Part::Actions;
                let name = read_name(description, &line, description.actions.len(), MAX_ACTIONS)?;
                description.actions.push(name);
            }
            key if key.starts_law() && part >= Part::Fluents => {
                part = Part::Laws;
                if description.laws.len() >= law_limit {
                    return Err(line.refusal(5));
                }
                let law = read_law(lines, description, &line)?;
                description.laws.push(law);
            }
            Key::End if part >= Part::Fluents && line.value.is_empty() => return Ok(()),
            _ => return Err(line.refusal(2)),
        }
    }
}

/// A horizon is 1 to 30 in decimal digits without a leading zero.
fn read_horizon(line: &Line) -> Result<usize, Refusal> {
    let digits = line.value;
    let spelled = matches!(digits.len(), 1 | 2) && digits[0] != b'0' && digits.iter().all(u8::is_ascii_digit);
    if !spelled {
        return Err(line.refusal(3));
    }
    let number = digits.iter().fold(0, |sum, digit| sum * 10 + usize::from(digit - b'0'));
    if number > MAX_HORIZON {
        return Err(line.refusal(3));
    }
    Ok(number)
}

/// A newly declared name, kept as it is spelled here. Its count is tested before its spelling.
fn read_name(known: &Description, line: &Line, count: usize, limit: usize) -> Result<Vec<u8>, Refusal> {
    if count >= limit {
        return Err(line.refusal(5));
    }
    if !is_name(line.value) || known.symbol(line.value).is_some() {
        return Err(line.refusal(4));
    }
    Ok(line.value.to_vec())
}

/// A law whose first line is at hand. A short one gives what the same law written out in full would give.
fn read_law(lines: &mut Lines, names: &Description, first: &Line) -> Result<Law, Refusal> {
    match first.key {
        Key::Default => {
            let code = read_fluent_literal(names, first)?;
            Ok(static_law(Head::Literal(code), vec![code]))
        }
        Key::Inertial => {
            let code = read_fluent_literal(names, first)?;
            Ok(dynamic_law(Head::Literal(code), vec![code], vec![code]))
        }
        Key::Causes => {
            let head = read_head(names, first)?;
            let by_line = lines.expect(Key::By)?;
            Ok(dynamic_law(head, vec![], read_after(names, &by_line)?))
        }
        Key::Nonexecutable => Ok(dynamic_law(Head::False, vec![], read_after(names, first)?)),
        _ => read_long_law(lines, names, first),
    }
}

/// A law written out: the lines static, if, or the lines dynamic, if, after.
fn read_long_law(lines: &mut Lines, names: &Description, first: &Line) -> Result<Law, Refusal> {
    let head = read_head(names, first)?;
    let if_line = lines.expect(Key::If)?;
    let ifs = list(names, &if_line, Sort::Fluents, Some(MAX_LIST))?;
    if first.key == Key::Static {
        return Ok(static_law(head, ifs));
    }
    let after_line = lines.expect(Key::After)?;
    Ok(dynamic_law(head, ifs, read_after(names, &after_line)?))
}

fn static_law(head: Head, ifs: Vec<u16>) -> Law {
    Law { head, ifs, after: None }
}

fn dynamic_law(head: Head, ifs: Vec<u16>, after: Vec<u16>) -> Law {
    Law { head, ifs, after: Some(after) }
}

/// The after-list of a law: literals of either sort.
fn read_after(names: &Description, line: &Line) -> Result<Vec<u16>, Refusal> {
    list(names, line, Sort::Either, Some(MAX_LIST))
}

/// The word false, in capitals or not, or a fluent literal.
fn read_head(names: &Description, line: &Line) -> Result<Head, Refusal> {
    if is_false(line.value) {
        return Ok(Head::False);
    }
    Ok(Head::Literal(read_fluent_literal(names, line)?))
}

/// A line's value as one fluent literal.
fn read_fluent_literal(names: &Description, line: &Line) -> Result<u16, Refusal> {
    literal(names, line.value, Sort::Fluents).ok_or(line.refusal(6))
}
