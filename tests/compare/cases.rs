//! Cases worked out by hand: tests/cases/FUNCTION.txt, and what clingo writes out in the same form.
//!
//! Blank lines and lines that begin with `#` are not read; one that begins with four spaces goes on with the line before
//! it, behind one space. `let NAME = STUFF` names what `{NAME}` then stands for. A case is a line `name | part | .. | answer`, see `FIELDS` and `answer`. `<A/B/C>` makes a case of each of A, B and C;
//! several of these vary together. `(STUFF)*N` is STUFF N times, `#` in it 0, 1, 2 and so on.
//! - Text: its lines with single spaces between, each ended by byte 10; `\s` a space, `\xNN` any byte, `\e` at the very
//!   end: the last line is not ended. An empty field is the empty text. Behind a text may stand edits ` [OLD -> NEW]`,
//!   made from left to right, each at the first place where OLD stands.
//! - Numbers: with single spaces between, `V*N` for V N times; 2x3+1 and 9-2x3 are numbers: `(2x# 0 0)*N` are N facts.
//! - Table: rules such as `a: b, -c, not d` with `; ` between, the letters being atoms, or `words` and numbers.

use crate::call::{Call, Function, Part, Said};
use crate::random::Random;
use crate::sides::{answers, Side};
use oracle::{header, header::Answer, FALSE_HEAD};
use std::collections::BTreeMap;
use std::path::Path;

/// One call and what is to be said of it: the number, and what the part that is written to begins with afterwards.
pub struct Case {
    pub name: String,
    pub call: Call,
    pub wanted: (u64, Part),
}

/// What is read, or what is wrong.
type Read<T> = Result<T, String>;

/// What is lent, by function. So many `words` or `bytes` are written to; those of `report` follow from its answer.
#[rustfmt::skip]
const FIELDS: [&str; 8] = [
    "text bytes", "values table", "values table", "values table levels", "text words", "text text bytes",
    "text values words", "text",
];

/// The cases of every FUNCTION.txt in a folder.
pub fn folder(path: &Path) -> Read<Vec<Case>> {
    let told = |error: std::io::Error| format!("{}: {error}", path.display());
    let mut cases = Vec::new();
    for file in std::fs::read_dir(path).map_err(told)? {
        let name = file.map_err(told)?.file_name().to_string_lossy().into_owned();
        let function = name.strip_suffix(".txt").and_then(Function::named);
        let function = function.ok_or(format!("{name} is named after no function"))?;
        let file = std::fs::read_to_string(path.join(&name)).map_err(told)?;
        cases.extend(read(function, &file)?);
    }
    let none = format!("no cases in {}", path.display());
    Some(cases).filter(|cases| !cases.is_empty()).ok_or(none)
}

/// The cases of a file. An error shows the line.
pub fn read(function: Function, file: &str) -> Read<Vec<Case>> {
    let (mut found, mut named) = (Vec::new(), BTreeMap::new());
    for line in file.replace("\n    ", " ").lines() {
        let told = |error| format!("{}.txt: {error}: {line}", function.name());
        if let Some((name, stuff)) = line.strip_prefix("let ").and_then(|line| line.split_once(" =")) {
            let stuff = expanded(stuff.trim(), &named).and_then(|stuff| edited(&stuff));
            named.insert(name.to_string(), stuff.map_err(told)?.trim_end().to_string());
        } else if !line.trim().is_empty() && !line.starts_with('#') {
            found.extend(cases(function, line, &named).map_err(told)?);
        }
    }
    Ok(found)
}

/// Puts something in the place of each part between two marks, and of so many bytes behind it.
fn replaced(field: &str, marks: [&str; 2], with: impl Fn(&str, &str) -> Read<(String, usize)>) -> Read<String> {
    let (mut all, mut rest) = (String::new(), field);
    while let Some((before, behind)) = rest.split_once(marks[0]) {
        let (inside, behind) = behind.split_once(marks[1]).ok_or(format!("{marks:?} do not match"))?;
        let (new, length) = with(inside, behind)?;
        all = all + before + &new;
        rest = &behind[length..];
    }
    Ok(all + rest)
}

/// A line with names and repetitions replaced. A space comes between the members of a group of numbers.
fn expanded(line: &str, named: &BTreeMap<String, String>) -> Read<String> {
    let known = |name: &str| named.get(name).cloned().ok_or(format!("{name} is not known"));
    let line = replaced(line, ["{", "}"], |name, _| Ok((known(name)?, 0)))?;
    replaced(&line, ["(", ")*"], |stuff, behind| {
        let digits = behind.bytes().take_while(u8::is_ascii_digit).count();
        let between = &" "[..usize::from(stuff.contains(' ') && !stuff.ends_with(' '))];
        let round = |round: usize| stuff.replace('#', &round.to_string()) + between;
        Ok(((0..number(&behind[..digits])?).map(round).collect(), digits))
    })
}

/// The cases of a line, as many as it has alternatives.
fn cases(function: Function, line: &str, named: &BTreeMap<String, String>) -> Read<Vec<Case>> {
    let first = line.split_once('<').map_or("", |(_, behind)| behind);
    let count = first.split('>').next().unwrap_or_default().split('/').count();
    let chosen = |number| {
        replaced(line, ["<", ">"], |inside, _| match inside.split('/').nth(number) {
            Some(one) if inside.split('/').count() == count => Ok((one.to_string(), 0)),
            _ => Err(format!("not {count} alternatives: {inside}")),
        })
    };
    let of_number = |number| case(function, &expanded(&chosen(number)?, named)?);
    (0..count).map(of_number).collect()
}

fn case(function: Function, line: &str) -> Read<Case> {
    let mut columns: Vec<&str> = line.split('|').map(|column| column.trim_matches(' ')).collect();
    let wanted = answer(function, columns.pop().unwrap_or_default())?;
    let room = (wanted.0 + 20).to_string();
    columns.extend((function == Function::Report).then_some(&room[..]));
    let sorts = FIELDS[function as usize].split(' ');
    if columns.len() != 1 + sorts.clone().count() {
        return Err(format!("not name, {}, answer", FIELDS[function as usize]));
    }
    let parts = sorts.zip(&columns[1..]).map(|(sort, field)| part(sort, field));
    Ok(Case { name: columns[0].to_string(), call: Call::new(function, parts.collect::<Read<Vec<Part>>>()?), wanted })
}

/// `refused N PLACE`, a verdict with its numbers, `written ATOMS RULES WORDS` or `read`, and behind ` : ` the words or
/// values that are written first; of `report` the printed text.
fn answer(function: Function, field: &str) -> Read<(u64, Part)> {
    if function == Function::Report {
        let printed = text(field)?;
        return Ok((printed.len() as u64, Part::Bytes(printed)));
    }
    let (said, begins) = field.split_once(" : ").unwrap_or((field, ""));
    let (word, items) = said.split_once(' ').unwrap_or((said, ""));
    let code = (header::PASSES..=u8::MAX).find(|code| header::meaning(*code) == word);
    let answer = match (code, &numbers(items)?[..]) {
        (None, [number @ 1..=63, place]) if word == "refused" => Answer::new(*number as u8, *place),
        (Some(code), []) => Answer::new(code, 0),
        (Some(code), [item]) => Answer::new(code, *item),
        (Some(code), [time, item]) => Answer::new(code, 65_536 * time + item),
        (Some(header::WRITTEN), [atoms, rules, words]) => Answer::written(*atoms, *rules, *words),
        _ => return Err(format!("no answer: {said}")),
    };
    let is_read = function == Function::ReadHistory;
    let begins = part(["levels", "values"][usize::from(is_read)], begins)?;
    Ok((answer.number(), begins))
}

fn part(sort: &str, field: &str) -> Read<Part> {
    let mut random = Random::new(field.len() as u64);
    Ok(match sort {
        "text" => Part::Bytes(text(field)?),
        "values" => Part::Bytes(numbers(field)?),
        "levels" => Part::Words(numbers(field)?),
        "table" => Part::Words(table(field)?),
        "words" => Part::Words((0..number(field)?).map(|_: usize| random.word()).collect()),
        _ => Part::Bytes((0..number(field)?).map(|_: usize| random.byte()).collect()),
    })
}

fn text(field: &str) -> Read<Vec<u8>> {
    let lines = edited(field)?.replace(' ', "\n").replace("\\s", "\\x20");
    let letters = replaced(&lines, ["\\", "x"], |between, behind| {
        let digits = behind.get(..2).filter(|_| between.is_empty());
        let byte = digits.and_then(|digits| u8::from_str_radix(digits, 16).ok());
        Ok((char::from(byte.ok_or(format!("no escape: {between}"))?).to_string(), 2))
    })?;
    Ok(letters.chars().map(|letter| letter as u8).collect())
}

/// A text with a space at the end of every line, and edits made.
fn edited(field: &str) -> Read<String> {
    let (body, edits) = field.split_once(" [").unwrap_or((field, ""));
    let mut text = body.to_string() + if body.is_empty() { "" } else { " " };
    for edit in edits.split_terminator(']').map(|edit| edit.trim_start_matches(" [")) {
        let (old, new) = edit.split_once(" -> ").ok_or(format!("no edit: {edit}"))?;
        let (before, behind) = text.split_once(old).ok_or(format!("there is no {old}"))?;
        text = [before, new, behind].concat();
    }
    Ok(text.strip_suffix("\\e ").unwrap_or(&text).to_string())
}

fn number<T: TryFrom<u64>>(word: &str) -> Read<T> {
    let factor = |word: &str| word.parse::<u64>().ok();
    let product = |word: &str| word.split('x').map(factor).product::<Option<u64>>();
    let (sum, less) = word.split_once('-').unwrap_or((word, "0"));
    let sum = sum.split('+').map(product).sum::<Option<u64>>();
    let number = sum.zip(product(less)).and_then(|(sum, less)| sum.checked_sub(less));
    let number = number.and_then(|number| T::try_from(number).ok());
    number.ok_or(format!("no number, or too large: {word}"))
}

fn numbers<T: TryFrom<u64> + Clone>(field: &str) -> Read<Vec<T>> {
    let mut all = Vec::new();
    for word in field.split_whitespace() {
        let (one, times) = word.split_once('*').unwrap_or((word, "1"));
        all.extend(vec![number(one)?; number(times)?]);
    }
    Ok(all)
}

fn table(field: &str) -> Read<Vec<u16>> {
    let code = |word: &str| match word.trim_start_matches('-').as_bytes() {
        b"false" => Ok(FALSE_HEAD),
        [letter @ b'a'..=b'w'] => Ok(2 * u16::from(letter - b'a') + u16::from(word.starts_with('-'))),
        _ => Err(format!("no literal: {word}")),
    };
    if let Some(words) = field.strip_prefix("words") {
        return numbers(words);
    }
    let mut table = Vec::new();
    for rule in field.split("; ").filter(|rule| !rule.is_empty()) {
        let (head, body) = rule.split_once(':').ok_or(format!("no rule: {rule}"))?;
        let parts = body.split(',').map(str::trim).filter(|part| !part.is_empty());
        let (negated, plain): (Vec<&str>, Vec<&str>) = parts.partition(|part| part.starts_with("not "));
        table.extend([code(head), Ok(negated.len() as u16), Ok(plain.len() as u16)]);
        table.extend(negated.iter().map(|part| code(&part[4..])));
        table.extend(plain.iter().map(|part| code(part)));
    }
    table.into_iter().collect()
}

/// None if a side answers as a case says and leaves all that is lent as it should be left; else what is otherwise. A
/// printed text is also asked for with room for all but its last byte.
pub fn answered_otherwise(side: &mut dyn Side, case: &Case) -> Option<String> {
    let mut calls = vec![case.call.clone()];
    if let (Function::Report, [input, out]) = (case.call.function, &case.call.parts[..]) {
        let out = Part::bytes(&out.as_bytes()[..(case.wanted.0 as usize).saturating_sub(1)]);
        calls.push(Call::new(Function::Report, [input.clone(), out]));
    }
    let (name, (number, begins)) = (&case.name, &case.wanted);
    calls.iter().find_map(|call| {
        let said = answers(side, std::slice::from_ref(call)).remove(0);
        let [wanted, given] = [*number, said.number].map(Answer::from_number);
        let told = || format!("{name}: {call:?}\nwanted {wanted:?} and {begins:?}\nsaid {given:?}: {said:?}");
        (!is_as_wanted(case, call, &said)).then(told)
    })
}

fn is_as_wanted(case: &Case, call: &Call, said: &Said) -> bool {
    let last = call.parts.len() - 1;
    let elements = |part: &Part| match part {
        Part::Words(words) => words.clone(),
        part => part.as_bytes().iter().copied().map(u16::from).collect(),
    };
    let [lent, left, begins] = [&call.parts[last], &said.parts[last], &case.wanted.1].map(elements);
    let end = written(call, case.wanted.0).min(lent.len());
    let is_left = said.parts[..last] == call.parts[..last] && left.len() == lent.len() && left[end..] == lent[end..];
    said.number == case.wanted.0 && is_left && left.starts_with(&begins[..begins.len().min(lent.len())])
}

/// How many elements a call with this answer writes, if there is room.
fn written(call: &Call, number: u64) -> usize {
    let words = |number: u64| (number >> 40) as usize;
    match call.function {
        Function::Report => number as usize,
        _ if number % 256 <= u64::from(header::LAST_REFUSAL) => 0,
        Function::Translate => words(number),
        Function::CheckHistory => words(header::translate(call.parts[0].as_bytes(), &mut [0; 30_912])),
        Function::ReadHistory => usize::MAX,
        _ => 0,
    }
}

#[cfg(test)]
mod tests {
    use super::*;
    use crate::sides::Oracle;

    #[test]
    fn the_oracle_answers_as_the_cases_say() {
        let cases = folder(Path::new(concat!(env!("CARGO_MANIFEST_DIR"), "/../cases"))).unwrap();
        let otherwise = |case| answered_otherwise(&mut Oracle, case);
        let told: Vec<String> = cases.iter().filter_map(otherwise).collect();
        assert!(told.is_empty(), "{}", told.join("\n"));
    }

    #[test]
    fn an_error_shows_the_line() {
        let lines = r"a|b= a|{b}|0|read a|b|<0/1>|<read/read/path> a|(b|0|read a|\q|0|read a||x|read a||0|refused";
        for line in lines.split(' ') {
            let file = format!("#\n\n{line}");
            let told = read(Function::Translate, &file).err().unwrap_or_default();
            assert!(told.starts_with("translate.txt: ") && told.ends_with(line), "{line}: {told}");
        }
    }

    #[test]
    fn what_is_left_otherwise_is_told() {
        let line = "a | horizon=1 fluent=a end= | 9 | written 2 2 8 : 1 1 0 0 0 1 0 1";
        let case = &read(Function::Translate, line).unwrap()[0];
        let said = answers(&mut Oracle, std::slice::from_ref(&case.call)).remove(0);
        assert!(is_as_wanted(case, &case.call, &said));
        for place in 0..10 {
            let mut wrong = said.clone();
            match &mut wrong.parts[..] {
                [Part::Bytes(text), _] if place == 9 => text[0] ^= 1,
                [_, Part::Words(words)] => words[place] ^= 1,
                parts => unreachable!("{parts:?}"),
            }
            assert!(!is_as_wanted(case, &case.call, &wrong), "{place}");
        }
    }
}
