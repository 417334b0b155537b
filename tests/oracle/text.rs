//! Names, lines of the form key=value, and lists of literals inside a value.

use super::record::Description;
use super::{Refusal, MAX_NAME};

/// A byte with its capital lowered: bytes 65 to 90 (A to Z) go to the byte 32 above them, 97 to 122 (a to z). Every other
/// byte stays as it is, whatever lies 32 above it.
pub fn lowered(byte: u8) -> u8 {
    match byte {
        65..=90 => byte + 32,
        _ => byte,
    }
}

/// Are these two spellings of one name: of the same length, and equal byte by byte after lowering?
pub fn same_name(first: &[u8], second: &[u8]) -> bool {
    let mut pairs = first.iter().zip(second);
    first.len() == second.len() && pairs.all(|(one, other)| lowered(*one) == lowered(*other))
}

/// Is this the word false, in capitals or not?
pub fn is_false(bytes: &[u8]) -> bool {
    same_name(bytes, b"false")
}

/// A letter a to z or A to Z, then up to 15 letters, digits or underscores; and not the word false.
pub fn is_name(bytes: &[u8]) -> bool {
    let letter = |byte: u8| (97..=122).contains(&lowered(byte));
    let goes_on = |byte: &u8| letter(*byte) || byte.is_ascii_digit() || *byte == b'_';
    let starts = bytes.first().is_some_and(|byte| letter(*byte));
    starts && bytes.len() <= MAX_NAME && bytes.iter().all(goes_on) && !is_false(bytes)
}

/// The fifteen keys: ten, and behind them the five of the short laws.
#[derive(Clone, Copy, Debug, PartialEq, Eq)]
pub enum Key {
    Horizon,
    Fluent,
    Action,
    Static,
    Dynamic,
    If,
    After,
    State,
    Act,
    End,
    Default,
    Inertial,
    Causes,
    By,
    Nonexecutable,
}

impl Key {
    /// Is this the key of a law's first line?
    pub fn starts_law(self) -> bool {
        match self {
            Key::Static | Key::Dynamic => true,
            Key::Default | Key::Inertial | Key::Causes | Key::Nonexecutable => true,
            Key::Horizon | Key::Fluent | Key::Action | Key::If | Key::After | Key::By => false,
            Key::State | Key::Act | Key::End => false,
        }
    }
}

fn key_of(bytes: &[u8]) -> Option<Key> {
    match bytes {
        b"horizon" => Some(Key::Horizon),
        b"fluent" => Some(Key::Fluent),
        b"action" => Some(Key::Action),
        b"static" => Some(Key::Static),
        b"dynamic" => Some(Key::Dynamic),
        b"if" => Some(Key::If),
        b"after" => Some(Key::After),
        b"state" => Some(Key::State),
        b"act" => Some(Key::Act),
        b"end" => Some(Key::End),
        b"default" => Some(Key::Default),
        b"inertial" => Some(Key::Inertial),
        b"causes" => Some(Key::Causes),
        b"by" => Some(Key::By),
        b"nonexecutable" => Some(Key::Nonexecutable),
        _ => None,
    }
}

/// One whole line: its number from 1, its key and what stands behind the first equals sign.
#[derive(Clone, Copy, Debug)]
pub struct Line<'a> {
    pub number: usize,
    pub key: Key,
    pub value: &'a [u8],
}

impl Line<'_> {
    /// A refusal placed at this line.
    pub fn refusal(&self, number: u8) -> Refusal {
        Refusal::new(number, self.number)
    }
}

/// Walks through a text line by line.
pub struct Lines<'a> {
    text: &'a [u8],
    at: usize,
    taken: usize,
}

impl<'a> Lines<'a> {
    pub fn new(text: &'a [u8]) -> Self {
        Lines { text, at: 0, taken: 0 }
    }

    /// Bytes taken so far.
    pub fn position(&self) -> usize {
        self.at
    }

    /// Lines taken so far.
    pub fn count(&self) -> usize {
        self.taken
    }

    /// The next line. Refused by 2 if the text is at its end, the line has no ending byte 10 or no equals sign, or its
    /// key is none of the fifteen.
    pub fn take(&mut self) -> Result<Line<'a>, Refusal> {
        let number = self.taken + 1;
        let bad = Refusal::new(2, number);
        let rest = &self.text[self.at..];
        let length = rest.iter().position(|byte| *byte == b'\n').ok_or(bad)?;
        let line = &rest[..length];
        let equals = line.iter().position(|byte| *byte == b'=').ok_or(bad)?;
        let key = key_of(&line[..equals]).ok_or(bad)?;
        self.at += length + 1;
        self.taken = number;
        Ok(Line { number, key, value: &line[equals + 1..] })
    }

    /// The next line, which must have the given key.
    pub fn expect(&mut self, key: Key) -> Result<Line<'a>, Refusal> {
        let line = self.take()?;
        if line.key == key {
            Ok(line)
        } else {
            Err(line.refusal(2))
        }
    }

    /// The end line, whose value is empty.
    pub fn expect_end(&mut self) -> Result<(), Refusal> {
        let line = self.expect(Key::End)?;
        if line.value.is_empty() {
            Ok(())
        } else {
            Err(line.refusal(2))
        }
    }
}

/// Which literals a list may hold.
#[derive(Clone, Copy, Debug, PartialEq, Eq)]
pub enum Sort {
    Fluents,
    Actions,
    Either,
}

/// The code of a literal of the given sort, if the bytes are one.
///
/// Only declared names are looked up. Each of them is well spelled, and so is whatever is the same name, so no spelling
/// needs a look here.
pub fn literal(names: &Description, bytes: &[u8], sort: Sort) -> Option<u16> {
    let (name, sign) = match bytes.strip_prefix(b"-") {
        Some(name) => (name, 1),
        None => (bytes, 0),
    };
    let symbol = names.symbol(name)?;
    let is_fluent = symbol < names.fluents.len();
    let allowed = match sort {
        Sort::Fluents => is_fluent,
        Sort::Actions => !is_fluent,
        Sort::Either => true,
    };
    allowed.then_some((2 * symbol + sign) as u16)
}

/// Reads a line's value as a list: empty, or literals between single commas. With a limit, an item past it is refused
/// by 5 before it is looked at.
pub fn list(names: &Description, line: &Line, sort: Sort, limit: Option<usize>) -> Result<Vec<u16>, Refusal> {
    let mut codes = Vec::new();
    if line.value.is_empty() {
        return Ok(codes);
    }
    for item in line.value.split(|byte| *byte == b',') {
        if limit == Some(codes.len()) {
            return Err(line.refusal(5));
        }
        let code = literal(names, item, sort).ok_or(line.refusal(6))?;
        codes.push(code);
    }
    Ok(codes)
}
