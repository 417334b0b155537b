//! What can be called, what is lent, and what was said.
//!
//! Calls come in lists. A later call may be lent what an earlier one left behind, so that whatever a caller keeps between two
//! calls (a table, values, a session) is the list's state.

use oracle::header::Answer;
use std::fmt;

/// The functions of the C header.
#[derive(Clone, Copy, Debug, PartialEq, Eq, PartialOrd, Ord)]
pub enum Function {
    Report,
    CheckSet,
    CheckCompletion,
    CheckByLevels,
    Translate,
    ReadHistory,
    CheckHistory,
    CausalReading,
}

/// What each function is lent, in the header's order: `b` bytes, `w` 16-bit words; a capital may be written to.
pub const FUNCTIONS: [(Function, &str, &str); 8] = [
    (Function::Report, "report", "bB"),
    (Function::CheckSet, "check_set", "bw"),
    (Function::CheckCompletion, "check_completion", "bw"),
    (Function::CheckByLevels, "check_by_levels", "bww"),
    (Function::Translate, "translate", "bW"),
    (Function::ReadHistory, "read_history", "bbB"),
    (Function::CheckHistory, "check_history", "bbW"),
    (Function::CausalReading, "causal_reading", "b"),
];

impl Function {
    pub fn name(self) -> &'static str {
        FUNCTIONS[self as usize].1
    }

    /// The sorts of its parts, a letter each.
    pub fn sorts(self) -> &'static [u8] {
        FUNCTIONS[self as usize].2.as_bytes()
    }

    pub fn named(name: &str) -> Option<Function> {
        let found = FUNCTIONS.iter().find(|(_, known, _)| *known == name);
        found.map(|(function, _, _)| *function)
    }
}

/// One part of what is lent.
#[derive(Clone, PartialEq, Eq)]
pub enum Part {
    Bytes(Vec<u8>),
    Words(Vec<u16>),
    /// What an earlier call of the list, by its number from 0, left in its part of this number.
    Left(usize, usize),
}

impl Part {
    pub fn bytes(bytes: impl AsRef<[u8]>) -> Self {
        Part::Bytes(bytes.as_ref().to_vec())
    }

    pub fn words(words: impl AsRef<[u16]>) -> Self {
        Part::Words(words.as_ref().to_vec())
    }

    pub fn as_bytes(&self) -> &[u8] {
        match self {
            Part::Bytes(bytes) => bytes,
            _ => &[],
        }
    }

    pub fn as_words(&self) -> &[u16] {
        match self {
            Part::Words(words) => words,
            _ => &[],
        }
    }
}

/// Texts are shown with escapes, all else as numbers.
impl fmt::Debug for Part {
    fn fmt(&self, out: &mut fmt::Formatter) -> fmt::Result {
        match self {
            Part::Bytes(bytes) if bytes.contains(&b'=') => write!(out, "text \"{}\"", bytes.escape_ascii()),
            Part::Bytes(bytes) => write!(out, "bytes {bytes:?}"),
            Part::Words(words) => write!(out, "words {words:?}"),
            Part::Left(call, part) => write!(out, "part {part} as call {call} left it"),
        }
    }
}

/// A function and what is lent to it.
#[derive(Clone, Debug, PartialEq, Eq)]
pub struct Call {
    pub function: Function,
    pub parts: Vec<Part>,
}

impl Call {
    pub fn new(function: Function, parts: impl Into<Vec<Part>>) -> Self {
        let parts = parts.into();
        debug_assert_eq!(parts.len(), function.sorts().len());
        Call { function, parts }
    }
}

/// What a call said: its number, and every part as it was left, those that are only read too.
#[derive(Clone, Debug, PartialEq, Eq)]
pub struct Said {
    pub number: u64,
    pub parts: Vec<Part>,
}

impl Said {
    /// The number taken apart. What `report` says is no answer but a length.
    pub fn answer(&self) -> Answer {
        Answer::from_number(self.number)
    }

    /// What `report` printed, if there was room for all of it.
    pub fn printed(&self) -> &[u8] {
        let out = self.parts[1].as_bytes();
        &out[..out.len().min(self.number as usize)]
    }
}
