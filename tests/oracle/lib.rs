//! The contract, read independently of the checker: one file for each layer, from texts to the functions of the C header.
//!
//! Every file names the others by `super`, so that the whole can stand as a module anywhere; tests/must-find does so with copies
//! in which a slip was made.

pub mod causal;
pub mod check;
pub mod completion;
pub mod description;
pub mod engine;
pub mod halves;
pub mod header;
pub mod history;
pub mod record;
pub mod report;
pub mod text;
pub mod translation;

/// Longest text a reader takes, in bytes.
pub const MAX_TEXT: usize = 65_535;
/// Most fluents of a description.
pub const MAX_FLUENTS: usize = 24;
/// Most actions of a description.
pub const MAX_ACTIONS: usize = 8;
/// Most laws of a description.
pub const MAX_LAWS: usize = 64;
/// Most literals in one list of a law.
pub const MAX_LIST: usize = 6;
/// Longest horizon.
pub const MAX_HORIZON: usize = 30;
/// Longest name, in bytes.
pub const MAX_NAME: usize = 16;
/// Most atoms the engine takes.
pub const MAX_ATOMS: usize = 1_024;
/// Most rules the engine takes.
pub const MAX_RULES: usize = 4_096;
/// The head word of a rule whose head is false.
pub const FALSE_HEAD: u16 = 65_535;

/// A call turned down: the number of the contract's condition, and where it was met.
#[derive(Clone, Copy, Debug, PartialEq, Eq)]
pub struct Refusal {
    pub number: u8,
    pub place: usize,
}

impl Refusal {
    pub fn new(number: u8, place: usize) -> Self {
        Refusal { number, place }
    }
}
