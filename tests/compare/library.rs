//! The library's side of the comparison: the functions of the C header, with memory watched around all that is lent.
//!
//! Only the programs that link the library include this file; it is no part of the package's own library.

use compare::call::{Function, Part};
use compare::memory::Place::{self, OfBytes, OfWords};
use compare::sides::Side;

#[link(name = "huntyghai", kind = "static")]
extern "C" {
    fn huntyghai_report(input: *const u8, length: usize, out: *mut u8, room: usize) -> usize;
    fn huntyghai_check_set(values: *const u8, atoms: usize, table: *const u16, words: usize) -> u64;
    fn huntyghai_check_completion(values: *const u8, atoms: usize, table: *const u16, words: usize) -> u64;
    #[rustfmt::skip]
    fn huntyghai_check_by_levels(
        values: *const u8,
        atoms: usize,
        table: *const u16,
        words: usize,
        levels: *const u16,
        codes: usize,
    ) -> u64;
    fn huntyghai_translate(text: *const u8, length: usize, table: *mut u16, room: usize) -> u64;
    #[rustfmt::skip]
    fn huntyghai_read_history(
        text: *const u8,
        length: usize,
        history: *const u8,
        history_length: usize,
        values: *mut u8,
        atoms: usize,
    ) -> u64;
    #[rustfmt::skip]
    fn huntyghai_check_history(
        text: *const u8,
        length: usize,
        values: *const u8,
        atoms: usize,
        table: *mut u16,
        room: usize,
    ) -> u64;
    fn huntyghai_causal_reading(input: *const u8, length: usize) -> u64;
}

/// The linked library.
pub struct Library {
    /// Lend each part in memory of just its length, without guards around it.
    pub exact: bool,
}

/// No answer: what is said where memory beside a part that was lent was written to.
const BESIDE: u64 = u64::MAX;

impl Library {
    /// Memory for the parts of a call, with what they hold in it.
    pub fn places(&self, parts: &[Part]) -> Vec<Place> {
        parts.iter().map(|part| Place::new(part, self.exact)).collect()
    }
}

impl Side for Library {
    fn say(&mut self, function: Function, parts: &mut [Part]) -> u64 {
        let mut places = self.places(parts);
        let mut number = called(function, &mut places);
        for (part, place) in parts.iter_mut().zip(&places) {
            match place.left() {
                Some(left) => *part = left,
                None => number = BESIDE,
            }
        }
        number
    }
}

/// Makes the call. Each place is memory of its own that lives as long as the call, so that none overlaps another, and lengths
/// are those of the places.
pub fn called(function: Function, places: &mut [Place]) -> u64 {
    use Function as F;
    // SAFETY: as said above; the functions keep nothing and write within the lengths they are given.
    unsafe {
        match (function, places) {
            (F::Report, [OfBytes(a), OfBytes(b)]) => {
                huntyghai_report(a.place(), a.length(), b.place(), b.length()) as u64
            }
            (F::CheckSet, [OfBytes(a), OfWords(b)]) => {
                huntyghai_check_set(a.place(), a.length(), b.place(), b.length())
            }
            (F::CheckCompletion, [OfBytes(a), OfWords(b)]) => {
                huntyghai_check_completion(a.place(), a.length(), b.place(), b.length())
            }
            (F::CheckByLevels, [OfBytes(a), OfWords(b), OfWords(c)]) => {
                huntyghai_check_by_levels(a.place(), a.length(), b.place(), b.length(), c.place(), c.length())
            }
            (F::Translate, [OfBytes(a), OfWords(b)]) => {
                huntyghai_translate(a.place(), a.length(), b.place(), b.length())
            }
            (F::ReadHistory, [OfBytes(a), OfBytes(b), OfBytes(c)]) => {
                huntyghai_read_history(a.place(), a.length(), b.place(), b.length(), c.place(), c.length())
            }
            (F::CheckHistory, [OfBytes(a), OfBytes(b), OfWords(c)]) => {
                huntyghai_check_history(a.place(), a.length(), b.place(), b.length(), c.place(), c.length())
            }
            (F::CausalReading, [OfBytes(a)]) => huntyghai_causal_reading(a.place(), a.length()),
            (function, _) => unreachable!("{function:?} is not lent this"),
        }
    }
}
