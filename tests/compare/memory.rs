//! Memory that is lent to a library, watched on both sides of what is lent.

use crate::call::Part::{self, Bytes, Words};

/// So many elements stand before and behind each part that is lent.
const GUARD: usize = 16;
/// What the guards hold: bytes of no text and no value, and words of no rule.
const BYTE: u8 = 0xa5;
const WORD: u16 = 0xa5a5;

/// Elements between guards, or without guards in memory of just their length, so that a tool which watches memory sees every
/// access beside them.
pub struct Watched<T> {
    memory: Box<[T]>,
    guard: usize,
    mark: T,
}

impl<T: Copy + PartialEq> Watched<T> {
    fn new(part: &[T], mark: T, exact: bool) -> Self {
        let guard = if exact { 0 } else { GUARD };
        let mut memory = vec![mark; part.len() + 2 * guard].into_boxed_slice();
        memory[guard..guard + part.len()].copy_from_slice(part);
        Watched { memory, guard, mark }
    }

    pub fn length(&self) -> usize {
        self.memory.len() - 2 * self.guard
    }

    /// Where the elements lie. None at all are lent with a null pointer, for the header allows any pointer with a length of 0,
    /// and this is the one most likely to do harm.
    pub fn place(&mut self) -> *mut T {
        match self.length() {
            0 => std::ptr::null_mut(),
            _ => self.memory[self.guard..].as_mut_ptr(),
        }
    }

    /// The elements as they were left; none if a guard was written to.
    fn left(&self) -> Option<Vec<T>> {
        let end = self.guard + self.length();
        let mut around = self.memory[..self.guard].iter().chain(&self.memory[end..]);
        let is_whole = around.all(|element| *element == self.mark);
        is_whole.then(|| self.memory[self.guard..end].to_vec())
    }
}

/// A part of either sort.
pub enum Place {
    OfBytes(Watched<u8>),
    OfWords(Watched<u16>),
}

impl Place {
    pub fn new(part: &Part, exact: bool) -> Self {
        match part {
            Words(words) => Place::OfWords(Watched::new(words, WORD, exact)),
            part => Place::OfBytes(Watched::new(part.as_bytes(), BYTE, exact)),
        }
    }

    /// The part as it was left; none if memory beside it was written to.
    pub fn left(&self) -> Option<Part> {
        match self {
            Place::OfBytes(place) => place.left().map(Bytes),
            Place::OfWords(place) => place.left().map(Words),
        }
    }
}

#[cfg(test)]
mod tests {
    use super::*;

    /// A part with one word written so many places behind its start.
    fn written(part: &[u16], offset: isize) -> Option<Part> {
        let mut place = Place::new(&Part::words(part), false);
        if let Place::OfWords(words) = &mut place {
            let start = words.memory[words.guard..].as_mut_ptr();
            // SAFETY: the offsets tried stay within the guards.
            unsafe { *start.offset(offset) = 7 };
        }
        place.left()
    }

    #[test]
    fn what_is_written_beside_a_part_is_noticed() {
        assert_eq!(written(&[1, 2, 3], 2), Some(Part::words([1, 2, 7])));
        for offset in [-16, -1, 3, 18] {
            assert_eq!(written(&[1, 2, 3], offset), None, "{offset}");
        }
        assert_eq!(written(&[], 0), None);
    }

    #[test]
    fn an_exact_part_has_nothing_beside_it() {
        let Place::OfBytes(mut bytes) = Place::new(&Part::bytes([1, 2]), true) else {
            panic!("bytes were lent");
        };
        assert_eq!((bytes.memory.len(), bytes.length()), (2, 2));
        assert!(!bytes.place().is_null());
        let Place::OfBytes(mut none) = Place::new(&Part::bytes([]), false) else {
            panic!("bytes were lent");
        };
        assert!(none.place().is_null());
    }
}
