//! A small generator of random numbers (splitmix64), so that a printed seed makes a run again.

/// What the state grows by.
const STEP: u64 = 0x9e37_79b9_7f4a_7c15;

/// The generator's state.
#[derive(Clone, Debug)]
pub struct Random {
    state: u64,
}

/// Bits that depend on every bit of a word.
fn mixed(mut word: u64) -> u64 {
    word = (word ^ (word >> 30)).wrapping_mul(0xbf58_476d_1ce4_e5b9);
    word = (word ^ (word >> 27)).wrapping_mul(0x94d0_49bb_1331_11eb);
    word ^ (word >> 31)
}

impl Random {
    pub fn new(seed: u64) -> Self {
        Random { state: seed }
    }

    /// The generator of one case, by the run's seed and the case's number alone. Each is mixed before the other is added, the
    /// seed twice, so that no seed draws the cases of another under other numbers, nor a number those of a seed.
    pub fn of_case(seed: u64, number: u64) -> Self {
        let run = mixed(mixed(seed.wrapping_add(STEP)));
        Random::new(mixed(run.wrapping_add(mixed(number))))
    }

    /// The next 64 random bits.
    pub fn bits(&mut self) -> u64 {
        self.state = self.state.wrapping_add(STEP);
        mixed(self.state)
    }

    /// A number below the given one, which is not 0. The slight unevenness of the remainder does no harm here.
    pub fn below(&mut self, limit: usize) -> usize {
        (self.bits() >> 16) as usize % limit
    }

    /// A number from `low` to `high`, both included.
    pub fn between(&mut self, low: usize, high: usize) -> usize {
        low + self.below(high - low + 1)
    }

    /// True in `part` of `whole` cases.
    pub fn chance(&mut self, part: usize, whole: usize) -> bool {
        self.below(whole) < part
    }

    pub fn byte(&mut self) -> u8 {
        (self.bits() >> 32) as u8
    }

    pub fn word(&mut self) -> u16 {
        (self.bits() >> 32) as u16
    }

    /// One of the items, of which there is at least one.
    pub fn pick<'a, T>(&mut self, items: &'a [T]) -> &'a T {
        &items[self.below(items.len())]
    }

    /// Puts the items into random order.
    pub fn shuffle<T>(&mut self, items: &mut [T]) {
        for last in (1..items.len()).rev() {
            items.swap(last, self.below(last + 1));
        }
    }

    /// A number whose place in a table of weights is drawn in proportion to its weight.
    pub fn weighted(&mut self, weights: &[usize]) -> usize {
        let mut left = self.below(weights.iter().sum());
        for (index, weight) in weights.iter().enumerate() {
            if left < *weight {
                return index;
            }
            left -= weight;
        }
        weights.len() - 1
    }
}
