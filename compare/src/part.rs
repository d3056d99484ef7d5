//! A part of a family's work.

use oracle::make::Dice;

/// Parts of one family differ in `index`; rounds of a long run in `round`.
#[derive(Debug, Clone, Copy)]
pub struct Part {
    pub index: usize,
    pub of: usize,
    pub round: usize,
    /// A long run goes further in the first round's families that are taken in full.
    pub long: bool,
}

impl Part {
    /// Whether the case of this number belongs to this part.
    pub fn has(&self, case: usize) -> bool {
        case % self.of == self.index
    }

    /// Dice of its own, the same every time.
    pub fn dice(&self, family: u64) -> Dice {
        let place = (self.round * self.of + self.index) as u64;
        Dice::new(family * 1_000_003 + place)
    }

    /// This part's share of so many cases.
    pub fn share(&self, cases: usize) -> usize {
        cases / self.of
    }
}
