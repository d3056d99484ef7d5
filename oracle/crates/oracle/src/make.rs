//! Inputs: small ones in full, random ones from fixed seeds.

mod dice;
mod lists;
mod random;
mod shapes;
mod small;
mod texts;

pub use dice::Dice;
pub use lists::{Window, few_lists, fixed, orders, windows};
pub use random::{Size, damaged, list, product_list, rising, ruled, tokens, tree};
pub use shapes::{SHAPES, full};
pub use small::{lists, ruled_tables, trees, walk_tables};
pub use texts::{TEXTS, damages, most_rows, text_of};

/// A list of strings as build takes it.
#[derive(Debug, Clone, PartialEq, Eq, Default)]
pub struct Strings {
    pub lengths: Vec<usize>,
    pub tokens: Vec<u16>,
}

impl Strings {
    pub fn push(&mut self, string: &[u16]) {
        self.lengths.push(string.len());
        self.tokens.extend(string);
    }

    pub fn of(strings: &[&[u16]]) -> Self {
        let mut made = Strings::default();
        for string in strings {
            made.push(string);
        }
        made
    }
}
