//! What the Rust answers, and what document 01 says, both on plain numbers.
//!
//! - [`rust`]: the calls in archive mode, answered by the original files.
//! - [`reading`]: document 01 written out plainly, both modes, with all refusals.
//! - [`agree`]: both asked, and compared where the Rust has a say.
//! - [`make`]: small tables in full and random ones from fixed seeds.
//! - [`list`]: the fixed list of cases.
//! - [`faults`]: the Rust's faults, each with its smallest input.

pub mod agree;
pub mod faults;
pub mod list;
pub mod make;
pub mod reading;
pub mod rust;

/// A table as an answer: `rows` holds four numbers a row, rising by (from, terminal).
#[derive(Debug, Clone, PartialEq, Eq, Default)]
pub struct Table {
    pub prod0: i32,
    pub k: usize,
    pub states: usize,
    pub rows: Vec<i32>,
}

impl Table {
    /// The table as a caller lends it.
    pub fn lent(&self) -> Lent<'_> {
        Lent::new(self.prod0, self.k, &self.rows)
    }
}

/// A table as a caller lends it: any numbers, any length.
#[derive(Debug, Clone, Copy, PartialEq, Eq)]
pub struct Lent<'a> {
    pub prod0: i32,
    pub k: usize,
    pub rows: &'a [i32],
}

impl<'a> Lent<'a> {
    pub fn new(prod0: i32, k: usize, rows: &'a [i32]) -> Self {
        Lent { prod0, k, rows }
    }
}
