//! Document 01 written out plainly: both modes, all refusals in its order, on raw inputs.
//! It follows the document, not the Rust, and makes no haste.

mod build;
mod checks;
mod intake;
mod shrink;
mod text;
mod unite;
mod walk;

pub use build::build;
pub use intake::{Lists, defined, intake};
pub use shrink::shrink;
pub use text::{tabrep, text_in, text_out};
pub use unite::unite;
pub use walk::{Explained, explain, predict};

/// The two modes; the caller names one.
#[derive(Debug, Clone, Copy, PartialEq, Eq)]
pub enum Mode {
    Archive,
    Intake,
}

pub const MODES: [Mode; 2] = [Mode::Archive, Mode::Intake];

/// A refusal: its number and, for 8 and 13, its detail.
#[derive(Debug, Clone, Copy, PartialEq, Eq)]
pub enum Refusal {
    /// Any number but 8 and 13.
    Plain(u64),
    /// 8: the first table's production, then the second's.
    Clash(i32, i32),
    /// 13: the byte offset of the first bad line.
    Text(usize),
}

impl Refusal {
    pub fn number(self) -> u64 {
        match self {
            Refusal::Plain(number) => number,
            Refusal::Clash(..) => 8,
            Refusal::Text(_) => 13,
        }
    }
}

/// An answer or a refusal.
pub type Answer<T> = Result<T, Refusal>;

/// Refuses with the number if the fault is there.
fn refuse_if(fault: bool, number: u64) -> Answer<()> {
    if fault {
        Err(Refusal::Plain(number))
    } else {
        Ok(())
    }
}
