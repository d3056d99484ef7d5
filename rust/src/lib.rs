//! Lookahead tables: built from string lists, united, shrunk, asked for predictions and explanations, written as text.
//!
//! The work is done by the proved calls of the static library that `c/library` writes; this crate gives them
//! Rust's own manner. Refusals are those of document 01, and stand at each call in the order in which they are tried.
//!
//! - [`Table`] holds its rows;
//! - [`lent`] has the calls over lent slices, which allocate nothing;
//! - [`raw`] has the declarations.
//!
//! ```
//! use lookahead::{Mode, Table};
//!
//! let table = Table::intake(&[(1, &[&[5], &[7]]), (2, &[&[5, 6]])])?.table;
//! let answer = table.predict(Mode::Intake, 2, &[5, 9])?;
//! assert_eq!((1, 1), (answer.production, answer.entered));
//! let (matched, rows) = table.explain(&[5, 9]);
//! let expected: Vec<u16> = rows.into_iter().map(|row| row.terminal).collect();
//! assert_eq!((1, vec![6]), (matched, expected));
//! # Ok::<(), lookahead::Refusal>(())
//! ```

#![warn(missing_docs)]

pub mod lent;
mod mode;
pub mod raw;
mod refusal;
mod rows;
mod table;

pub use lent::Predicted;
pub use mode::Mode;
pub use refusal::Refusal;
pub use rows::{Row, Rows};
pub use table::{Shrunk, Table};
