//! Cases with a name: what a reader of the Rust is apt to get wrong, and document 01's worked
//! cases. Each answer is written down by hand; a test asks the reading and the Rust for it.

mod explain;
mod intake;
mod predict;
mod rust_tests;
mod shrink;
mod text;
mod unite;

use super::case::{Ask, Said};
use super::tables::Row;
use crate::reading::{Answer, Mode, Refusal};
use crate::{Lent, Table};

/// Some cases that show one thing.
pub struct Named {
    pub name: &'static str,
    pub cases: Vec<(Ask<'static>, Said)>,
}

/// All of them, in the order of the list.
pub fn all() -> Vec<Named> {
    let mut all = predict::all();
    all.extend(explain::all());
    all.extend(unite::all());
    all.extend(shrink::all());
    all.extend(rust_tests::all());
    all.extend(intake::all());
    all.extend(text::all());
    all
}

/// A table as a caller lends it.
fn lent(prod0: i32, k: usize, rows: &'static [Row]) -> Lent<'static> {
    Lent::new(prod0, k, rows.as_flattened())
}

/// The answer of a call that makes a table.
fn made(prod0: i32, k: usize, states: usize, rows: &[Row]) -> Answer<Table> {
    Ok(Table {
        prod0,
        k,
        states,
        rows: rows.concat(),
    })
}

/// A refusal by a number.
fn refused<T>(number: u64) -> Answer<T> {
    Err(Refusal::Plain(number))
}

/// One case of predict.
fn predict(
    mode: Mode,
    table: Lent<'static>,
    stream_k: usize,
    tokens: &'static [u16],
    said: Answer<(i32, usize)>,
) -> (Ask<'static>, Said) {
    let ask = Ask::Predict {
        mode,
        table,
        stream_k,
        tokens,
    };
    (ask, Said::Predicted(said))
}
