//! The checks on lent tables, 1 to 7, each over all rows before the next.

use super::{Answer, refuse_if};
use crate::Lent;

/// The least length of an output slice, and the most numbers in a row slice.
pub const ROOM: usize = 16_384;
/// The most states a result may have.
pub const STATES: usize = 1_024;
const LAST_STATE: i32 = 1_023;
const LAST_NUMBER: i32 = 65_535;
pub const LAST_K: usize = 16;

/// 1, for a row slice.
pub fn length(rows: &[i32]) -> Answer<()> {
    refuse_if(!rows.len().is_multiple_of(4) || rows.len() > ROOM, 1)
}

/// 1, for an output slice.
pub fn room(numbers: usize) -> Answer<()> {
    refuse_if(numbers < ROOM, 1)
}

/// 2, over prod0, k and all rows.
pub fn range(table: Lent) -> Answer<()> {
    let fits = production(table.prod0) && table.k <= LAST_K && rows(table).all(row_fits);
    refuse_if(!fits, 2)
}

fn row_fits([from, terminal, to, prod]: [i32; 4]) -> bool {
    let state = |n| (0..=LAST_STATE).contains(&n);
    state(from) && (0..=LAST_NUMBER).contains(&terminal) && state(to) && production(prod)
}

fn production(n: i32) -> bool {
    (-1..=LAST_NUMBER).contains(&n)
}

/// 3, strictly rising by (from, terminal).
pub fn order(table: Lent) -> Answer<()> {
    let places: Vec<(i32, i32)> = rows(table).map(|r| (r[0], r[1])).collect();
    refuse_if(!places.windows(2).all(|w| w[0] < w[1]), 3)
}

/// 4, each row goes up.
pub fn shape(table: Lent) -> Answer<()> {
    refuse_if(rows(table).any(|r| r[2] <= r[0]), 4)
}

/// 5, each from is 0 or some row's to.
pub fn loose(table: Lent) -> Answer<()> {
    let held = |from| from == 0 || rows(table).any(|r| r[2] == from);
    refuse_if(!rows(table).all(|r| held(r[0])), 5)
}

/// 6, one production for each to-state.
pub fn split(table: Lent) -> Answer<()> {
    let unlike = |a: [i32; 4]| rows(table).any(|b| a[2] == b[2] && a[3] != b[3]);
    refuse_if(rows(table).any(unlike), 6)
}

/// 7, the to-numbers are 1 to the row count, each once.
pub fn tree(table: Lent) -> Answer<()> {
    let mut tos: Vec<i32> = rows(table).map(|r| r[2]).collect();
    tos.sort();
    let count = tos.len() as i32;
    refuse_if(tos != (1..=count).collect::<Vec<i32>>(), 7)
}

/// 2 to 6, in order.
pub fn ruled(table: Lent) -> Answer<()> {
    range(table)?;
    order(table)?;
    shape(table)?;
    loose(table)?;
    split(table)
}

/// The rows, four numbers each.
pub fn rows(table: Lent<'_>) -> impl Iterator<Item = [i32; 4]> {
    let row = |r: &[i32]| [r[0], r[1], r[2], r[3]];
    table.rows.chunks_exact(4).map(row)
}

/// The other way, rising by (from, terminal).
pub fn flat(mut rows: Vec<[i32; 4]>) -> Vec<i32> {
    rows.sort();
    rows.concat()
}
