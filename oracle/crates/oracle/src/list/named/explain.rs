//! Explain: the count of matched tokens, and the start and the count of the stretch, in numbers.

use super::{Named, lent, refused};
use crate::Lent;
use crate::list::{Ask, Said};
use crate::reading::{Answer, Explained};

pub fn all() -> Vec<Named> {
    let mut all = any_k();
    all.extend(nothing());
    all.extend(five());
    all.extend(worked());
    all
}

fn explained(
    name: &'static str,
    table: Lent<'static>,
    tokens: &'static [u16],
    matched: Answer<usize>,
    start: usize,
    count: usize,
) -> Named {
    let said = Explained {
        matched,
        start,
        count,
    };
    Named {
        name,
        cases: vec![(Ask::Explain { table, tokens }, Said::Explained(said))],
    }
}

/// A refusal has the empty stretch at the slice's end.
fn any_k() -> Vec<Named> {
    let of = |prod0, k| lent(prod0, k, &[[0, 5, 1, 1], [1, 6, 2, 2], [2, 7, 3, 3]]);
    let tokens = &[5, 6, 9];
    let empty = lent(-1, 17, &[]);
    vec![
        explained("explain disregards k: 0", of(-1, 0), tokens, Ok(2), 8, 4),
        explained("explain disregards k: 1", of(-1, 1), tokens, Ok(2), 8, 4),
        explained("explain disregards k: 16", of(-1, 16), tokens, Ok(2), 8, 4),
        explained("but k 17 is 2", of(-1, 17), tokens, refused(2), 12, 0),
        explained("also without rows or tokens", empty, &[], refused(2), 0, 0),
        explained("and so is prod0 -2", of(-2, 1), tokens, refused(2), 12, 0),
    ]
}

fn nothing() -> Vec<Named> {
    let table = lent(-1, 1, &[[0, 5, 1, 1]]);
    let empty = lent(3, 1, &[]);
    vec![
        explained("explain without tokens: 0, empty", table, &[], Ok(0), 4, 0),
        explained("explain without rows: 0, empty", empty, &[5], Ok(0), 0, 0),
    ]
}

fn five() -> Vec<Named> {
    let of = |k| Lent::new(-1, k, &[0, 5, 1, 1, 1]);
    let five = "explain of five numbers: 1, empty at 5";
    let both = "also when k is out of bounds";
    vec![
        explained(five, of(1), &[5, 9], refused(1), 5, 0),
        explained(both, of(17), &[5, 9], refused(1), 5, 0),
    ]
}

/// Document 01's A with B in intake mode. Only explain stops at the first token without a row.
fn worked() -> Vec<Named> {
    let table = lent(-1, 2, &[[0, 5, 1, 1], [0, 7, 2, 1], [1, 6, 3, 2]]);
    let stopped = "explain 5 9: 1 matched, the row at 8";
    let late = "explain 9 5: 0 matched, both rows of 0";
    let leaf = "explain 7 5: 1 matched, a state without rows";
    vec![
        explained(stopped, table, &[5, 9], Ok(1), 8, 4),
        explained("explain 5: 1 matched, no rows", table, &[5], Ok(1), 12, 0),
        explained(late, table, &[9, 5], Ok(0), 0, 8),
        explained(leaf, table, &[7, 5], Ok(1), 12, 0),
    ]
}
