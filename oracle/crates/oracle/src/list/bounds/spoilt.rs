//! Tables at the boundaries of the checks 1 to 7, each with the first number that refuses it.

use super::super::ROOM;
use crate::Lent;

/// A table and the first of 1 to 7 that refuses it; 0 for a tree.
pub struct Spoilt {
    pub number: u64,
    pub prod0: i32,
    pub k: usize,
    pub rows: Vec<i32>,
}

impl Spoilt {
    pub fn lent(&self) -> Lent<'_> {
        Lent::new(self.prod0, self.k, &self.rows)
    }

    /// Shrink does not ask for a tree.
    pub fn for_shrink(&self) -> u64 {
        if self.number == 7 { 0 } else { self.number }
    }

    /// Predict and explain do not ask for a ruled table.
    pub fn for_walks(&self) -> u64 {
        if self.number > 3 { 0 } else { self.number }
    }
}

fn spoilt(number: u64, prod0: i32, k: usize, rows: &[i32]) -> Spoilt {
    Spoilt {
        number,
        prod0,
        k,
        rows: rows.to_vec(),
    }
}

/// One of each number, the smallest there is.
pub fn one_each() -> Vec<Spoilt> {
    vec![
        spoilt(0, -1, 1, &[0, 5, 1, 1]),
        spoilt(1, -1, 1, &[0]),
        spoilt(2, -1, 1, &[0, 65_536, 1, 1]),
        spoilt(3, -1, 1, &[0, 6, 1, 1, 0, 5, 2, 1]),
        spoilt(4, -1, 1, &[0, 5, 0, 1]),
        spoilt(5, -1, 1, &[1, 5, 2, 1]),
        spoilt(6, -1, 1, &[0, 5, 1, 1, 0, 6, 1, 2]),
        spoilt(7, -1, 1, &[0, 5, 2, 1]),
    ]
}

/// All boundaries, and neighbouring numbers at once.
pub fn all() -> Vec<Spoilt> {
    let mut all = one_each();
    all.extend(lengths());
    all.extend(ranges());
    all.extend(orders());
    all.extend(shapes());
    all.extend(neighbours());
    all
}

fn lengths() -> Vec<Spoilt> {
    let good = [0, 5, 1, 1, 1, 5, 2, 1];
    let mut all: Vec<Spoilt> = (0..=8)
        .map(|n| spoilt(if n % 4 == 0 { 0 } else { 1 }, -1, 1, &good[..n]))
        .collect();
    all.push(spoilt(1, -1, 1, &[0; ROOM + 4]));
    all
}

/// The longest slice that is taken: 4,096 rows, all into one state.
pub fn longest() -> Spoilt {
    let rows: Vec<i32> = (0..4_096).flat_map(|t| [0, t, 1, 1]).collect();
    spoilt(7, -1, 1, &rows)
}

fn ranges() -> Vec<Spoilt> {
    let row = |number, row: [i32; 4]| spoilt(number, -1, 1, &row);
    let mut all = vec![
        row(4, [1_023, 5, 1, 1]),
        row(7, [0, 5, 1_023, 1]),
        row(0, [0, 0, 1, 0]),
        row(0, [0, 65_535, 1, 65_535]),
        row(0, [0, 5, 1, -1]),
    ];
    for outside in [-1, 1_024, i32::MIN, i32::MAX] {
        all.push(row(2, [outside, 5, 1, 1]));
        all.push(row(2, [0, 5, outside, 1]));
    }
    for outside in [-1, 65_536, i32::MIN, i32::MAX] {
        all.push(row(2, [0, outside, 1, 1]));
    }
    for outside in [-2, 65_536, i32::MIN, i32::MAX] {
        all.push(row(2, [0, 5, 1, outside]));
        all.push(spoilt(2, outside, 1, &[0, 5, 1, 1]));
    }
    all
}

fn orders() -> Vec<Spoilt> {
    vec![
        spoilt(3, -1, 1, &[0, 5, 1, 1, 0, 5, 2, 1]),
        spoilt(3, -1, 1, &[0, 5, 1, 1, 0, 5, 1, 1]),
        spoilt(3, -1, 2, &[1, 5, 2, 1, 0, 6, 1, 1]),
        spoilt(3, -1, 2, &[0, 5, 1, 1, 1, 5, 2, 1, 0, 6, 3, 1]),
        spoilt(0, -1, 2, &[0, 5, 1, 1, 0, 6, 2, 1, 1, 4, 3, 1]),
    ]
}

fn shapes() -> Vec<Spoilt> {
    vec![
        spoilt(4, -1, 2, &[0, 5, 1, 1, 1, 5, 1, 1]),
        spoilt(4, -1, 2, &[0, 5, 1, 1, 1, 5, 0, 1]),
        spoilt(0, -1, 2, &[0, 5, 1, 1, 1, 5, 2, 1]),
        spoilt(5, -1, 2, &[0, 5, 1, 1, 2, 5, 3, 1]),
        spoilt(5, -1, 2, &[0, 5, 2, 1, 1, 5, 2, 1]),
        spoilt(6, -1, 2, &[0, 5, 1, -1, 0, 6, 1, 1]),
        spoilt(6, -1, 2, &[0, 5, 1, 1, 0, 6, 2, -1, 1, 6, 2, 0]),
        spoilt(7, -1, 2, &[0, 5, 1, 1, 0, 6, 1, 1]),
        spoilt(7, -1, 2, &[0, 5, 1, 1, 0, 6, 3, 1]),
        spoilt(7, -1, 2, &[0, 5, 1, 1, 0, 6, 2, 1, 1, 6, 2, 1]),
        spoilt(0, -1, 2, &[0, 5, 2, 1, 0, 6, 1, 1]),
    ]
}

/// Two numbers hold at once, and the earlier one must win.
fn neighbours() -> Vec<Spoilt> {
    vec![
        // 1 and 2
        spoilt(1, -2, 17, &[0, 65_536, 1, 1, 0]),
        // 2 and 3
        spoilt(2, -1, 1, &[0, 6, 1, 1, 0, 5, 2, 65_536]),
        spoilt(2, -1, 17, &[0, 6, 1, 1, 0, 5, 2, 1]),
        spoilt(2, -2, 1, &[0, 6, 1, 1, 0, 5, 2, 1]),
        // 3 and 4
        spoilt(3, -1, 1, &[0, 6, 0, 1, 0, 5, 2, 1]),
        // 4 and 5
        spoilt(4, -1, 1, &[1, 5, 1, 1]),
        spoilt(4, -1, 1, &[1, 5, 2, 1, 3, 5, 3, 1]),
        // 5 and 6
        spoilt(5, -1, 1, &[0, 5, 1, 1, 0, 6, 1, 2, 2, 5, 3, 1]),
        // 6 and 7
        spoilt(6, -1, 1, &[0, 5, 2, 1, 0, 6, 2, 2]),
        // 2 and 4, 3 and 5, 4 and 6
        spoilt(2, -1, 1, &[0, 5, 0, 1, 0, 6, 1, 65_536]),
        spoilt(3, -1, 1, &[1, 5, 2, 1, 1, 4, 2, 1]),
        spoilt(4, -1, 1, &[0, 5, 1, 1, 0, 6, 1, 2, 1, 5, 1, 2]),
    ]
}

/// The bounds of prod0 and k around a good row.
pub fn heads() -> Vec<Spoilt> {
    let row = [0, 5, 1, 1];
    let mut all = Vec::new();
    for (number, prod0) in [(0, -1), (0, 0), (0, 65_535), (2, 65_536), (2, -2)] {
        all.push(spoilt(number, prod0, 1, &row));
        all.push(spoilt(number, prod0, 1, &[]));
    }
    for (number, k) in [(0, 0), (0, 16), (2, 17), (2, 1 << 32), (2, usize::MAX)] {
        all.push(spoilt(number, -1, k, &row));
        all.push(spoilt(number, 1, k, &[]));
    }
    all
}
