//! Random inputs.

use super::{Dice, Strings};
use crate::Table;
use std::collections::btree_map::Entry;
use std::collections::{BTreeMap, BTreeSet};

/// How large a random table is and what its numbers are drawn from.
pub struct Size<'a> {
    pub states: usize,
    pub rows: usize,
    pub terminals: &'a [u16],
    pub productions: &'a [i32],
    /// Whether state numbers may have gaps.
    pub gaps: bool,
}

type Cells = BTreeMap<(i32, u16), i32>;

/// A random ruled table with just these states and at most these rows.
pub fn ruled(dice: &mut Dice, size: &Size) -> Table {
    let numbers = numbers(dice, size);
    let mut cells = grown(dice, size, &numbers);
    for _ in cells.len()..size.rows {
        let from = dice.below(numbers.len());
        if from + 1 < numbers.len() {
            let to = dice.within(from + 1, numbers.len() - 1);
            let cell = (numbers[from], dice.pick(size.terminals));
            cells.entry(cell).or_insert(numbers[to]);
        }
    }
    with_productions(dice, size, &cells)
}

/// A random tree with one row less than states.
pub fn tree(dice: &mut Dice, size: &Size) -> Table {
    let numbers: Vec<i32> = (0..size.states as i32).collect();
    let cells = grown(dice, size, &numbers);
    with_productions(dice, size, &cells)
}

fn numbers(dice: &mut Dice, size: &Size) -> Vec<i32> {
    let mut numbers = BTreeSet::from([0]);
    while numbers.len() < size.states {
        let next = numbers.len() as i32;
        let gap = dice.within(1, 1023) as i32;
        numbers.insert(if size.gaps { gap } else { next });
    }
    numbers.into_iter().collect()
}

/// One row into each state but 0, from some lower one.
fn grown(dice: &mut Dice, size: &Size, numbers: &[i32]) -> Cells {
    let mut cells = Cells::new();
    for place in 1..numbers.len() {
        loop {
            let from = numbers[dice.below(place)];
            let cell = (from, dice.pick(size.terminals));
            if let Entry::Vacant(free) = cells.entry(cell) {
                free.insert(numbers[place]);
                break;
            }
        }
    }
    cells
}

fn with_productions(dice: &mut Dice, size: &Size, cells: &Cells) -> Table {
    let prod0 = dice.pick(size.productions);
    let mut of: BTreeMap<i32, i32> = BTreeMap::new();
    let mut rows = Vec::new();
    for (&(from, terminal), &to) in cells {
        let drawn = dice.pick(size.productions);
        let production = *of.entry(to).or_insert(drawn);
        rows.extend([from, terminal as i32, to, production]);
    }
    Table {
        prod0,
        k: dice.within(0, 16),
        states: of.len() + 1,
        rows,
    }
}

/// A random rising table, ruled or not, as predict and explain take it.
pub fn rising(dice: &mut Dice, size: &Size) -> Table {
    let mut cells = BTreeMap::new();
    for _ in 0..size.rows {
        let from = dice.below(size.states) as i32;
        let to = dice.below(size.states) as i32;
        let terminal = dice.pick(size.terminals) as i32;
        cells.insert((from, terminal), (to, dice.pick(size.productions)));
    }
    let row = |(&(from, terminal), &(to, prod))| [from, terminal, to, prod];
    Table {
        prod0: dice.pick(size.productions),
        k: dice.within(0, 16),
        states: size.states,
        rows: cells.iter().flat_map(row).collect(),
    }
}

/// Random strings, some of them alike.
pub fn list(dice: &mut Dice, strings: usize, length: usize, terminals: &[u16]) -> Strings {
    let mut made = Strings::default();
    for _ in 0..strings {
        let length = dice.within(0, length);
        made.push(&tokens(dice, length, terminals));
    }
    made
}

/// All of some beginnings followed by all of some ends, so that deep states come out equal.
pub fn product_list(dice: &mut Dice, half: usize, length: usize, terminals: &[u16]) -> Strings {
    let heads = list(dice, half, length, terminals);
    let tails = list(dice, half, length, terminals);
    let mut made = Strings::default();
    for head in crate::agree::strings(&heads.lengths, &heads.tokens) {
        for tail in crate::agree::strings(&tails.lengths, &tails.tokens) {
            made.push(&[head, tail].concat());
        }
    }
    made
}

/// Random tokens.
pub fn tokens(dice: &mut Dice, count: usize, terminals: &[u16]) -> Vec<u16> {
    (0..count).map(|_| dice.pick(terminals)).collect()
}

/// A copy of the rows with one thing spoilt: a number changed, two rows swapped, a slice cut.
pub fn damaged(dice: &mut Dice, rows: &[i32]) -> Vec<i32> {
    const STRAY: [i32; 9] = [-2, -1, 0, 1, 2, 1024, 65536, i32::MAX, i32::MIN];
    let mut rows = rows.to_vec();
    let count = rows.len() / 4;
    match dice.below(4) {
        0 if count > 0 => {
            let place = dice.below(rows.len());
            rows[place] = dice.pick(&STRAY);
        }
        1 if count > 0 => {
            let place = dice.below(rows.len());
            rows[place] += dice.pick(&[-1, 1]);
        }
        2 if count > 1 => {
            let (a, b) = (dice.below(count), dice.below(count));
            (0..4).for_each(|i| rows.swap(4 * a + i, 4 * b + i));
        }
        _ => {
            let left = dice.below(rows.len() + 1);
            rows.truncate(left);
        }
    }
    rows
}
