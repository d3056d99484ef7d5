//! The families of cases, each in parts that can be worked on side by side.

mod batches;
mod bounds;
mod damaged;
mod intake;
mod large;
mod manner;
mod random;
mod small;
mod texts;

use crate::desk::Desk;
use crate::part::Part;
use oracle::Table;
use oracle::make::{Dice, Size};

pub struct Family {
    pub name: &'static str,
    pub run: fn(&mut Desk, Part),
    /// Taken in full, so that a second round would say nothing new.
    pub once: bool,
}

const fn full(name: &'static str, run: fn(&mut Desk, Part)) -> Family {
    let once = true;
    Family { name, run, once }
}

const fn drawn(name: &'static str, run: fn(&mut Desk, Part)) -> Family {
    let once = false;
    Family { name, run, once }
}

pub const ALL: [Family; 24] = [
    full("all small lists, built", small::lists),
    full("all pairs of small trees, united", small::pairs),
    full("all small ruled tables, shrunk and written", small::ruled),
    full("all windows over all small tables", small::walks),
    full("all small batches of windows", batches::small),
    full("every limit of a batch from both sides", batches::limits),
    full("all tables of boundary numbers", bounds::tables),
    full("all pairs of small lists, intake", intake::pairs),
    full("few lists in all orders, all windows, intake", intake::few),
    full("all one-byte changes of texts", texts::bytes),
    full("every limit from both sides", bounds::limits),
    drawn("random lists, built", random::lists),
    drawn("random trees, united", random::trees),
    drawn("random ruled tables, shrunk", random::ruled),
    drawn("random tables, walked", random::walks),
    drawn("random batches of windows", batches::drawn),
    drawn("built, united, shrunk and walked", random::chains),
    drawn("random lists in all orders, intake", intake::orders),
    drawn("random texts, there and back", texts::back),
    drawn("large lists and trees", large::trees),
    drawn("large tables, shrunk and walked", large::tables),
    drawn("damaged tables", damaged::tables),
    drawn("damaged lists and texts", damaged::lists_and_texts),
    drawn("the safe functions of the crate", manner::functions),
];

const FEW: [u16; 3] = [0, 1, 2];
const WIDE: [u16; 12] = [0, 1, 2, 3, 5, 8, 13, 100, 1_000, 30_000, 65_534, 65_535];
const PRODUCTIONS: [&[i32]; 5] = [
    &[-1, 1],
    &[-1, 1, 2],
    &[-1, -1, -1, 1],
    &[-1, 0, 65_535, 7, 8, 9],
    &[-1, -1, -1, -1, 4, 5, 6],
];

fn size<'a>(dice: &mut Dice, states: usize, rows: usize) -> Size<'a> {
    Size {
        states: dice.within(1, states),
        rows,
        terminals: dice.pick(&[&FEW[..], &WIDE[..]]),
        productions: dice.pick(&PRODUCTIONS),
        gaps: dice.chance(40),
    }
}

/// Mostly the length that is asked for, sometimes more, seldom less.
fn room(dice: &mut Dice, least: usize) -> usize {
    match dice.below(40) {
        0 => least - 1,
        1 => dice.pick(&[0, 1, 4, least / 2]),
        2..6 => least + dice.within(1, crate::desk::GUARD),
        _ => least,
    }
}

/// The same table with another production for some rows, so that trees match in part.
fn varied(dice: &mut Dice, t: &Table, productions: &[i32]) -> Table {
    let mut other = t.clone();
    for row in other.rows.chunks_exact_mut(4) {
        if dice.chance(40) {
            row[3] = dice.pick(productions);
        }
    }
    other.prod0 = dice.pick(productions);
    other.k = dice.within(0, 16);
    other
}
