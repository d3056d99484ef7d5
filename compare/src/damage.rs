//! Damaged copies.

use oracle::Table;
use oracle::make::{Dice, Strings};

/// Numbers at the boundaries.
pub const BOUNDARY: [i32; 14] = [
    -2,
    -1,
    0,
    1,
    2,
    1_022,
    1_023,
    1_024,
    65_534,
    65_535,
    65_536,
    99_999,
    i32::MAX,
    i32::MIN,
];

/// One thing changed: a number, the order, the count of rows, the slice's end, prod0 or k.
pub fn table(dice: &mut Dice, good: &Table) -> Table {
    let mut t = good.clone();
    let count = t.rows.len() / 4;
    match dice.below(9) {
        0 | 1 if count > 0 => t.rows[dice.below(4 * count)] = dice.pick(&BOUNDARY),
        2 if count > 0 => t.rows[dice.below(4 * count)] += dice.pick(&[-1, 1]),
        3 if count > 1 => swapped(&mut t.rows, dice.below(count), dice.below(count)),
        4 if count > 0 => {
            let place = 4 * dice.below(count);
            t.rows.drain(place..place + 4);
        }
        5 if count > 0 => doubled(&mut t.rows, 4 * dice.below(count)),
        6 if count > 0 => t.rows.truncate(4 * count - dice.within(1, 3)),
        7 => t.prod0 = dice.pick(&BOUNDARY),
        _ => t.k = dice.pick(&[0, 1, 15, 16, 17, 1 << 32, usize::MAX]),
    }
    t
}

fn swapped(rows: &mut [i32], a: usize, b: usize) {
    (0..4).for_each(|i| rows.swap(4 * a + i, 4 * b + i));
}

fn doubled(rows: &mut Vec<i32>, place: usize) {
    let row: Vec<i32> = rows[place..place + 4].to_vec();
    rows.splice(place..place, row);
}

/// A length changed, a string or a token dropped or doubled.
pub fn strings(dice: &mut Dice, good: &Strings) -> Strings {
    let mut list = good.clone();
    let lengths = &mut list.lengths;
    match dice.below(5) {
        0 if !lengths.is_empty() => {
            let place = dice.below(lengths.len());
            lengths[place] = dice.pick(&[0, 1, 16, 17, 1 << 63, usize::MAX]);
        }
        1 if !lengths.is_empty() => {
            lengths.swap_remove(dice.below(lengths.len()));
        }
        2 => lengths.push(dice.within(0, 1)),
        3 => {
            list.tokens.pop();
        }
        _ => list.tokens.push(5),
    }
    list
}

/// A byte changed, dropped, doubled, two swapped, or the end cut.
pub fn text(dice: &mut Dice, good: &[u8]) -> Vec<u8> {
    const BYTES: &[u8] = b"0123456789-,() \nDTfa\r\t+\0\xffx";
    let mut text = good.to_vec();
    if text.is_empty() {
        return vec![dice.pick(BYTES)];
    }
    let place = dice.below(text.len());
    match dice.below(6) {
        0 | 1 => text[place] = dice.pick(BYTES),
        2 => {
            text.remove(place);
        }
        3 => text.insert(place, dice.pick(BYTES)),
        4 => text.swap(place, dice.below(good.len())),
        _ => text.truncate(place),
    }
    text
}
