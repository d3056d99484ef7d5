//! Lists for the intake desk's call, and windows to ask its tables.

use super::{Dice, Strings, tokens};

/// The windows that are asked: three tokens.
pub type Window = [u16; 3];

/// Lists that show one thing each, over the tokens 1 to 3; the second and the third clash.
pub fn fixed() -> Vec<Vec<(i32, Strings)>> {
    let of = |parts: &[(i32, &[&[u16]])]| -> Vec<(i32, Strings)> {
        parts.iter().map(|(p, s)| (*p, Strings::of(s))).collect()
    };
    vec![
        // A and B of document 01, with 1, 2, 3 for its 5, 6, 7: one string begins another.
        of(&[(1, &[&[1], &[3]]), (2, &[&[1, 2]])]),
        // The empty string under two numbers.
        of(&[(1, &[&[]]), (2, &[&[]])]),
        // The first list and the third clash.
        of(&[(1, &[&[1, 2]]), (2, &[&[3]]), (3, &[&[1, 2]])]),
        // Each string begins the next, the empty one first.
        of(&[
            (0, &[&[]]),
            (1, &[&[1]]),
            (2, &[&[1, 2]]),
            (3, &[&[1, 2, 3]]),
        ]),
        // One string in two lists of one production: no clash.
        of(&[(65_535, &[&[1, 2]]), (65_535, &[&[1, 2], &[3]])]),
        // Paths that merge when the table is shrunk, and what would part them under another number.
        of(&[
            (1, &[&[1, 2]]),
            (1, &[&[3, 2]]),
            (2, &[&[1, 2, 2]]),
            (2, &[&[3, 2, 2]]),
        ]),
    ]
}

/// So many lists under 0 to 3, each of 1 to 3 strings of up to 3 tokens from 1 to 3; a tenth of them are empty.
pub fn few_lists(dice: &mut Dice, count: usize) -> Vec<(i32, Strings)> {
    let mut lists = Vec::new();
    for _ in 0..count {
        let production = dice.below(4) as i32;
        let mut strings = Strings::default();
        for _ in 0..dice.within(1, 3) {
            let length = dice.pick(&[0, 1, 1, 1, 2, 2, 2, 3, 3, 3]);
            strings.push(&tokens(dice, length, &[1, 2, 3]));
        }
        lists.push((production, strings));
    }
    lists
}

/// Every window out of 1 to 4; no string of the lists above has a 4.
pub fn windows() -> Vec<Window> {
    let nth = |v: u16| v % 4 + 1;
    (0..64).map(|v| [nth(v), nth(v / 4), nth(v / 16)]).collect()
}

/// The numbers below a count in all their orders.
pub fn orders(count: usize) -> Vec<Vec<usize>> {
    let mut all = vec![Vec::new()];
    for next in 0..count {
        let with = |order: Vec<usize>| {
            (0..=order.len()).map(move |place| {
                let mut longer = order.clone();
                longer.insert(place, next);
                longer
            })
        };
        all = all.into_iter().flat_map(with).collect();
    }
    all
}
