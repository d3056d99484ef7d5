//! Batches of windows.

use super::{FEW, size};
use crate::desk::Desk;
use crate::part::Part;
use oracle::make;
use oracle::reading::MODES;

/// All batches of up to two windows over the small tables, with a token, an answer or the stream's k too few or too
/// many.
pub fn small(desk: &mut Desk, part: Part) {
    let all = make::walk_tables(&[-1, 1]);
    let lists = make::lists(1, 5, 2);
    for (_, mut table) in all.into_iter().enumerate().filter(|(i, _)| part.has(*i)) {
        for k in 0..=2 {
            (table.prod0, table.k) = (3, k);
            let mut lent = desk.lend(table.lent());
            for (count, list) in (0..=2).flat_map(|n| lists.iter().map(move |l| (n, l))) {
                let tokens = &list.tokens;
                let left = tokens.len().abs_diff(count * k);
                // Far more tokens or far fewer say nothing that one does not.
                if left > 1 {
                    continue;
                }
                for (mode, stream_k) in MODES.iter().flat_map(|m| (1..=2).map(move |s| (*m, s))) {
                    for room in [count.saturating_sub(1), count, count + 3] {
                        desk.batch(&mut lent, mode, stream_k, count, tokens, room);
                    }
                }
            }
        }
    }
}

/// Every limit of the call from both sides.
pub fn limits(desk: &mut Desk, part: Part) {
    let mut dice = part.dice(21);
    for (i, k) in [0, 1, 2, 15, 16, 17, 4_096, usize::MAX]
        .into_iter()
        .enumerate()
    {
        if !part.has(i) {
            continue;
        }
        let size = size(&mut dice, 12, 30);
        let mut table = make::ruled(&mut dice, &size);
        table.k = k;
        let mut lent = desk.lend(table.lent());
        for count in [0, 1, 2, 4_095, 4_096, 4_097, usize::MAX] {
            let right = count.saturating_mul(k);
            for many in [right, right.saturating_sub(1), right.saturating_add(1)] {
                let tokens = make::tokens(&mut dice, many.min(70_000), size.terminals);
                for room in [count.min(4_097), 4_095, 4_096, 4_097] {
                    let stream_k = dice.pick(&[k, k, k.saturating_sub(1), usize::MAX]);
                    for mode in MODES {
                        desk.batch(&mut lent, mode, stream_k, count, &tokens, room);
                    }
                }
            }
        }
    }
}

/// Random windows over random tables, some of them damaged.
pub fn drawn(desk: &mut Desk, part: Part) {
    let mut dice = part.dice(22);
    for round in 0..part.share(30_000) {
        let rows = dice.within(0, 60);
        let size = size(&mut dice, 12, rows);
        let good = make::rising(&mut dice, &size);
        let table = if round % 4 == 0 {
            crate::damage::table(&mut dice, &good)
        } else {
            good
        };
        let mut lent = desk.lend(table.lent());
        let most = if round % 64 == 0 { 4_096 } else { 24 };
        let count = dice.within(0, most);
        let few = make::tokens(&mut dice, count, &FEW);
        let right = make::tokens(
            &mut dice,
            count.saturating_mul(table.k).min(70_000),
            size.terminals,
        );
        let room = dice.pick(&[count, count, count + 1, count.saturating_sub(1), 4_096]);
        let stream_k = dice.pick(&[16, 16, table.k, table.k.saturating_sub(1), usize::MAX]);
        for mode in MODES {
            desk.batch(&mut lent, mode, stream_k, count, &right, room);
        }
        desk.batch(&mut lent, MODES[round % 2], stream_k, count, &few, room);
    }
}
