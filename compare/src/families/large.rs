//! Random inputs up to the limits.

use super::{FEW, PRODUCTIONS, WIDE, size, varied};
use crate::desk::Desk;
use crate::part::Part;
use oracle::Table;
use oracle::list::{ROOM, TEXT_ROOM};
use oracle::make::{self, Dice, Size, Strings};
use oracle::reading::{Lists, MODES};

/// Lists of up to 1,024 strings, trees of up to 1,024 states.
pub fn trees(desk: &mut Desk, part: Part) {
    let mut dice = part.dice(16);
    for _ in 0..part.share(400) {
        let lists: Vec<Strings> = (0..3).map(|_| list(&mut dice)).collect();
        let mut all = Lists::default();
        for (production, list) in lists.iter().enumerate() {
            let _ = desk.build(production as i32, &list.lengths, &list.tokens, ROOM);
            all.push(dice.pick(&[1, production as i32]), list);
        }
        let _ = desk.intake(&all, ROOM);
        let most = dice.pick(&[300, 600, 1_024]);
        let (s, z) = (size(&mut dice, most, 0), size(&mut dice, most, 0));
        let (a, b) = (make::tree(&mut dice, &s), make::tree(&mut dice, &z));
        let productions = dice.pick(&PRODUCTIONS);
        let like = varied(&mut dice, &a, productions);
        let mut same = a.clone();
        let rows = same.rows.chunks_exact_mut(4);
        rows.filter(|_| dice.chance(50)).for_each(|r| r[3] = -1);
        for mode in MODES {
            let _ = desk.unite(mode, a.lent(), b.lent(), ROOM);
            let _ = desk.unite(mode, a.lent(), like.lent(), ROOM);
            let _ = desk.unite(mode, same.lent(), a.lent(), ROOM);
        }
    }
}

/// Some hundred strings; with many tokens to draw from the tree comes near 1,024 states or goes over.
fn list(dice: &mut Dice) -> Strings {
    let length = dice.pick(&[1, 3, 5, 9, 16]);
    let tokens = dice.pick(&[300, 1_000, 2_000, 4_000]);
    let terminals = dice.pick(&[&FEW[..2], &FEW[..], &WIDE[..]]);
    make::list(dice, (tokens / length).min(1_024), length, terminals)
}

/// Ruled and rising tables of up to 1,024 states and 4,096 rows.
pub fn tables(desk: &mut Desk, part: Part) {
    let mut dice = part.dice(17);
    for round in 0..part.share(72) {
        let (ruled, rising) = drawn(&mut dice, round % 6 == 0);
        for mode in MODES {
            let _ = desk.shrink(mode, ruled.lent(), ROOM);
        }
        for table in [&ruled, &rising] {
            let bad = crate::damage::table(&mut dice, table);
            let _ = desk.shrink(MODES[round % 2], bad.lent(), ROOM);
            let _ = desk.text_out(bad.lent(), TEXT_ROOM);
            let mut lent = desk.lend(bad.lent());
            let _ = desk.predict(&mut lent, MODES[round % 2], 16, &[0; 16]);
            let mut lent = desk.lend(table.lent());
            for _ in 0..20 {
                let tokens = make::tokens(&mut dice, 16, &FEW);
                for mode in MODES {
                    let _ = desk.predict(&mut lent, mode, 16, &tokens);
                }
                desk.explain(&mut lent, &tokens);
            }
        }
    }
}

/// Both within the slice's length; a full one has all 1,024 states and all 4,096 rows.
fn drawn(dice: &mut Dice, full: bool) -> (Table, Table) {
    let mut size = size(dice, 1_024, 4_096);
    if full {
        size = Size {
            states: 1_024,
            rows: 4_096,
            terminals: &WIDE,
            productions: dice.pick(&PRODUCTIONS),
            gaps: false,
        };
    }
    let mut ruled = make::ruled(dice, &size);
    let mut rising = make::rising(dice, &size);
    ruled.rows.truncate(ROOM);
    rising.rows.truncate(ROOM);
    if full {
        widest(dice, &mut ruled);
    }
    (ruled, rising)
}

/// Four rows from each state, one of them to the next.
fn widest(dice: &mut Dice, table: &mut Table) {
    let production = |to: i32| if to % 3 == 0 { to % 7 } else { -1 };
    table.rows.clear();
    for from in 0..=1_022 {
        let terminals = if from == 1_022 { 8 } else { 4 };
        for terminal in 0..terminals {
            let far = dice.within(from as usize + 1, 1_023) as i32;
            let to = if terminal == 0 { from + 1 } else { far };
            table.rows.extend([from, terminal, to, production(to)]);
        }
    }
    assert_eq!(ROOM, table.rows.len());
}
