//! Random cases: most of them small, a few up to every limit, and damaged copies.

use super::{List, ROOM};
use crate::make::{self, Dice, Size};
use crate::reading::{MODES, Mode};
use crate::{Lent, Table, agree};

const FEW: [u16; 3] = [0, 1, 2];
const WIDE: [u16; 10] = [0, 1, 2, 5, 100, 127, 128, 16_384, 65_534, 65_535];
const PRODUCTIONS: [&[i32]; 4] = [
    &[-1, 1],
    &[-1, -1, -1, 1, 2],
    &[-1, 1, 2, 3],
    &[-1, 0, 65_535, 7],
];

pub fn add(list: &mut List) {
    builds(list);
    unites(list);
    shrinks(list);
    walks(list);
    damaged(list);
    large(list);
    full(list);
}

fn size<'a>(dice: &mut Dice, states: usize, rows: usize) -> Size<'a> {
    Size {
        states: dice.within(1, states),
        rows: dice.within(2, rows),
        terminals: dice.pick(&[&FEW[..], &FEW, &WIDE]),
        productions: dice.pick(&PRODUCTIONS),
        gaps: dice.chance(40),
    }
}

fn builds(list: &mut List) {
    let mut dice = Dice::new(101);
    for round in 0..400 {
        let terminals = dice.pick(&[&FEW[..], &FEW, &WIDE]);
        let length = if round % 4 == 0 { 16 } else { 4 };
        let strings = dice.within(0, if round % 4 == 0 { 4 } else { 9 });
        let strings = make::list(&mut dice, strings, length, terminals);
        let production = dice.pick(&[0, 1, 2, 65_535]);
        list.build(production, &strings.lengths, &strings.tokens, ROOM);
    }
}

fn unites(list: &mut List) {
    let mut dice = Dice::new(102);
    for _ in 0..260 {
        let (a, b) = (size(&mut dice, 10, 2), size(&mut dice, 10, 2));
        let (a, b) = (make::tree(&mut dice, &a), make::tree(&mut dice, &b));
        for mode in MODES {
            list.unite(mode, a.lent(), b.lent(), ROOM);
        }
    }
    // Alike but for a few productions, so that many states match.
    for _ in 0..80 {
        let size = size(&mut dice, 9, 2);
        let a = make::tree(&mut dice, &size);
        let mut b = a.clone();
        for row in b.rows.chunks_exact_mut(4).filter(|_| dice.chance(50)) {
            row[3] = -1;
        }
        (b.k, b.prod0) = (dice.within(0, 16), dice.pick(&[-1, b.prod0]));
        for mode in MODES {
            list.unite(mode, a.lent(), b.lent(), ROOM);
            list.unite(mode, b.lent(), a.lent(), ROOM);
        }
    }
}

fn shrinks(list: &mut List) {
    let mut dice = Dice::new(103);
    for _ in 0..300 {
        let size = size(&mut dice, 12, 30);
        both_shrinks(list, &make::ruled(&mut dice, &size));
    }
    let small = make::ruled_tables(4, 2, &[-1, 1, 2]);
    for _ in 0..300 {
        both_shrinks(list, &small[dice.below(small.len())]);
    }
    for _ in 0..60 {
        let strings = make::product_list(&mut dice, 3, 3, &FEW);
        let table = agree::build(1, &strings.lengths, &strings.tokens, ROOM).1;
        both_shrinks(list, &table.unwrap());
    }
}

fn both_shrinks(list: &mut List, table: &Table) {
    for mode in MODES {
        list.shrink(mode, table.lent(), ROOM);
    }
}

fn walks(list: &mut List) {
    let mut dice = Dice::new(104);
    for round in 0..420 {
        let size = size(&mut dice, 6, 24);
        let mut table = match round % 2 {
            0 => make::rising(&mut dice, &size),
            _ => make::ruled(&mut dice, &size),
        };
        if dice.chance(60) {
            table.k = dice.within(1, 4);
        }
        let spare = dice.within(0, 2);
        let short = dice.chance(10) as usize;
        let count = (table.k + spare).saturating_sub(short);
        let tokens = make::tokens(&mut dice, count, size.terminals);
        let stream_k = dice.pick(&[16, 16, 16, table.k, 2, usize::MAX]);
        for mode in MODES {
            list.predict(mode, table.lent(), stream_k, &tokens);
        }
        list.explain(table.lent(), &tokens);
    }
}

fn damaged(list: &mut List) {
    let mut dice = Dice::new(105);
    for round in 0..400 {
        let mode = MODES[round % 2];
        let size = size(&mut dice, 6, 8);
        let good = make::ruled(&mut dice, &size);
        let bad = make::damaged(&mut dice, &good.rows);
        let table = Lent::new(good.prod0, good.k, &bad);
        list.shrink(mode, table, ROOM);
        let tokens = make::tokens(&mut dice, 16, size.terminals);
        list.predict(mode, table, 16, &tokens);
        list.explain(table, &tokens[..4]);
        let tree = make::tree(&mut dice, &size);
        let bad = make::damaged(&mut dice, &tree.rows);
        let bad = Lent::new(tree.prod0, tree.k, &bad);
        match round % 4 {
            0 | 1 => list.unite(mode, bad, tree.lent(), ROOM),
            _ => list.unite(mode, tree.lent(), bad, ROOM),
        };
    }
}

/// A few at the limits.
fn large(list: &mut List) {
    let mut dice = Dice::new(106);
    let strings = make::list(&mut dice, 300, 7, &FEW);
    list.build(3, &strings.lengths, &strings.tokens, ROOM);
    let strings = make::list(&mut dice, 60, 16, &WIDE);
    list.build(3, &strings.lengths, &strings.tokens, ROOM);
    let tree = |dice: &mut Dice, states, productions| {
        let terminals: &[u16] = &[0, 1, 2, 3, 4, 5, 300, 65_535];
        let size = Size {
            states,
            rows: 0,
            terminals,
            productions,
            gaps: false,
        };
        make::tree(dice, &size)
    };
    let full = tree(&mut dice, 1_024, &[-1, 1, 1]);
    let half = tree(&mut dice, 512, &[-1, -1, 1]);
    let other = tree(&mut dice, 300, &[-1, 2]);
    list.unite(Mode::Archive, half.lent(), half.lent(), ROOM);
    for mode in MODES {
        list.unite(mode, half.lent(), other.lent(), ROOM);
    }
    list.unite(Mode::Intake, full.lent(), half.lent(), ROOM);
    for mode in MODES {
        list.shrink(mode, full.lent(), ROOM);
    }
    let wide = widest(&mut dice);
    for mode in MODES {
        list.shrink(mode, wide.lent(), ROOM);
    }
    let tokens = make::tokens(&mut dice, 16, &FEW);
    list.predict(Mode::Archive, wide.lent(), 16, &tokens);
    list.explain(wide.lent(), &tokens);
}

/// 1,024 states: much merges in both modes, then nothing does.
fn full(list: &mut List) {
    for (_, shape) in make::SHAPES {
        let alike = make::full(shape, |_| 1);
        for mode in MODES {
            list.shrink(mode, alike.lent(), ROOM);
        }
        let unlike = make::full(shape, |to| to);
        list.shrink(Mode::Intake, unlike.lent(), ROOM);
    }
}

/// 1,024 states and 4,096 rows: four rows from each state, one of them to the next.
fn widest(dice: &mut Dice) -> Table {
    let mut rows = Vec::new();
    let production = |to: i32| if to % 3 == 0 { to % 7 } else { -1 };
    for from in 0..=1_022 {
        for terminal in 0..4 {
            let next = from + 1;
            let far = dice.within(next as usize, 1_023) as i32;
            let to = if terminal == 0 { next } else { far };
            rows.extend([from, terminal, to, production(to)]);
        }
    }
    for terminal in 4..8 {
        rows.extend([1_022, terminal, 1_023, production(1_023)]);
    }
    assert_eq!(ROOM, rows.len());
    Table {
        prod0: -1,
        k: 16,
        states: 1_024,
        rows,
    }
}
