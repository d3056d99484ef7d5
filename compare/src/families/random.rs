//! Random inputs of middle size.

use super::{FEW, PRODUCTIONS, WIDE, room, size, varied};
use crate::desk::Desk;
use crate::part::Part;
use oracle::list::ROOM;
use oracle::make;
use oracle::reading::{MODES, Mode};

pub fn lists(desk: &mut Desk, part: Part) {
    let mut dice = part.dice(9);
    for _ in 0..part.share(120_000) {
        let terminals = dice.pick(&[&FEW[..], &WIDE[..]]);
        let (strings, length) = (dice.within(0, 12), dice.within(0, 17));
        let list = make::list(&mut dice, strings, length, terminals);
        let production = dice.pick(&[0, 1, 65_535]);
        let room = room(&mut dice, ROOM);
        let _ = desk.build(production, &list.lengths, &list.tokens, room);
    }
}

pub fn trees(desk: &mut Desk, part: Part) {
    let mut dice = part.dice(10);
    for _ in 0..part.share(100_000) {
        let (s, z) = (size(&mut dice, 16, 0), size(&mut dice, 16, 0));
        let (a, b) = (make::tree(&mut dice, &s), make::tree(&mut dice, &z));
        let productions = dice.pick(&PRODUCTIONS);
        let like = varied(&mut dice, &a, productions);
        let room = room(&mut dice, ROOM);
        for mode in MODES {
            let _ = desk.unite(mode, a.lent(), b.lent(), room);
            let _ = desk.unite(mode, like.lent(), a.lent(), room);
        }
    }
}

pub fn ruled(desk: &mut Desk, part: Part) {
    let mut dice = part.dice(11);
    for _ in 0..part.share(120_000) {
        let rows = dice.within(0, 40);
        let size = size(&mut dice, 14, rows);
        let table = make::ruled(&mut dice, &size);
        let room = room(&mut dice, ROOM);
        for mode in MODES {
            let _ = desk.shrink(mode, table.lent(), room);
        }
    }
}

pub fn walks(desk: &mut Desk, part: Part) {
    let mut dice = part.dice(12);
    for round in 0..part.share(60_000) {
        let rows = dice.within(0, 60);
        let size = size(&mut dice, 12, rows);
        let table = match round % 2 {
            0 => make::rising(&mut dice, &size),
            _ => make::ruled(&mut dice, &size),
        };
        let mut lent = desk.lend(table.lent());
        let under = table.k.saturating_sub(1);
        for _ in 0..8 {
            let any = dice.within(0, 20);
            let count = dice.pick(&[any, any, any, table.k, under]);
            let tokens = make::tokens(&mut dice, count, size.terminals);
            let stream_k = dice.pick(&[16, 16, 16, table.k, under, usize::MAX]);
            for mode in MODES {
                let _ = desk.predict(&mut lent, mode, stream_k, &tokens);
            }
            desk.explain(&mut lent, &tokens);
        }
        // Rising tables may lead back, so that explain goes far.
        if round % 16 == 0 {
            let tokens = make::tokens(&mut dice, 2_000, &size.terminals[..1]);
            desk.explain(&mut lent, &tokens);
            let _ = desk.predict(&mut lent, Mode::Intake, usize::MAX, &tokens);
        }
    }
}

/// Three lists under three productions, in one mode all the way, as a table is made and used.
pub fn chains(desk: &mut Desk, part: Part) {
    let mut dice = part.dice(13);
    for round in 0..part.share(12_000) {
        let (half, length) = if round % 50 > 0 { (4, 3) } else { (12, 8) };
        let mode = MODES[round % 2];
        let list = make::product_list(&mut dice, half, length, &FEW);
        let Ok(mut whole) = desk.build(0, &list.lengths, &list.tokens, ROOM) else {
            continue;
        };
        for production in 1..3 {
            let list = make::product_list(&mut dice, half, length, &FEW);
            let Ok(tree) = desk.build(production, &list.lengths, &list.tokens, ROOM) else {
                continue;
            };
            if let Ok(more) = desk.unite(mode, whole.lent(), tree.lent(), ROOM) {
                whole = more;
            }
        }
        let Ok(small) = desk.shrink(mode, whole.lent(), ROOM) else {
            continue;
        };
        walked(desk, &small, mode, &mut dice);
        walked(desk, &whole, mode, &mut dice);
        // What archive shrinks may not be ruled any more; then this refuses.
        let _ = desk.shrink(mode, small.lent(), ROOM);
    }
}

fn walked(desk: &mut Desk, table: &oracle::Table, mode: Mode, dice: &mut make::Dice) {
    let mut lent = desk.lend(table.lent());
    for _ in 0..8 {
        let tokens = make::tokens(dice, 16, &FEW);
        let _ = desk.predict(&mut lent, mode, 16, &tokens);
        desk.explain(&mut lent, &tokens);
    }
}
