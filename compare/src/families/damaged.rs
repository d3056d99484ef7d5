//! Damaged copies of good inputs.

use super::{FEW, WIDE, room, size};
use crate::damage;
use crate::desk::Desk;
use crate::part::Part;
use oracle::list::{ROOM, TEXT_ROOM};
use oracle::make;
use oracle::reading::{self, MODES};

pub fn tables(desk: &mut Desk, part: Part) {
    let mut dice = part.dice(18);
    for round in 0..part.share(100_000) {
        let mode = MODES[round % 2];
        let size = size(&mut dice, 8, 12);
        let good = match round % 3 {
            0 => make::rising(&mut dice, &size),
            _ => make::ruled(&mut dice, &size),
        };
        let bad = damage::table(&mut dice, &good);
        let _ = desk.shrink(mode, bad.lent(), ROOM);
        let _ = desk.text_out(bad.lent(), TEXT_ROOM);
        let tokens = make::tokens(&mut dice, 16, size.terminals);
        let mut lent = desk.lend(bad.lent());
        let _ = desk.predict(&mut lent, mode, 16, &tokens);
        desk.explain(&mut lent, &tokens);
        let tree = make::tree(&mut dice, &size);
        let bent = damage::table(&mut dice, &tree);
        let other = damage::table(&mut dice, &tree);
        let room = room(&mut dice, ROOM);
        let _ = desk.unite(mode, bent.lent(), tree.lent(), room);
        let _ = desk.unite(mode, tree.lent(), bent.lent(), room);
        let _ = desk.unite(mode, bent.lent(), other.lent(), room);
    }
}

pub fn lists_and_texts(desk: &mut Desk, part: Part) {
    let mut dice = part.dice(19);
    for _ in 0..part.share(100_000) {
        let terminals = dice.pick(&[&FEW[..], &WIDE[..]]);
        let list = make::list(&mut dice, 5, 6, terminals);
        let bad = damage::strings(&mut dice, &list);
        let production = dice.pick(&damage::BOUNDARY);
        let _ = desk.build(1, &bad.lengths, &bad.tokens, ROOM);
        let _ = desk.build(production, &bad.lengths, &bad.tokens, ROOM);
        let size = size(&mut dice, 8, 12);
        let table = make::rising(&mut dice, &size);
        let text = reading::text_out(table.lent(), TEXT_ROOM).unwrap();
        let once = damage::text(&mut dice, &text);
        let _ = desk.text_in(&once, ROOM);
        let _ = desk.text_in(&damage::text(&mut dice, &once), ROOM);
    }
}
