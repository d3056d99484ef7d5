//! The intake desk's one call, and its predictions against what the lists define.

use super::{FEW, PRODUCTIONS, WIDE};
use crate::desk::Desk;
use crate::part::Part;
use oracle::list::ROOM;
use oracle::make::{self, Dice, Strings};
use oracle::reading::{Lists, Mode, Refusal, defined};

pub fn lists_of(parts: &[(i32, &[&[u16]])]) -> Lists {
    let mut lists = Lists::default();
    for (production, strings) in parts {
        lists.push(*production, &Strings::of(strings));
    }
    lists
}

/// Lists of up to 2 strings of up to 2 tokens out of 2, with one production and with two, all windows out of 3 tokens.
pub fn pairs(desk: &mut Desk, part: Part) {
    let all = make::lists(2, 2, 2);
    let all_tokens = make::lists(1, 2, 3);
    let windows = || {
        all_tokens
            .iter()
            .map(|w| &w.tokens[..])
            .filter(|w| w.len() == 2)
    };
    for (i, a) in all.iter().enumerate().filter(|(i, _)| part.has(*i)) {
        for b in &all {
            for other in [1, 2] {
                let mut lists = Lists::default();
                lists.push(1, a);
                lists.push(other, b);
                served(desk, &lists, windows());
            }
        }
        let mut alone = Lists::default();
        alone.push(i as i32, a);
        served(desk, &alone, windows());
    }
}

/// The call, and if it is accepted what it predicts.
fn served<'a>(desk: &mut Desk, lists: &Lists, windows: impl Iterator<Item = &'a [u16]>) {
    let Ok(table) = desk.intake(lists, ROOM) else {
        return;
    };
    let mut lent = desk.lend(table.lent());
    for window in windows {
        let said = desk.predict(&mut lent, Mode::Intake, 16, window);
        let meant = defined(lists, window).ok_or(Refusal::Plain(11));
        assert_eq!(meant, said, "{lists:?} {window:?}");
    }
}

/// The lists that show one thing each, and 400 times 1 to 4 small ones, in all their orders, with every window of three
/// tokens.
pub fn few(desk: &mut Desk, part: Part) {
    let mut dice = Dice::new(21);
    let mut all = make::fixed();
    all.extend((0..400).map(|i| make::few_lists(&mut dice, i % 4 + 1)));
    let windows = make::windows();
    for (_, lists) in all.iter().enumerate().filter(|(i, _)| part.has(*i)) {
        for order in make::orders(lists.len()) {
            let ordered = ordered(lists, &order);
            served(desk, &ordered, windows.iter().map(|w| &w[..]));
        }
    }
}

fn ordered(lists: &[(i32, Strings)], order: &[usize]) -> Lists {
    let all: Vec<_> = order.iter().map(|&i| lists[i].clone()).collect();
    Lists::of(&all)
}

/// 1 to 4 lists in all their orders, half of them cut out of one list so that they do not clash.
pub fn orders(desk: &mut Desk, part: Part) {
    let mut dice = part.dice(14);
    for round in 0..part.share(6_000) {
        let parts = dice.within(1, 4);
        let terminals = dice.pick(&[&FEW[..], &WIDE[..]]);
        let length = if round % 16 == 0 { 16 } else { 4 };
        let drawn = drawn(&mut dice, parts, length, terminals, round % 2 == 0);
        let windows: Vec<Vec<u16>> = (0..6)
            .map(|_| make::tokens(&mut dice, 16, terminals))
            .collect();
        for order in make::orders(parts) {
            let lists = ordered(&drawn, &order);
            served(desk, &lists, windows.iter().map(|w| &w[..]));
        }
        let room = super::room(&mut dice, ROOM);
        let bad = spoilt(&mut dice, &drawn);
        let _ = desk.intake(&bad, room);
    }
}

fn drawn(
    dice: &mut Dice,
    parts: usize,
    length: usize,
    terminals: &[u16],
    apart: bool,
) -> Vec<(i32, Strings)> {
    let productions = dice.pick(&PRODUCTIONS);
    let mut seen: Vec<Vec<u16>> = Vec::new();
    let mut lists = Vec::new();
    for i in 0..parts {
        let count = dice.within(0, 5);
        let all = make::list(dice, count, length, terminals);
        let mut list = Strings::default();
        for string in oracle::agree::strings(&all.lengths, &all.tokens) {
            if !apart || !seen.iter().any(|s| s == string) {
                list.push(string);
                seen.push(string.to_vec());
            }
        }
        let one = dice.pick(productions).max(0);
        lists.push((if apart { i as i32 } else { one }, list));
    }
    lists
}

/// One number of the lists changed.
fn spoilt(dice: &mut Dice, drawn: &[(i32, Strings)]) -> Lists {
    let mut lists = Lists::of(drawn);
    let place = dice.below(drawn.len());
    let odd = dice.pick(&[0, 1, 2, 17, 1 << 63, usize::MAX]);
    match dice.below(6) {
        0 => lists.productions[place] = dice.pick(&crate::damage::BOUNDARY),
        1 => lists.counts[place] = odd,
        2 => lists.productions.push(1),
        3 => lists.counts.push(0),
        4 => lists.lengths.push(odd),
        _ => lists.tokens.push(5),
    }
    lists
}
