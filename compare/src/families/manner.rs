//! The safe functions of the crate `lookahead` against the reading.

use super::{FEW, size};
use crate::desk::Desk;
use crate::part::Part;
use lookahead::lent::{self, Lent};
use lookahead::{Mode, Table};
use oracle::make::{self, Dice};
use oracle::reading::{self, Answer, Lists, Refusal};
use std::fmt::Debug;

const MODES: [(Mode, reading::Mode); 2] = [
    (Mode::Archive, reading::Mode::Archive),
    (Mode::Intake, reading::Mode::Intake),
];

const ROOM: usize = lent::ROOM;

/// A table as both sides have it.
type Plain = (i32, usize, Vec<i32>);

fn ours(t: &Table) -> Plain {
    let t = t.lent();
    (t.prod0, t.k, t.rows.to_vec())
}

fn theirs(t: &oracle::Table) -> Plain {
    (t.prod0, t.k, t.rows.clone())
}

/// The crate's refusal as the reading's.
fn refusal(refusal: lookahead::Refusal) -> Refusal {
    match refusal {
        lookahead::Refusal::Clash(p, q) => Refusal::Clash(p.into(), q.into()),
        lookahead::Refusal::Text(at) => Refusal::Text(at),
        plain => Refusal::Plain(plain.number() as u64),
    }
}

/// One case: the crate's answer is the reading's.
fn same<T: Debug + PartialEq>(
    desk: &mut Desk,
    said: Result<T, lookahead::Refusal>,
    read: Answer<T>,
    input: impl Debug,
) {
    assert_eq!(said.map_err(refusal), read, "for {input:?}");
    desk.count(read.err().map_or(0, |r| r.number() as usize));
}

pub fn functions(desk: &mut Desk, part: Part) {
    let mut dice = part.dice(20);
    for _ in 0..part.share(20_000) {
        let size = size(&mut dice, 8, 12);
        let good = make::ruled(&mut dice, &size);
        let bad = crate::damage::table(&mut dice, &good);
        for t in [&good, &bad] {
            let (prod0, k, rows) = (t.prod0, t.k, &t.rows[..]);
            let passed = lent::check(Lent { prod0, k, rows }).map(|_| 0);
            same(desk, passed, reading::explain(t.lent(), &[]).matched, t);
            if let Ok(table) = Table::from_numbers(t.prod0, t.k, t.rows.clone()) {
                shrunk_and_walked(desk, &mut dice, &table, t);
                written(desk, &table, t);
            }
        }
        let (a, b) = (make::tree(&mut dice, &size), make::tree(&mut dice, &size));
        united(desk, &a, &b);
        built(desk, &mut dice);
    }
}

fn shrunk_and_walked(desk: &mut Desk, dice: &mut Dice, table: &Table, t: &oracle::Table) {
    let tokens = make::tokens(dice, 16, &FEW);
    for (mode, other) in MODES {
        let said = table.shrink(mode).map(|s| (s.states, ours(&s.table)));
        let read = reading::shrink(other, t.lent(), ROOM).map(|s| (s.states, theirs(&s)));
        same(desk, said, read, t);
        let said = table.predict(mode, 16, &tokens);
        let said = said.map(|s| (s.production.into(), s.entered));
        let read = reading::predict(other, t.lent(), 16, &tokens);
        same(desk, said, read, (t, &tokens));
        let count = tokens.len().checked_div(t.k).unwrap_or(2);
        let said = table.batch(mode, 16, count, &tokens[..count * t.k]);
        let read = (0..count).map(|i| reading::predict(other, t.lent(), 16, &tokens[i * t.k..]));
        let read: Vec<_> = read
            .map(|a| a.map(|(production, _)| production as u16))
            .collect();
        let said = said.map(|all| all.into_iter().map(|a| a.map_err(refusal)).collect());
        same(desk, said, Ok(read), (t, &tokens));
    }
    let (matched, rows) = table.explain(&tokens);
    let read = reading::explain(t.lent(), &tokens);
    same(desk, Ok(matched), read.matched, (t, &tokens));
    let stretch = &t.rows[read.start..read.start + read.count];
    same(desk, Ok(rows.numbers()), Ok(stretch), (t, &tokens));
}

fn written(desk: &mut Desk, table: &Table, t: &oracle::Table) {
    let text = reading::text_out(t.lent(), lent::TEXT_ROOM).unwrap();
    same(desk, Ok(table.to_text().as_bytes()), Ok(&text), t);
    let back = Table::from_text(&text).map(|t| ours(&t));
    same(desk, back, Ok(theirs(t)), t);
    let rows: Vec<lookahead::Row> = table.rows().into_iter().collect();
    let again = Table::new(table.prod0(), table.k(), &rows).map(|t| ours(&t));
    same(desk, again, Ok(theirs(t)), t);
}

fn united(desk: &mut Desk, a: &oracle::Table, b: &oracle::Table) {
    let table = |t: &oracle::Table| Table::from_numbers(t.prod0, t.k, t.rows.clone()).unwrap();
    for (mode, other) in MODES {
        let said = table(a).unite(mode, &table(b)).map(|t| ours(&t));
        let read = reading::unite(other, a.lent(), b.lent(), ROOM).map(|t| theirs(&t));
        same(desk, said, read, (a, b));
    }
}

fn built(desk: &mut Desk, dice: &mut Dice) {
    let list = make::list(dice, 4, 17, &FEW);
    let strings = oracle::agree::strings(&list.lengths, &list.tokens);
    let said = Table::build(3, &strings).map(|t| ours(&t));
    let read = reading::build(3, &list.lengths, &list.tokens, ROOM).map(|t| theirs(&t));
    same(desk, said, read, &list);
    let other = dice.within(3, 4) as u16;
    let mut lists = Lists::default();
    lists.push(3, &list);
    lists.push(other.into(), &list);
    let said = Table::intake(&[(3, &strings), (other, &strings)]);
    let said = said.map(|s| (s.states, ours(&s.table)));
    let read = reading::intake(&lists, ROOM).map(|t| (t.states, theirs(&t)));
    same(desk, said, read, &lists);
}
