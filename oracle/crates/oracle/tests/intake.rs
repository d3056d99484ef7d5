//! Demand 3 on the reading: whatever the order of the lists, intake answers what they define.

use oracle::Table;
use oracle::make::{self, Dice, Strings};
use oracle::reading::{self, Mode, Refusal};

const ROOM: usize = 16_384;

type Lists = Vec<(i32, Vec<Vec<u16>>)>;

/// The lists as the call takes them.
fn lent(lists: &Lists) -> reading::Lists {
    let mut all = reading::Lists::default();
    for (production, strings) in lists {
        let strings: Vec<&[u16]> = strings.iter().map(|s| &s[..]).collect();
        all.push(*production, &Strings::of(&strings));
    }
    all
}

fn clashes(lists: &Lists) -> bool {
    let under = |p: i32, s: &Vec<u16>| lists.iter().any(|(q, l)| *q != p && l.contains(s));
    lists.iter().any(|(p, l)| l.iter().any(|s| under(*p, s)))
}

/// No two states with equal production and equal rows; a state that is no row's to has prod0.
fn no_two_alike(table: &Table) -> bool {
    let states = 0..table.states as i32;
    let rows = || table.rows.chunks_exact(4);
    let look = |state: i32| {
        let into = rows().find(|r| r[2] == state);
        let leaving: Vec<&[i32]> = rows().filter(|r| r[0] == state).map(|r| &r[1..]).collect();
        (into.map_or(table.prod0, |r| r[3]), leaving)
    };
    let looks: Vec<_> = states.map(look).collect();
    (0..looks.len()).all(|i| !looks[..i].contains(&looks[i]))
}

fn orders(lists: &Lists) -> Vec<Lists> {
    match lists.len() {
        0 | 1 => vec![lists.clone()],
        _ => (0..lists.len())
            .flat_map(|i| starting_with(lists, i))
            .collect(),
    }
}

fn starting_with(lists: &Lists, i: usize) -> Vec<Lists> {
    let mut rest = lists.clone();
    let head = rest.remove(i);
    let mut all = orders(&rest);
    all.iter_mut()
        .for_each(|order| order.insert(0, head.clone()));
    all
}

fn holds(lists: &Lists, dice: &mut Dice) {
    let k = lists.iter().flat_map(|l| l.1.iter().map(Vec::len)).max();
    for order in orders(lists) {
        let table = match reading::intake(&lent(&order), ROOM) {
            Ok(table) => table,
            Err(refusal) => {
                assert!(refusal.number() == 8 && clashes(lists), "{lists:?}");
                continue;
            }
        };
        assert!(!clashes(lists) && no_two_alike(&table), "{lists:?}");
        assert_eq!(k, Some(table.k));
        for _ in 0..12 {
            let tokens = make::tokens(dice, table.k + 1, &[0, 1, 2, 3]);
            let answer = reading::predict(Mode::Intake, table.lent(), table.k, &tokens);
            let expected = reading::defined(&lent(lists), &tokens);
            assert_eq!(
                expected.ok_or(Refusal::Plain(11)),
                answer,
                "{lists:?} {tokens:?}"
            );
        }
    }
}

fn as_lists(dice: &mut Dice, parts: &[&Strings]) -> Lists {
    let mut lists = Lists::new();
    for part in parts {
        let strings = oracle::agree::strings(&part.lengths, &part.tokens);
        let production = dice.below(3) as i32 + 1;
        lists.push((production, strings.iter().map(|s| s.to_vec()).collect()));
    }
    lists
}

#[test]
fn on_small_lists() {
    let mut dice = Dice::new(21);
    let mut all = make::lists(2, 2, 2);
    all.retain(|list| !list.lengths.is_empty());
    for a in &all {
        for b in &all {
            let lists = as_lists(&mut dice, &[a, b]);
            holds(&lists, &mut dice);
        }
    }
}

#[test]
fn on_random_lists() {
    let mut dice = Dice::new(22);
    for round in 0..3_000 {
        let mut parts = Vec::new();
        for _ in 0..dice.within(1, 3) {
            let strings = dice.within(1, 5);
            let length = if round % 20 == 0 { 16 } else { 4 };
            parts.push(make::list(&mut dice, strings, length, &[0, 1, 2]));
        }
        let lists = as_lists(&mut dice, &parts.iter().collect::<Vec<_>>());
        holds(&lists, &mut dice);
    }
}

/// Intake shrink leaves no two states alike and changes no walk.
#[test]
fn shrink_keeps_every_walk() {
    let streams = make::lists(1, 3, 3);
    for mut table in make::ruled_tables(4, 2, &[-1, 1]) {
        table.k = 3;
        let small = reading::shrink(Mode::Intake, table.lent(), ROOM).unwrap();
        assert!(no_two_alike(&small), "{table:?}");
        for stream in streams.iter().filter(|s| s.tokens.len() == 3) {
            let walk = |t: &Table| reading::predict(Mode::Intake, t.lent(), 3, &stream.tokens);
            assert_eq!(walk(&table), walk(&small), "{table:?}");
        }
    }
}

/// The accepting states of an accepted result are the distinct strings claimed in either tree.
#[test]
fn unite_keeps_every_string() {
    let trees = make::trees(2, 2, &[-1, 1, 2]);
    for first in &trees {
        for second in &trees {
            let (a, b) = (claims(first), claims(second));
            let clash = a
                .iter()
                .any(|(s, p)| b.iter().any(|(t, q)| s == t && p != q));
            match reading::unite(Mode::Intake, first.lent(), second.lent(), ROOM) {
                Err(refusal) => assert!(clash && refusal.number() == 8),
                Ok(whole) => {
                    let mut both = [a, b].concat();
                    both.sort();
                    both.dedup();
                    assert!(!clash);
                    assert_eq!(both, claims(&whole));
                }
            }
        }
    }
}

/// The strings of a tree with their productions, in order.
fn claims(tree: &Table) -> Vec<(Vec<i32>, i32)> {
    let mut strings = vec![Vec::new(); tree.states];
    let mut claims = vec![(Vec::new(), tree.prod0)];
    for r in tree.rows.chunks_exact(4) {
        let string = [&strings[r[0] as usize][..], &[r[1]]].concat();
        strings[r[2] as usize] = string.clone();
        claims.push((string, r[3]));
    }
    claims.retain(|claim| claim.1 >= 0);
    claims.sort();
    claims
}
