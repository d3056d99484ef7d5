//! Shrink's outcome does not hang on the order in which `group_by` gives its groups.

use oracle::make::{self, Dice, Size};
use oracle::{Table, rust};
use ordered::analysis::LookaheadDFA;
use ordered::analysis::lookahead_dfa::DFAState;
use ordered::door::Compiled;
use ordered::{Order, choose};

/// The same table in the second build's type.
fn second(table: &Table) -> LookaheadDFA {
    let first = rust::ruled(table.lent());
    let state = |s: &parol::analysis::lookahead_dfa::DFAState| DFAState {
        id: s.id,
        prod_num: s.prod_num,
    };
    LookaheadDFA {
        states: first.states.iter().map(state).collect(),
        transitions: first.transitions,
        k: first.k,
    }
}

fn alike(table: &Table, orders: &[Order]) {
    let expected = rust::shrink(table.lent());
    let dfa = second(table);
    for &order in orders {
        choose(order);
        let (made, heard) = log::recorded(|| Compiled::from_lookahead_dfa(&dfa));
        let count = format!("After minimization: {}", expected.states);
        assert!(heard.contains(&count), "{table:?} {order:?}");
        assert_eq!(expected.rows, made.rows(), "{table:?} {order:?}");
        assert_eq!(expected.prod0, made.prod0());
    }
}

fn orders(dice: &mut Dice, shuffled: usize) -> Vec<Order> {
    let mut orders = vec![Order::Rising, Order::Falling];
    orders.extend((0..shuffled).map(|_| Order::Shuffled(dice.roll())));
    orders
}

#[test]
fn on_all_small_tables() {
    let mut dice = Dice::new(11);
    for table in make::ruled_tables(4, 2, &[-1, 1, 2]) {
        alike(&table, &orders(&mut dice, 2));
    }
}

#[test]
fn on_random_tables() {
    let mut dice = Dice::new(12);
    for round in 0..12_000 {
        let large = round % 250 == 0;
        let (states, rows) = if large { (250, 700) } else { (16, 40) };
        let size = Size {
            states: dice.within(1, states),
            rows,
            terminals: &[0, 1, 2, 3],
            productions: dice.pick(&[&[-1, 1][..], &[-1, -1, -1, 1, 2], &[-1, 1, 2, 3, 4]]),
            gaps: dice.chance(50),
        };
        let table = make::ruled(&mut dice, &size);
        alike(&table, &orders(&mut dice, 10));
    }
}

#[test]
fn on_tables_with_equal_parts() {
    let mut dice = Dice::new(13);
    for round in 0..1_500 {
        let half = if round % 100 == 0 { 10 } else { 4 };
        let list = make::product_list(&mut dice, half, 4, &[0, 1]);
        let strings = oracle::agree::strings(&list.lengths, &list.tokens);
        let table = rust::build(1, &strings);
        alike(&table, &orders(&mut dice, 10));
    }
}
