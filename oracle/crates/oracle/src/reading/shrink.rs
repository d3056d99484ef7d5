//! Shrink: 1 to 6, then the document's fixpoint.

use super::checks::{flat, length, room, rows, ruled};
use super::{Answer, Mode};
use crate::{Lent, Table};
use std::collections::{BTreeMap, BTreeSet};

/// A state: its production and its set of (to, terminal).
#[derive(Debug, Clone, PartialEq, Eq, PartialOrd, Ord)]
struct State {
    production: i32,
    set: BTreeSet<(i32, i32)>,
}

type States = BTreeMap<i32, State>;

/// Shrinks a ruled table.
pub fn shrink(mode: Mode, table: Lent, room_for: usize) -> Answer<Table> {
    length(table.rows)?;
    room(room_for)?;
    ruled(table)?;
    let mut states = states_of(table);
    if mode == Mode::Archive {
        states = accepting_joined(&states);
    }
    Ok(closed_up(&until_none_are_equal(states), table.k))
}

fn states_of(table: Lent) -> States {
    let state = |production| State {
        production,
        set: BTreeSet::new(),
    };
    let mut states = BTreeMap::from([(0, state(table.prod0))]);
    for [_, _, to, production] in rows(table) {
        states.insert(to, state(production));
    }
    for [from, terminal, to, _] in rows(table) {
        states.get_mut(&from).unwrap().set.insert((to, terminal));
    }
    states
}

/// Archive: the accepting states of one production become one. It takes the lowest number and
/// the rows of the highest member; the others' rows are lost.
fn accepting_joined(states: &States) -> States {
    let mut names = BTreeMap::new();
    let mut made = BTreeMap::new();
    for (&number, state) in states {
        let like = |s: &&State| s.production >= 0 && s.production == state.production;
        let lowest = states
            .iter()
            .find(|(_, s)| like(s))
            .map_or(number, |f| *f.0);
        names.insert(number, lowest);
        // Rising numbers, so the highest member is the last to put its rows here.
        made.insert(lowest, state.clone());
    }
    renamed(&made, &names)
}

/// Two states with equal production and equal set become one under the lowest number, until none
/// are equal. Archive asks this of non-accepting states only, but by then no two accepting states
/// have one production, so the rule is the same.
fn until_none_are_equal(mut states: States) -> States {
    loop {
        let mut lowest: BTreeMap<&State, i32> = BTreeMap::new();
        let mut names = BTreeMap::new();
        for (&number, state) in &states {
            names.insert(number, *lowest.entry(state).or_insert(number));
        }
        if lowest.len() == states.len() {
            return states;
        }
        let keep = |number: &i32| names[number] == *number;
        let kept = states.iter().filter(|s| keep(s.0));
        let kept = kept.map(|(&n, s)| (n, s.clone())).collect();
        states = renamed(&kept, &names);
    }
}

/// Puts new numbers for all targets; the states keep theirs.
fn renamed(states: &States, names: &BTreeMap<i32, i32>) -> States {
    let target = |&(to, terminal): &(i32, i32)| (names[&to], terminal);
    let state = |(&number, s): (&i32, &State)| {
        let set = s.set.iter().map(target).collect();
        let production = s.production;
        (number, State { production, set })
    };
    states.iter().map(state).collect()
}

/// Numbers close up in order.
fn closed_up(states: &States, k: usize) -> Table {
    let place = |number| states.keys().position(|&n| n == number).unwrap() as i32;
    let places: BTreeMap<i32, i32> = states.keys().map(|&n| (n, place(n))).collect();
    let mut rows = Vec::new();
    for (from, state) in states {
        for (to, terminal) in &state.set {
            rows.push([places[from], *terminal, places[to], states[to].production]);
        }
    }
    Table {
        prod0: states[&0].production,
        k,
        states: states.len(),
        rows: flat(rows),
    }
}
