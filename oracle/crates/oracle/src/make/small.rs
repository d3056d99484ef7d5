//! All small inputs of a kind.

use super::Strings;
use crate::Table;

/// All ruled tables with states 0 to n - 1, n up to `states`, terminals 0 to `terminals` - 1.
pub fn ruled_tables(states: usize, terminals: usize, productions: &[i32]) -> Vec<Table> {
    let mut made = Vec::new();
    for n in 1..=states {
        let cells: Vec<(usize, usize)> = (0..n)
            .flat_map(|from| (0..terminals).map(move |terminal| (from, terminal)))
            .collect();
        // A cell's choice is 0 for no row, or how far up its row goes.
        let choices: Vec<usize> = cells.iter().map(|(from, _)| n - from).collect();
        for ups in every(&choices) {
            let to = |i: usize| cells[i].0 + ups[i];
            let entered = |state: &usize| (0..cells.len()).any(|i| ups[i] > 0 && to(i) == *state);
            if !(1..n).all(|state| entered(&state)) {
                continue;
            }
            for of in every(&vec![productions.len(); n]) {
                let mut rows = Vec::new();
                for i in (0..cells.len()).filter(|&i| ups[i] > 0) {
                    let (from, terminal) = cells[i];
                    let row = [from as i32, terminal as i32, to(i) as i32];
                    rows.extend(row);
                    rows.push(productions[of[to(i)]]);
                }
                made.push(table(productions[of[0]], n, rows));
            }
        }
    }
    made
}

/// All trees of up to `rows` rows.
pub fn trees(rows: usize, terminals: usize, productions: &[i32]) -> Vec<Table> {
    let is_tree = |t: &Table| t.rows.len() / 4 + 1 == t.states;
    let mut all = ruled_tables(rows + 1, terminals, productions);
    all.retain(is_tree);
    all
}

/// All lists of up to `strings` strings, each up to `length` long, over tokens 0 to `tokens` - 1.
pub fn lists(strings: usize, length: usize, tokens: usize) -> Vec<Strings> {
    let words: Vec<Vec<usize>> = (0..=length).flat_map(|n| every(&vec![tokens; n])).collect();
    let mut made = Vec::new();
    for count in 0..=strings {
        for choice in every(&vec![words.len(); count]) {
            let mut list = Strings::default();
            for word in choice {
                let string: Vec<u16> = words[word].iter().map(|&t| t as u16).collect();
                list.push(&string);
            }
            made.push(list);
        }
    }
    made
}

/// All rising tables over two states and two terminals, ruled or not, with k left at 0.
pub fn walk_tables(productions: &[i32]) -> Vec<Table> {
    let cells = [(0, 0), (0, 1), (1, 0), (1, 1)];
    let mut made = Vec::new();
    for choice in every(&[1 + 2 * productions.len(); 4]) {
        let mut rows = Vec::new();
        for (cell, &c) in cells.iter().zip(&choice).filter(|(_, c)| **c > 0) {
            let (to, of) = ((c - 1) % 2, (c - 1) / 2);
            rows.extend([cell.0, cell.1, to as i32, productions[of]]);
        }
        made.push(table(-1, 2, rows));
    }
    made
}

fn table(prod0: i32, states: usize, rows: Vec<i32>) -> Table {
    Table {
        prod0,
        k: 0,
        states,
        rows,
    }
}

/// Every way to choose one number below each limit.
fn every(limits: &[usize]) -> Vec<Vec<usize>> {
    let mut made = vec![Vec::new()];
    for &limit in limits {
        let mut longer = Vec::new();
        for choice in &made {
            for c in 0..limit {
                let mut next = choice.clone();
                next.push(c);
                longer.push(next);
            }
        }
        made = longer;
    }
    made
}
