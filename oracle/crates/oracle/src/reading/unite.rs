//! Unite: 1, then 2 to 7 for the first, 2 to 7 for the second, then 8, 14.

use super::checks::{STATES, flat, length, room, rows, ruled, tree};
use super::{Answer, Mode, Refusal, refuse_if};
use crate::{Lent, Table};

/// Unites two trees.
pub fn unite(mode: Mode, first: Lent, second: Lent, room_for: usize) -> Answer<Table> {
    length(first.rows)?;
    length(second.rows)?;
    room(room_for)?;
    ruled(first)?;
    tree(first)?;
    ruled(second)?;
    tree(second)?;
    let table = match mode {
        Mode::Archive => archive(first, second)?,
        Mode::Intake => intake(first, second)?,
    };
    refuse_if(table.states > STATES, 14)?;
    Ok(table)
}

fn archive(first: Lent, second: Lent) -> Answer<Table> {
    let takes_second = |_, second| second;
    let rows = joined(first, second, takes_second)?;
    Ok(table(first.prod0, first.k, rows))
}

fn intake(first: Lent, second: Lent) -> Answer<Table> {
    let keeps = |first, second| if second == -1 { first } else { second };
    clash(first.prod0, second.prod0)?;
    let rows = joined(first, second, keeps)?;
    let prod0 = keeps(first.prod0, second.prod0);
    Ok(table(prod0, first.k.max(second.k), rows))
}

/// 8, if both accept under different numbers.
fn clash(first: i32, second: i32) -> Answer<()> {
    if first >= 0 && second >= 0 && first != second {
        return Err(Refusal::Clash(first, second));
    }
    Ok(())
}

/// Takes the second's rows in order and finds or adds the matching row in the first.
fn joined(first: Lent, second: Lent, merged: fn(i32, i32) -> i32) -> Answer<Vec<[i32; 4]>> {
    let mut made: Vec<[i32; 4]> = rows(first).collect();
    let mut matching = vec![0; rows(second).count() + 1];
    for [from, terminal, to, production] in rows(second) {
        let from = matching[from as usize];
        let next = made.len() as i32 + 1;
        let found = made.iter_mut().find(|r| r[0] == from && r[1] == terminal);
        matching[to as usize] = match found {
            Some(row) => {
                clash(row[3], production)?;
                row[3] = merged(row[3], production);
                row[2]
            }
            None => {
                made.push([from, terminal, next, production]);
                next
            }
        };
    }
    Ok(made)
}

fn table(prod0: i32, k: usize, rows: Vec<[i32; 4]>) -> Table {
    Table {
        prod0,
        k,
        states: rows.len() + 1,
        rows: flat(rows),
    }
}
