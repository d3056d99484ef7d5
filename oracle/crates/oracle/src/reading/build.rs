//! Build: 1, 2, 14.

use super::checks::{LAST_K, STATES, flat, room};
use super::{Answer, refuse_if};
use crate::Table;

/// Builds the tree of a list of strings under one production.
pub fn build(production: i32, lengths: &[usize], tokens: &[u16], room_for: usize) -> Answer<Table> {
    room(room_for)?;
    refuse_if(lengths.len() > 1_024, 1)?;
    refuse_if(sum(lengths) != tokens.len() as u128, 1)?;
    refuse_if(!(0..=65_535).contains(&production), 2)?;
    refuse_if(lengths.iter().any(|&length| length > LAST_K), 2)?;
    let table = tree_of(production, &cut(lengths, tokens));
    refuse_if(table.states > STATES, 14)?;
    Ok(table)
}

/// As a wider number, so that it cannot wrap.
fn sum(lengths: &[usize]) -> u128 {
    lengths.iter().map(|&length| length as u128).sum()
}

fn cut<'a>(lengths: &[usize], mut tokens: &'a [u16]) -> Vec<&'a [u16]> {
    let mut strings = Vec::new();
    for &length in lengths {
        let (string, rest) = tokens.split_at(length);
        strings.push(string);
        tokens = rest;
    }
    strings
}

fn tree_of(production: i32, strings: &[&[u16]]) -> Table {
    // The beginnings in order of need; a beginning's place is its state.
    let mut beginnings: Vec<&[u16]> = vec![&[]];
    for string in strings {
        for end in 1..=string.len() {
            if !beginnings.contains(&&string[..end]) {
                beginnings.push(&string[..end]);
            }
        }
    }
    let of = |b: &[u16]| {
        if strings.contains(&b) { production } else { -1 }
    };
    let mut rows = Vec::new();
    for (state, b) in beginnings.iter().enumerate().skip(1) {
        let (last, front) = b.split_last().unwrap();
        let from = beginnings.iter().position(|c| c == &front).unwrap();
        rows.push([from as i32, *last as i32, state as i32, of(b)]);
    }
    Table {
        prod0: if strings.is_empty() {
            production
        } else {
            of(&[])
        },
        k: strings.iter().map(|s| s.len()).max().unwrap_or(0),
        states: beginnings.len(),
        rows: flat(rows),
    }
}
