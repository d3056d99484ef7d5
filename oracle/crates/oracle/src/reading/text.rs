//! Text in (1 for the output, 13, 1 for the rows, 2, 3), text out (1, 2, 3) and `tabrep`. The
//! Rust only words the rows, so nothing here is compared with it but the wording.

use super::checks::{ROOM, length, order, range, room, rows};
use super::{Answer, MODES, Mode, Refusal, refuse_if, shrink};
use crate::{Lent, Table};
use std::collections::BTreeSet;

/// Reads a text table. The states are 0 and every to.
pub fn text_in(text: &[u8], room_for: usize) -> Answer<Table> {
    room(room_for)?;
    let (head, numbers) = lines(text)?;
    refuse_if(numbers.len() > ROOM, 1)?;
    // A k that fits no usize cannot be written in five digits.
    let table = Lent::new(head[0], head[1] as usize, &numbers);
    range(table)?;
    order(table)?;
    let states: BTreeSet<i32> = rows(table).map(|r| r[2]).chain([0]).collect();
    Ok(Table {
        prod0: table.prod0,
        k: table.k,
        states: states.len(),
        rows: numbers,
    })
}

/// The numbers of the first line and of all others; 13 with the offset of the first bad line.
fn lines(text: &[u8]) -> Answer<(Vec<i32>, Vec<i32>)> {
    let mut head = Vec::new();
    let mut numbers = Vec::new();
    let mut offset = 0;
    while offset < text.len() || offset == 0 {
        let end = text[offset..].iter().position(|&b| b == b'\n');
        let line = end.and_then(|end| std::str::from_utf8(&text[offset..offset + end]).ok());
        let read = match offset {
            0 => line.and_then(|l| fields(l, "Dfa(", ")", &[true, false])),
            _ => line.and_then(|l| fields(l, "Trans(", "),", &[false, false, false, true])),
        };
        let read = read.ok_or(Refusal::Text(offset))?;
        if offset == 0 { &mut head } else { &mut numbers }.extend(read);
        offset += end.unwrap() + 1;
    }
    Ok((head, numbers))
}

/// The numbers of one line; `minus` says where -1 may stand.
fn fields(line: &str, before: &str, after: &str, minus: &[bool]) -> Option<Vec<i32>> {
    let inner = line.strip_prefix(before)?.strip_suffix(after)?;
    let parts: Vec<&str> = inner.split(", ").collect();
    if parts.len() != minus.len() {
        return None;
    }
    let numbers = parts.iter().zip(minus).map(|(p, m)| number(p, *m));
    numbers.collect()
}

/// 1 to 5 digits without leading zero, or -1 where it may stand.
fn number(part: &str, minus: bool) -> Option<i32> {
    if part == "-1" && minus {
        return Some(-1);
    }
    let digits = part.bytes().all(|b| b.is_ascii_digit());
    let leading = part.len() > 1 && part.starts_with('0');
    if !digits || leading || part.is_empty() || part.len() > 5 {
        return None;
    }
    part.parse().ok()
}

/// Writes a text table.
pub fn text_out(table: Lent, room_for: usize) -> Answer<Vec<u8>> {
    length(table.rows)?;
    refuse_if(room_for < 262_144, 1)?;
    range(table)?;
    order(table)?;
    let mut text = format!("Dfa({}, {})\n", table.prod0, table.k);
    for [from, terminal, to, production] in rows(table) {
        text += &format!("Trans({from}, {terminal}, {to}, {production}),\n");
    }
    Ok(text.into_bytes())
}

/// What the program `tabrep` prints for its input.
pub fn tabrep(input: &[u8]) -> String {
    reported(input).unwrap_or_else(|refusal| format!("refused {}\n", refusal.number()))
}

fn reported(input: &[u8]) -> Answer<String> {
    refuse_if(input.len() > 65_536, 1)?;
    let table = text_in(input, ROOM)?;
    let line = |label, t: &Table| format!("{label} {} {}\n", t.states, t.rows.len() / 4);
    let mut lines = line("in", &table);
    for mode in MODES {
        let label = if mode == Mode::Archive {
            "archive"
        } else {
            "intake"
        };
        lines += &line(label, &shrink(mode, table.lent(), ROOM)?);
    }
    Ok(lines)
}
