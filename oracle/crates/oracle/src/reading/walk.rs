//! Predict (1, 2, 3, 9, 10, then 11 or 12) and explain (1, 2, 3).

use super::checks::{length, order, range, rows};
use super::{Answer, Mode, Refusal, refuse_if};
use crate::Lent;

/// The production and the count of rows entered.
pub fn predict(mode: Mode, table: Lent, stream_k: usize, tokens: &[u16]) -> Answer<(i32, usize)> {
    checked(table)?;
    refuse_if(table.k > stream_k, 9)?;
    refuse_if(tokens.len() < table.k, 10)?;
    let mut state = 0;
    let mut entered = 0;
    let mut last_accepting = None;
    for &token in &tokens[..table.k] {
        if let Some([_, _, to, production]) = row_for(table, state, token) {
            state = to;
            entered += 1;
            if production >= 0 {
                last_accepting = Some(production);
            }
        }
    }
    match last_accepting {
        Some(production) => Ok((production, entered)),
        None if table.prod0 == -1 => Err(Refusal::Plain(11)),
        None if entered == 0 || mode == Mode::Intake => Ok((table.prod0, entered)),
        None => Err(Refusal::Plain(12)),
    }
}

/// The answers of explain's two calls: the count of matched tokens or the refusal, and the
/// stretch, counted in numbers from the slice's head.
#[derive(Debug, Clone, Copy, PartialEq, Eq)]
pub struct Explained {
    pub matched: Answer<usize>,
    pub start: usize,
    pub count: usize,
}

/// Walks all tokens to the first without a row.
pub fn explain(table: Lent, tokens: &[u16]) -> Explained {
    let nothing = |matched| Explained {
        matched,
        start: table.rows.len(),
        count: 0,
    };
    if let Err(refusal) = checked(table) {
        return nothing(Err(refusal));
    }
    let mut state = 0;
    for (matched, &token) in tokens.iter().enumerate() {
        match row_for(table, state, token) {
            Some(row) => state = row[2],
            None => {
                return match rows(table).position(|r| r[0] == state) {
                    Some(place) => Explained {
                        matched: Ok(matched),
                        start: 4 * place,
                        count: 4 * rows(table).filter(|r| r[0] == state).count(),
                    },
                    None => nothing(Ok(matched)),
                };
            }
        }
    }
    nothing(Ok(tokens.len()))
}

fn checked(table: Lent) -> Answer<()> {
    length(table.rows)?;
    range(table)?;
    order(table)
}

fn row_for(table: Lent, state: i32, token: u16) -> Option<[i32; 4]> {
    rows(table).find(|r| r[0] == state && r[1] == token as i32)
}
