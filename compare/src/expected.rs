//! What the boundary must hand over for an answer of the reading.

use oracle::Table;
use oracle::reading::{Answer, Refusal};

/// The refusal's number or 0, the four values, and what stands at the front of the output.
#[derive(Debug, Clone, PartialEq, Eq)]
pub struct Expected<T> {
    pub number: usize,
    pub values: [u64; 4],
    pub front: Vec<T>,
}

impl<T> Expected<T> {
    /// Of an answer whose values and front are told by `accepted`.
    pub fn of<A>(answer: Answer<A>, accepted: impl FnOnce(A) -> ([u64; 4], Vec<T>)) -> Self {
        let (number, (values, front)) = match answer {
            Ok(said) => (0, accepted(said)),
            Err(refusal) => (refusal.number() as usize, (details(refusal), Vec::new())),
        };
        Expected {
            number,
            values,
            front,
        }
    }
}

/// 8 and 13 have details.
fn details(refusal: Refusal) -> [u64; 4] {
    match refusal {
        Refusal::Plain(_) => [0; 4],
        Refusal::Clash(first, second) => [first as u64, second as u64, 0, 0],
        Refusal::Text(at) => [at as u64, 0, 0, 0],
    }
}

/// Of a table that was made: prod0 plus one, k, the row count, the state count.
pub fn made(answer: Answer<Table>) -> Expected<i32> {
    Expected::of(answer, |t| {
        let (prod0, rows) = ((t.prod0 + 1) as u64, t.rows.len() as u64 / 4);
        ([prod0, t.k as u64, rows, t.states as u64], t.rows)
    })
}

/// Of a table that was read: the same without the state count.
pub fn heard(answer: Answer<Table>) -> Expected<i32> {
    let mut expected = made(answer);
    if expected.number == 0 {
        expected.values[3] = 0;
    }
    expected
}
