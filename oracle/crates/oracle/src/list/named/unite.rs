//! Unite: document 01's worked cases. A is the strings 5 and 7 under 1, B the string 5 6 under 2.

use super::{Named, lent, made};
use crate::list::{Ask, ROOM, Said};
use crate::reading::Mode::{Archive, Intake};
use crate::reading::{Answer, Mode, Refusal};
use crate::{Lent, Table};

pub fn all() -> Vec<Named> {
    let mut all = worked();
    all.extend(longer());
    all.extend(empty());
    all.extend(five());
    all
}

fn united(
    name: &'static str,
    mode: Mode,
    first: Lent<'static>,
    second: Lent<'static>,
    said: Answer<Table>,
) -> Named {
    let ask = Ask::Unite {
        mode,
        first,
        second,
        room: ROOM,
    };
    Named {
        name,
        cases: vec![(ask, Said::Made(said))],
    }
}

fn worked() -> Vec<Named> {
    let a = lent(-1, 1, &[[0, 5, 1, 1], [0, 7, 2, 1]]);
    let b = lent(-1, 2, &[[0, 5, 1, -1], [1, 6, 2, 2]]);
    let archive = made(-1, 1, 4, &[[0, 5, 1, -1], [0, 7, 2, 1], [1, 6, 3, 2]]);
    let t = made(-1, 2, 4, &[[0, 5, 1, 1], [0, 7, 3, 1], [1, 6, 2, 2]]);
    let intake = made(-1, 2, 4, &[[0, 5, 1, 1], [0, 7, 2, 1], [1, 6, 3, 2]]);
    let lost = "archive A with B: k 1, 5 no longer accepts";
    vec![
        united(lost, Archive, a, b, archive),
        united("archive B with A: T", Archive, b, a, t),
        united("intake A with B: k 2, 5 accepts", Intake, a, b, intake),
    ]
}

/// The larger k is intake's alone.
fn longer() -> Vec<Named> {
    let a = lent(-1, 1, &[[0, 5, 1, 1]]);
    let b = lent(-1, 2, &[[0, 7, 1, -1], [1, 8, 2, 2]]);
    let of = |k| made(-1, k, 4, &[[0, 5, 1, 1], [0, 7, 2, -1], [2, 8, 3, 2]]);
    vec![
        united("archive unite keeps the first's k", Archive, a, b, of(1)),
        united("intake unite takes the larger k", Intake, a, b, of(2)),
    ]
}

/// The empty string under 1, and under 2.
fn empty() -> Vec<Named> {
    let (a, b) = (lent(1, 0, &[]), lent(2, 0, &[]));
    let archive = "archive unite of two empty strings: prod0 1";
    let intake = "intake unite of two empty strings: 8 with 1, 2";
    vec![
        united(archive, Archive, a, b, made(1, 0, 1, &[])),
        united(intake, Intake, a, b, Err(Refusal::Clash(1, 2))),
    ]
}

/// The string 5 under 1, and under 2.
fn five() -> Vec<Named> {
    let a = lent(-1, 1, &[[0, 5, 1, 1]]);
    let b = lent(-1, 1, &[[0, 5, 1, 2]]);
    let archive = "archive unite of 5 with 5: 8 with 1, 2";
    let intake = "intake unite of 5 with 5: 8 with 1, 2";
    vec![
        united(archive, Archive, a, b, Err(Refusal::Clash(1, 2))),
        united(intake, Intake, a, b, Err(Refusal::Clash(1, 2))),
    ]
}
