//! Shrink: document 01's worked cases.

use super::{Named, lent, made, refused};
use crate::list::{Ask, ROOM, Said};
use crate::reading::Mode::{Archive, Intake};
use crate::reading::{Answer, Mode};
use crate::{Lent, Table};

pub fn all() -> Vec<Named> {
    let mut all = joined();
    all.extend(root());
    all.extend(twice());
    all
}

pub fn shrunk(name: &'static str, mode: Mode, table: Lent<'static>, said: Answer<Table>) -> Named {
    let ask = Ask::Shrink {
        mode,
        table,
        room: ROOM,
    };
    Named {
        name,
        cases: vec![(ask, Said::Made(said))],
    }
}

/// Document 01's T: in archive the rows of merged accepting states are not joined.
fn joined() -> Vec<Named> {
    let t = lent(-1, 2, &[[0, 5, 1, 1], [0, 7, 3, 1], [1, 6, 2, 2]]);
    let archive = made(-1, 2, 3, &[[0, 5, 1, 1], [0, 7, 1, 1]]);
    let intake = made(-1, 2, 4, &[[0, 5, 1, 1], [0, 7, 3, 1], [1, 6, 2, 2]]);
    vec![
        shrunk("archive shrink of T: 3 states, 2 rows", Archive, t, archive),
        shrunk("intake shrink of T: T itself", Intake, t, intake),
    ]
}

/// State 0 accepts, and takes the rows of another.
fn root() -> Vec<Named> {
    let table = lent(1, 2, &[[0, 3, 1, 1], [0, 5, 2, 2]]);
    let archive = "archive shrink where 0 accepts: 2 states, no rows";
    let intake = "intake shrink where 0 accepts: 3 states, 2 rows";
    let kept = made(1, 2, 3, &[[0, 3, 1, 1], [0, 5, 2, 2]]);
    vec![
        shrunk(archive, Archive, table, made(1, 2, 2, &[])),
        shrunk(intake, Intake, table, kept),
    ]
}

/// What shrink gives is not ruled: its rows may fall.
fn twice() -> Vec<Named> {
    let table = lent(-1, 2, &[[0, 4, 1, 7], [0, 6, 2, -1], [2, 4, 3, 7]]);
    let falling = lent(-1, 2, &[[0, 4, 1, 7], [0, 6, 2, -1], [2, 4, 1, 7]]);
    let small = made(-1, 2, 3, &[[0, 4, 1, 7], [0, 6, 2, -1], [2, 4, 1, 7]]);
    let archive = "archive shrink to a falling row: 3 states";
    let intake = "intake shrink to a falling row: 3 states";
    let again = "archive shrinking that again: 4";
    vec![
        shrunk(archive, Archive, table, small.clone()),
        shrunk(intake, Intake, table, small),
        shrunk(again, Archive, falling, refused(4)),
        shrunk(
            "intake shrinking that again: 4",
            Intake,
            falling,
            refused(4),
        ),
    ]
}
