//! Predict, in both modes: the production and the count of rows entered.

use super::{Named, lent, predict, refused};
use crate::Lent;
use crate::reading::Mode::{Archive, Intake};
use crate::reading::{Answer, MODES, Mode};

pub fn all() -> Vec<Named> {
    let mut all = stray();
    all.extend(short());
    all.extend(mismatch());
    all.extend(nothing());
    all.extend(root());
    all.extend(united());
    all.extend(last_shrink());
    all
}

/// Both modes say the same.
fn both(
    name: &'static str,
    table: Lent<'static>,
    stream_k: usize,
    tokens: &'static [u16],
    said: Answer<(i32, usize)>,
) -> Named {
    let case = |mode| predict(mode, table, stream_k, tokens, said);
    Named {
        name,
        cases: MODES.map(case).to_vec(),
    }
}

fn one(
    name: &'static str,
    mode: Mode,
    table: Lent<'static>,
    tokens: &'static [u16],
    said: Answer<(i32, usize)>,
) -> Named {
    Named {
        name,
        cases: vec![predict(mode, table, 2, tokens, said)],
    }
}

fn stray() -> Vec<Named> {
    let of = |k| lent(-1, k, &[[0, 5, 1, 1], [1, 6, 2, 2]]);
    let before = "a stray token before a row is stepped over";
    let between = "a stray token between two rows is stepped over";
    let behind = "tokens behind the table's k are not read";
    vec![
        both(before, of(2), 16, &[9, 5], Ok((1, 1))),
        both(between, of(3), 16, &[5, 9, 6], Ok((2, 2))),
        both("stray tokens alone give 11", of(2), 2, &[6, 9], refused(11)),
        both(behind, of(1), 16, &[5, 6], Ok((1, 1))),
        both(
            "nor when the first was stray",
            of(1),
            2,
            &[9, 5],
            refused(11),
        ),
    ]
}

fn short() -> Vec<Named> {
    let of = |prod0| lent(prod0, 2, &[[0, 5, 1, 1]]);
    let reached = "a short stream is 10 though a production was reached";
    vec![
        both(reached, of(-1), 2, &[5], refused(10)),
        both("and though prod0 accepts", of(4), 2, &[], refused(10)),
        both("9 comes before 10", of(-1), 1, &[5], refused(9)),
    ]
}

fn mismatch() -> Vec<Named> {
    let of = |k| lent(-1, k, &[[0, 5, 1, 1]]);
    let over = "table k over stream k without tokens is 9";
    let zero = "a stream k of 0 under a table k of 1 is 9";
    vec![
        both(over, of(2), 1, &[], refused(9)),
        both("and with tokens enough", of(2), 1, &[5, 6], refused(9)),
        both(zero, of(1), 0, &[], refused(9)),
    ]
}

fn nothing() -> Vec<Named> {
    let of = |prod0| lent(prod0, 0, &[[0, 5, 1, 1]]);
    let none = "no tokens, k 0 and prod0 -1 give 11";
    vec![
        both("no tokens and k 0 give prod0", of(4), 16, &[], Ok((4, 0))),
        both(none, of(-1), 0, &[], refused(11)),
        both("k 0 reads no token", of(0), 16, &[5], Ok((0, 0))),
    ]
}

/// Document 01's corner: prod0 accepts, and the row that is entered does not.
fn root() -> Vec<Named> {
    let table = lent(3, 2, &[[0, 5, 1, -1], [1, 6, 2, 4]]);
    let archive = "rows entered, none accepting, prod0 3: archive 12";
    let intake = "rows entered, none accepting, prod0 3: intake 3";
    let neither = "no row entered, prod0 3: 3 in both";
    vec![
        one(archive, Archive, table, &[5, 9], refused(12)),
        one(intake, Intake, table, &[5, 9], Ok((3, 1))),
        both(neither, table, 16, &[9, 9], Ok((3, 0))),
    ]
}

/// Document 01's A with B: archive's rows have lost the production of 5, intake's have not.
fn united() -> Vec<Named> {
    let archive = lent(-1, 1, &[[0, 5, 1, -1], [0, 7, 2, 1], [1, 6, 3, 2]]);
    let intake = lent(-1, 2, &[[0, 5, 1, 1], [0, 7, 2, 1], [1, 6, 3, 2]]);
    let [whole, begun, late] = [
        "intake A with B on 5 6: 2 after 2",
        "intake A with B on 5 9: 1 after 1",
        "intake A with B on 9 5: 1 after 1",
    ];
    vec![
        both(
            "archive A with B on 5 6: 11",
            archive,
            16,
            &[5, 6],
            refused(11),
        ),
        both(whole, intake, 16, &[5, 6], Ok((2, 2))),
        both(begun, intake, 16, &[5, 9], Ok((1, 1))),
        both(late, intake, 16, &[9, 5], Ok((1, 1))),
    ]
}

/// Document 01's T, and what archive shrink makes of it.
fn last_shrink() -> Vec<Named> {
    let whole = lent(-1, 2, &[[0, 5, 1, 1], [0, 7, 3, 1], [1, 6, 2, 2]]);
    let small = lent(-1, 2, &[[0, 5, 1, 1], [0, 7, 1, 1]]);
    let shrunk = "T shrunk by archive on 5 6: 1 after 1";
    vec![
        both("T on 5 6: 2 after 2", whole, 16, &[5, 6], Ok((2, 2))),
        both(shrunk, small, 16, &[5, 6], Ok((1, 1))),
    ]
}
