//! Texts of 4,096 rows and more, and what comes before 1 and after it.

use super::{Named, refused};
use crate::Table;
use crate::list::{Ask, ROOM, Said};
use crate::make;
use crate::reading::{Answer, Refusal};

pub fn all() -> Vec<Named> {
    let rows = make::most_rows();
    let text = make::text_of(&rows);
    let table = Table {
        prod0: -1,
        k: 2,
        states: 0,
        rows,
    };
    let bad = text.len() + 26;
    let with = |more: &str| format!("{text}{more}");
    vec![
        read("a text of 4,096 rows is taken", &text, ROOM, Ok(table)),
        read(
            "4,097 rows: 1",
            &with("Trans(1023, 65535, 1, 1),\n"),
            ROOM,
            refused(1),
        ),
        read(
            "13 before 1 for the rows",
            &with("Trans(1023, 65535, 1, 1),\nTrans(\n"),
            ROOM,
            Err(Refusal::Text(bad)),
        ),
        read(
            "1 for the rows before 2",
            &with("Trans(1023, 65536, 1, 1),\n"),
            ROOM,
            refused(1),
        ),
        read(
            "1 for the rows before 3",
            &with("Trans(0, 0, 1, 1),\n"),
            ROOM,
            refused(1),
        ),
        read("1 for the output before 13", "x", ROOM - 1, refused(1)),
    ]
}

/// A named case lends its input for good.
fn read(name: &'static str, text: &str, room: usize, said: Answer<Table>) -> Named {
    let text = text.as_bytes().to_vec().leak();
    let cases = vec![(Ask::Text { text, room }, Said::Read(said))];
    Named { name, cases }
}
