//! The reading's text form, on document 01's case and on what it leaves to be read closely.

use oracle::make::{self, Dice, Size};
use oracle::reading::Refusal::{self, Plain, Text};
use oracle::reading::{tabrep, text_in, text_out};
use oracle::{Lent, Table};

const ROOM: usize = 16_384;
const BYTES: usize = 262_144;
const T: &str = "Dfa(-1, 2)\nTrans(0, 5, 1, 1),\nTrans(0, 7, 3, 1),\nTrans(1, 6, 2, 2),\n";

fn read(text: &str) -> Result<Table, Refusal> {
    text_in(text.as_bytes(), ROOM)
}

fn refused(text: &str) -> Refusal {
    read(text).unwrap_err()
}

#[test]
fn t_and_tabrep() {
    let t = read(T).unwrap();
    assert_eq!(vec![0, 5, 1, 1, 0, 7, 3, 1, 1, 6, 2, 2], t.rows);
    assert_eq!((-1, 2, 4), (t.prod0, t.k, t.states));
    assert_eq!(Ok(T.as_bytes().to_vec()), text_out(t.lent(), BYTES));
    assert_eq!("in 4 3\narchive 3 2\nintake 4 3\n", tabrep(T.as_bytes()));
    assert_eq!("refused 1\n", tabrep(&[b'x'; 65_537]));
    assert_eq!("refused 13\n", tabrep(&[b'x'; 65_536]));
    assert_eq!("refused 4\n", tabrep(b"Dfa(-1, 2)\nTrans(0, 5, 0, 1),\n"));
}

#[test]
fn offsets_of_bad_lines() {
    for bad in [
        "",
        "Dfa(-1, 2)",
        "\n",
        "Dfa(-1, 2),\n",
        "Dfa(-1,2)\n",
        "dfa(-1, 2)\n",
    ] {
        assert_eq!(Text(0), refused(bad), "{bad:?}");
    }
    for bad in [
        "\n",
        "Dfa(-1, 2)\n",
        "Trans(0, 5, 1, 1)\n",
        "Trans(0, 5, 1, 1),",
        "Trans(0, 5, 1, 1),\r\n",
        "Trans(0, 5, 1),\n",
        "Trans(0, 5, 1, 1, 1),\n",
        " Trans(0, 5, 1, 1),\n",
        "Trans(0,  5, 1, 1),\n",
    ] {
        assert_eq!(Text(11), refused(&format!("Dfa(-1, 2)\n{bad}")), "{bad:?}");
    }
    assert_eq!(Text(30), refused("Dfa(-1, 2)\nTrans(0, 5, 1, 1),\nx\n"));
    assert_eq!(Err(Text(0)), text_in(&[0xff, b'\n'], ROOM));
}

#[test]
fn numbers() {
    for bad in ["-2", "-0", "00", "05", "+1", "100000", "", "1 ", "x"] {
        assert_eq!(Text(0), refused(&format!("Dfa({bad}, 2)\n")), "{bad:?}");
        assert_eq!(Text(0), refused(&format!("Dfa(1, {bad})\n")), "{bad:?}");
    }
    assert_eq!(Text(0), refused("Dfa(1, -1)\n"));
    assert_eq!(Text(11), refused("Dfa(-1, 2)\nTrans(0, -1, 1, 1),\n"));
    for outside in [
        "Dfa(65536, 2)\n",
        "Dfa(99999, 2)\n",
        "Dfa(1, 17)\n",
        "Dfa(1, 99999)\n",
    ] {
        assert_eq!(Plain(2), refused(outside));
    }
    assert_eq!(Plain(2), refused("Dfa(-1, 2)\nTrans(0, 5, 1024, 1),\n"));
    let swapped = "Dfa(-1, 2)\nTrans(0, 6, 1, 1),\nTrans(0, 5, 2, 1),\n";
    assert_eq!(Plain(3), refused(swapped));
}

#[test]
fn order_of_the_checks() {
    assert_eq!(Err(Plain(1)), text_in(b"x", ROOM - 1));
    let rows = |count| format!("Dfa(-1, 2)\n{}", "Trans(0, 5, 1, 1),\n".repeat(count));
    assert_eq!(Plain(3), refused(&rows(4_096)));
    assert_eq!(Plain(1), refused(&rows(4_097)));
    let bad = format!("{}x", rows(4_097));
    assert_eq!(Text(bad.len() - 1), refused(&bad));
    let row = [0, 5, 1, 1];
    assert_eq!(Err(Plain(1)), text_out(Lent::new(-2, 1, &row), BYTES - 1));
    assert_eq!(Err(Plain(1)), text_out(Lent::new(-2, 1, &row[..3]), BYTES));
    assert_eq!(Err(Plain(2)), text_out(Lent::new(-2, 1, &row), BYTES));
    let swapped = [0, 6, 1, 1, 0, 5, 2, 1];
    assert_eq!(Err(Plain(3)), text_out(Lent::new(-1, 1, &swapped), BYTES));
}

/// Reading what was written gives the same table, and the text fits its slice.
#[test]
fn there_and_back() {
    let mut dice = Dice::new(31);
    for round in 0..2_000 {
        let large = round % 100 == 0;
        let size = Size {
            states: if large { 1_024 } else { 8 },
            rows: if large { 4_096 } else { 12 },
            terminals: &[0, 9, 10, 65_535, 1_234],
            productions: &[-1, 0, 65_535],
            gaps: true,
        };
        let table = make::rising(&mut dice, &size);
        let text = text_out(table.lent(), BYTES).unwrap();
        assert!(text.len() <= BYTES);
        let back = text_in(&text, ROOM).unwrap();
        assert_eq!(table.lent(), back.lent());
    }
}
