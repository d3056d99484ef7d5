//! Texts: tables there and back, damaged copies, each refusal at its boundary and before the next.

use super::{List, ROOM, TEXT_ROOM};
use crate::make::{self, Dice, Size};
use crate::reading;

/// Bytes that a text has, and some that it has not.
const TELLING: &[u8; 16] = b"0169-, ()\n\r+DT\0\xff";

const TERMINALS: [u16; 10] = [0, 5, 9, 10, 42, 99, 100, 1_234, 54_321, 65_535];
const PRODUCTIONS: [i32; 8] = [-1, -1, 0, 7, 42, 999, 1_234, 65_535];

pub fn add(list: &mut List) {
    drawn(list);
    for text in make::TEXTS.map(str::as_bytes) {
        list.text(text, ROOM);
        for place in 0..text.len() {
            for copy in make::damages(text, place, TELLING) {
                list.text(&copy, ROOM);
            }
        }
    }
    rooms(list);
    lines(list);
    ranges(list);
    orders(list);
}

/// Tables of 0 to 40 rows, with numbers of each length.
fn drawn(list: &mut List) {
    let mut dice = Dice::new(108);
    for _ in 0..120 {
        let size = Size {
            states: dice.pick(&[2, 12, 120, 1_024]),
            rows: dice.within(0, 40),
            terminals: &TERMINALS,
            productions: &PRODUCTIONS,
            gaps: false,
        };
        let table = make::rising(&mut dice, &size);
        let text = reading::text_out(table.lent(), TEXT_ROOM).unwrap();
        assert_eq!(0, list.text(&text, ROOM));
    }
}

fn expect(number: u64, list: &mut List, text: &str) {
    assert_eq!(number, list.text(text.as_bytes(), ROOM), "{text:?}");
}

/// 1 for the output comes before a bad text.
fn rooms(list: &mut List) {
    let (good, bad) = (make::TEXTS[1].as_bytes(), b"Dfa(0, 9)\nTrans(");
    for (room, number) in [(0, 1), (ROOM - 1, 1), (ROOM, 0), (ROOM + 1, 0), (20_000, 0)] {
        assert_eq!(number, list.text(good, room));
        assert_eq!(number.max(13 * (1 - number)), list.text(bad, room));
    }
}

/// 13 at the first line, and at the second.
fn lines(list: &mut List) {
    for bad in [
        "",
        "\n",
        "Dfa(-1, 2)",
        "Dfa(-1, 2),\n",
        "Dfa(-1,2)\n",
        "dfa(-1, 2)\n",
    ] {
        expect(13, list, bad);
    }
    for bad in [
        "\n",
        "Dfa(-1, 2)\n",
        "Trans(0, 5, 1, 1)\n",
        "Trans(0, 5, 1, 1),",
        "Trans(0, 5, 1, 1),\r\n",
        "Trans(0, 5, 1),\n",
        "Trans(0, 5, 1, 1, 1),\n",
        " Trans(0, 5, 1, 1),\n",
        "Trans(0,  5, 1, 1),\n",
        "Trans(0, 5, 1, 1),\n\n",
    ] {
        expect(13, list, &format!("Dfa(-1, 2)\n{bad}"));
    }
    for bad in [
        "-2", "-0", "-01", "--1", "00", "05", "+1", "100000", "", "1 ", " 1", "x", "1x",
    ] {
        for place in 0..6 {
            let mut numbers = ["1"; 6];
            numbers[place] = bad;
            expect(13, list, &text(numbers));
        }
    }
}

/// A head and one row of these numbers.
fn text([prod0, k, from, terminal, to, production]: [&str; 6]) -> String {
    format!("Dfa({prod0}, {k})\nTrans({from}, {terminal}, {to}, {production}),\n")
}

/// 2: each number at its bound, past it, and the largest in form; -1 where it may stand.
fn ranges(list: &mut List) {
    let last = ["65535", "16", "1023", "65535", "1023", "65535"];
    let past = ["65536", "17", "1024", "65536", "1024", "65536"];
    for place in 0..6 {
        for (number, said) in [("0", 0), (last[place], 0), (past[place], 2), ("99999", 2)] {
            let mut numbers = ["1"; 6];
            numbers[place] = number;
            expect(said, list, &text(numbers));
        }
        let mut numbers = ["1"; 6];
        numbers[place] = "-1";
        expect(if place % 5 == 0 { 0 } else { 13 }, list, &text(numbers));
    }
}

/// 3, after 2 and 13: keys that do not rise.
fn orders(list: &mut List) {
    let rows = "Dfa(-1, 2)\nTrans(1, 5, 1, 1),\n";
    for (next, number) in [
        ("Trans(1, 6, 1, 1),\n", 0),
        ("Trans(2, 0, 1, 1),\n", 0),
        ("Trans(1, 5, 2, 2),\n", 3),
        ("Trans(1, 4, 1, 1),\n", 3),
        ("Trans(0, 6, 1, 1),\n", 3),
        ("Trans(0, 6, 1, 1),\nTrans(0, 65536, 1, 1),\n", 2),
        ("Trans(0, 6, 1, 1),\nTrans(0, 65536, 1, 1),\nx", 13),
    ] {
        expect(number, list, &format!("{rows}{next}"));
    }
}
