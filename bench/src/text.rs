//! Text in and out, beside a plain reader and writer of the same form.
use crate::clock;
use lookahead::lent::{self, Lent, ROOM, TEXT_ROOM};
use std::fmt::Write;
use std::hint::black_box;

/// A plain writer: `write!` into a string.
fn plain_out(prod0: i32, k: usize, rows: &[i32]) -> String {
    let mut text = String::new();
    writeln!(text, "Dfa({prod0}, {k})").unwrap();
    for r in rows.chunks_exact(4) {
        writeln!(text, "Trans({}, {}, {}, {}),", r[0], r[1], r[2], r[3]).unwrap();
    }
    text
}

/// A plain reader of good text: lines cut, words stripped, numbers parsed.
fn plain_in(text: &str) -> Option<(i32, usize, Vec<i32>)> {
    let mut lines = text.lines();
    let head = lines.next()?.strip_prefix("Dfa(")?.strip_suffix(")")?;
    let (prod0, k) = head.split_once(", ")?;
    let mut rows = Vec::new();
    for line in lines {
        let inner = line.strip_prefix("Trans(")?.strip_suffix("),")?;
        for number in inner.split(", ") {
            rows.push(number.parse().ok()?);
        }
    }
    Some((prod0.parse().ok()?, k.parse().ok()?, rows))
}

pub fn run() {
    println!("\n## text, nanoseconds a byte\n");
    println!("| ratio | call | plain Rust | ours |");
    println!("|---|---|---|---|");
    for count in [10, 100, 500, 1000, 4096] {
        let rows: Vec<i32> = (0..count)
            .flat_map(|i| [i / 4, 60000 + i % 4, (i * 7) % 1024, i % 65536 - 1])
            .collect();
        let text = plain_out(-1, 2, &rows);
        let t = Lent {
            prod0: -1,
            k: 2,
            rows: &rows,
        };
        let mut bytes = vec![0; TEXT_ROOM];
        let mut numbers = vec![0; ROOM];
        assert_eq!(Ok(text.len()), lent::text_out(t, &mut bytes));
        assert_eq!(&bytes[..text.len()], text.as_bytes());
        let read = lent::text_in(text.as_bytes(), &mut numbers);
        assert_eq!(Ok(t), read.map(|r| r.lent(&numbers)));
        let mut rust = || {
            black_box(plain_out(-1, 2, &rows));
        };
        let mut mine = || {
            let _ = black_box(lent::text_out(t, &mut bytes));
        };
        let what = format!("text out, {count} rows");
        clock::race(&what, text.len(), 2, [&mut rust, &mut mine]);
        let mut rust = || {
            black_box(plain_in(&text));
        };
        let mut mine = || {
            let _ = black_box(lent::text_in(text.as_bytes(), &mut numbers));
        };
        let what = format!("text in, {count} rows");
        clock::race(&what, text.len(), 2, [&mut rust, &mut mine]);
    }
}
