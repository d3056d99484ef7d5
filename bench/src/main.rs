//! Speeds of the proved calls and of the Rust, from one driver in one run.
mod clock;
mod make;
mod predict;
mod text;

use lookahead::lent::Lent;
use oracle::Table;

const CALLS: [(&str, fn()); 6] = [
    ("build", make::build),
    ("unite", make::unite),
    ("shrink", make::shrink),
    ("predict", predict::run),
    ("explain", predict::explain),
    ("text", text::run),
];

/// A table as our calls take it.
fn ours(t: &Table) -> Lent<'_> {
    Lent {
        prod0: t.prod0,
        k: t.k,
        rows: &t.rows,
    }
}

fn main() {
    let words: Vec<String> = std::env::args().skip(1).collect();
    let names = CALLS.map(|(name, _)| name);
    if let Some(word) = words.iter().find(|w| !names.contains(&w.as_str())) {
        eprintln!("unknown: {word}; there are {}", names.join(", "));
        std::process::exit(2);
    }
    for (name, run) in CALLS {
        if words.is_empty() || words.iter().any(|w| w == name) {
            run();
        }
    }
}
