//! The Rust's faults that archive mode keeps, each with its smallest input, and four differences
//! that lie outside the ported files.

mod known;
mod outside;
mod text;

pub use known::known;
pub use outside::outside;

use crate::reading::{self, Mode};
use crate::{Table, agree, make::Strings, rust};

/// One line of the table: the input and three answers, all as text.
#[derive(Debug, Clone, PartialEq, Eq)]
pub struct Fault {
    pub name: &'static str,
    pub about: &'static str,
    pub input: String,
    pub rust: String,
    pub archive: String,
    pub intake: String,
}

/// A list under one production.
pub type List<'a> = (i32, &'a [&'a [u16]]);

/// Where the table comes from.
pub enum Start<'a> {
    /// Lists, built and united from left to right.
    Lists(&'a [List<'a>]),
    /// A table as it stands: prod0, k, rows.
    Table(i32, usize, &'a [[i32; 4]]),
}

/// What is done: the start, perhaps shrink, perhaps predict.
pub struct Story<'a> {
    pub start: Start<'a>,
    pub shrink: bool,
    pub tokens: Option<&'a [u16]>,
}

const ROOM: usize = 16_384;

impl Story<'_> {
    pub fn told(&self, name: &'static str, about: &'static str) -> Fault {
        Fault {
            name,
            about,
            input: text::input(self),
            rust: self.by_the_rust(),
            archive: self.by_the_reading(Mode::Archive),
            intake: self.by_the_reading(Mode::Intake),
        }
    }

    fn by_the_rust(&self) -> String {
        let mut table = match self.start {
            Start::Table(prod0, k, rows) => given(prod0, k, rows),
            Start::Lists(lists) => match rust_union(lists) {
                Ok(table) => table,
                Err((p, q)) => return text::clash(p, q),
            },
        };
        if self.shrink {
            table = rust::shrink(table.lent());
        }
        let predict = |tokens| rust::predict(table.lent(), table.k, tokens);
        text::both(&table, self.tokens.map(|t| text::predicted(predict(t))))
    }

    fn by_the_reading(&self, mode: Mode) -> String {
        let made = match self.start {
            Start::Table(prod0, k, rows) => Ok(given(prod0, k, rows)),
            Start::Lists(lists) => reading_union(mode, lists),
        };
        let made = match self.shrink {
            true => made.and_then(|t| reading::shrink(mode, t.lent(), ROOM)),
            false => made,
        };
        let table = match made {
            Ok(table) => table,
            Err(refusal) => return text::refusal(refusal),
        };
        let predict = |tokens| reading::predict(mode, table.lent(), table.k, tokens);
        text::both(&table, self.tokens.map(|t| text::read(predict(t))))
    }
}

fn given(prod0: i32, k: usize, rows: &[[i32; 4]]) -> Table {
    let mut states: Vec<i32> = rows.iter().map(|r| r[2]).collect();
    states.push(0);
    states.sort();
    states.dedup();
    Table {
        prod0,
        k,
        states: states.len(),
        rows: rows.concat(),
    }
}

fn rust_union(lists: &[List]) -> Result<Table, (i32, i32)> {
    let mut whole = rust::build(lists[0].0 as usize, lists[0].1);
    for (production, strings) in &lists[1..] {
        let next = rust::build(*production as usize, strings);
        whole = rust::unite(whole.lent(), next.lent())?;
    }
    Ok(whole)
}

fn reading_union(mode: Mode, lists: &[List]) -> reading::Answer<Table> {
    let build = |(production, strings): &List| {
        let s = Strings::of(strings);
        agree::build(*production, &s.lengths, &s.tokens, ROOM).1
    };
    let mut whole = build(&lists[0])?;
    for list in &lists[1..] {
        whole = reading::unite(mode, whole.lent(), build(list)?.lent(), ROOM)?;
    }
    Ok(whole)
}

/// All of them.
pub fn all() -> Vec<Fault> {
    let mut all = known();
    all.extend(outside());
    all
}

/// The table as lines to print.
pub fn printed(faults: &[Fault]) -> String {
    let mut lines = String::from("| no | fault | input | the Rust | archive | intake |\n");
    lines += "|---|---|---|---|---|---|\n";
    for f in faults {
        lines += &format!(
            "| {} | {} | {} | {} | {} | {} |\n",
            f.name, f.about, f.input, f.rust, f.archive, f.intake
        );
    }
    lines
}
