//! Inputs and answers as text.

use super::{List, Start, Story};
use crate::Table;
use crate::reading::{Answer, Refusal};
use crate::rust::Predicted;

pub fn input(story: &Story) -> String {
    let mut text = match story.start {
        Start::Table(prod0, k, rows) => head(prod0, k, &rows.concat()),
        Start::Lists(lists) => lists.iter().map(list).collect::<Vec<_>>().join(", "),
    };
    if story.shrink {
        text += "; shrunk";
    }
    if let Some(tokens) = story.tokens {
        text += &format!("; tokens {}", words(tokens));
    }
    text
}

fn list((production, strings): &List) -> String {
    let strings: Vec<String> = strings.iter().map(|s| words(s)).collect();
    let strings = match strings.len() {
        0 => "no string".to_string(),
        _ => strings.join("; "),
    };
    format!("{strings} / {production}")
}

fn words(tokens: &[u16]) -> String {
    if tokens.is_empty() {
        return "empty".to_string();
    }
    let words: Vec<String> = tokens.iter().map(|t| t.to_string()).collect();
    words.join(" ")
}

fn head(prod0: i32, k: usize, rows: &[i32]) -> String {
    let mut text = format!("prod0 {prod0}, k {k}");
    for r in rows.chunks_exact(4) {
        text += &format!(" ({},{},{},{})", r[0], r[1], r[2], r[3]);
    }
    text
}

pub fn table(table: &Table) -> String {
    let head = head(table.prod0, table.k, &table.rows);
    format!("{head}, {}", many(table.states, "state"))
}

/// A table and, if one was asked for, a prediction.
pub fn both(made: &Table, prediction: Option<String>) -> String {
    match prediction {
        Some(prediction) => format!("{}; {prediction}", table(made)),
        None => table(made),
    }
}

pub fn predicted(answer: Predicted) -> String {
    match answer {
        Predicted::Production(usize::MAX, _) => "-1 as usize".to_string(),
        Predicted::Production(production, rows) => after(production as i32, rows),
        Predicted::Mismatch => "9".to_string(),
        Predicted::Short => "10".to_string(),
        Predicted::None => "11".to_string(),
    }
}

pub fn read(answer: Answer<(i32, usize)>) -> String {
    match answer {
        Ok((production, rows)) => after(production, rows),
        Err(refusal_) => refusal(refusal_),
    }
}

fn after(production: i32, rows: usize) -> String {
    format!("{production} after {}", many(rows, "row"))
}

fn many(count: usize, of: &str) -> String {
    let s = if count == 1 { "" } else { "s" };
    format!("{count} {of}{s}")
}

pub fn refusal(refusal: Refusal) -> String {
    match refusal {
        Refusal::Clash(first, second) => clash(first, second),
        other => other.number().to_string(),
    }
}

pub fn clash(first: i32, second: i32) -> String {
    format!("8 with {first}, {second}")
}
