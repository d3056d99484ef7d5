//! Four differences that lie in files outside the port. What parol does there is put before or
//! into the stand-ins here, after `token_stream.rs` and `k_tuple.rs`; those files are not run.

use super::{Fault, ROOM, text};
use crate::make::Strings;
use crate::reading::{self, Mode};
use crate::{Lent, Table, rust};
use parol::KTuples;
use parol::analysis::LookaheadDFA;

const ROW: [i32; 4] = [0, 5, 1, 1];

pub fn outside() -> Vec<Fault> {
    vec![padding(), order(), lone_65535(), stream_k_0()]
}

/// What `TokenStream::new` and `ensure_buffer` do: k is at least 1, and tokens are filled up with
/// the end token 0 to k.
fn parol_stream(tokens: &[u16], k: usize) -> (Vec<u16>, usize) {
    let k = k.max(1);
    let mut tokens = tokens.to_vec();
    while tokens.len() < k {
        tokens.push(0);
    }
    (tokens, k)
}

fn walk(
    table: Lent,
    stream_k: usize,
    tokens: &[u16],
    (name, about): (&'static str, &'static str),
) -> Fault {
    let (padded, k) = parol_stream(tokens, stream_k);
    let read = |mode| text::read(reading::predict(mode, table, stream_k, tokens));
    Fault {
        name,
        about,
        input: format!("k {}, (0,5,1,1); stream k {stream_k}, token 5", table.k),
        rust: text::predicted(rust::predict(table, k, &padded)),
        archive: read(Mode::Archive),
        intake: read(Mode::Intake),
    }
}

fn padding() -> Fault {
    let about = "parol's stream fills up with 0, so it is never short";
    walk(Lent::new(-1, 2, &ROW), 2, &[5], ("padding", about))
}

fn stream_k_0() -> Fault {
    let about = "parol's stream takes k 0 as 1";
    walk(Lent::new(-1, 1, &ROW), 0, &[5], ("stream's k", about))
}

/// parol's own order: by length, then by the last token first; each string once.
fn parol_order<'a>(strings: &[&'a [u16]]) -> Vec<&'a [u16]> {
    let mut sorted = strings.to_vec();
    sorted.sort_by_key(|s| (s.len(), s.iter().rev().copied().collect::<Vec<u16>>()));
    sorted.dedup();
    sorted
}

fn built(
    strings: &[&[u16]],
    by_parol: Table,
    input: &str,
    (name, about): (&'static str, &'static str),
) -> Fault {
    let s = Strings::of(strings);
    let read = reading::build(1, &s.lengths, &s.tokens, ROOM).unwrap();
    Fault {
        name,
        about,
        input: input.to_string(),
        rust: text::table(&by_parol),
        archive: text::table(&read),
        intake: text::table(&read),
    }
}

fn order() -> Fault {
    let strings: [&[u16]; 2] = [&[7], &[5]];
    let by_parol = rust::build(1, &parol_order(&strings));
    let about = "parol sorts the strings, here the caller's order stays";
    built(&strings, by_parol, "7; 5 / 1", ("order of strings", about))
}

fn lone_65535() -> Fault {
    let strings: [&[u16]; 1] = [&[65_535]];
    let list = KTuples::with_parol_eps(&strings);
    let by_parol = rust::flat(&LookaheadDFA::from_k_tuples(&list, 1));
    let about = "65,535 alone is the empty string in parol";
    built(&strings, by_parol, "65535 / 1", ("epsilon", about))
}
