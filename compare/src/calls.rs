//! Each call made and compared: in archive mode with the Rust where it has a say, and always with the reading.

use crate::desk::{Change, Desk, Held, with_output};
use crate::expected::{Expected, heard, made};
use crate::spoil::Spoil;
use lookahead::raw;
use oracle::agree::{self, Lending};
use oracle::reading::{self, Answer, Lists, Mode, Refusal};
use oracle::{Lent, Table};
use std::fmt::Debug;

/// The mode's number at the boundary: 0, or any other for intake.
fn number(mode: Mode, any: usize) -> u32 {
    match mode {
        Mode::Archive => 0,
        Mode::Intake => [1, 1, 1, 2, u32::MAX][any % 5],
    }
}

impl Desk {
    fn made(
        &mut self,
        expected: &Expected<i32>,
        room: usize,
        input: &impl Debug,
        call: impl FnOnce(*mut i32, usize, *mut u64) -> usize,
    ) {
        let spoil = self.spoil.map(|s| (s, (|n| n ^ 1) as Change<i32>));
        with_output(&mut self.rows, room, spoil, expected, input, call);
        self.count(expected.number);
    }

    fn kept<T: Copy + PartialEq + Debug>(
        &self,
        held: &mut Held<T>,
        change: fn(T) -> T,
        input: &impl Debug,
    ) {
        if self.spoil == Some(Spoil::Input) {
            held.spoil(change);
        }
        held.unchanged(input);
    }

    #[rustfmt::skip]
    pub fn build(&mut self, production: i32, lengths: &[usize], tokens: &[u16], room: usize) -> Answer<Table> {
        let input = ("build", production, lengths, tokens, room);
        let (asked, read) = agree::build(production, lengths, tokens, room);
        let (mut n, mut t) = (Held::new(lengths), Held::new(tokens));
        let ((ns, nl), (ts, tl)) = (n.lent(), t.lent());
        // SAFETY: `n` and `t` live on; `out` and `answer` are lent for this call alone.
        self.made(&made(read.clone()), room, &input, |out, len, answer| unsafe {
            raw::lookahead_build(production, ts, tl, ns, nl, out, len, answer)
        });
        self.kept(&mut n, |n| n ^ 1, &input);
        self.kept(&mut t, |n| n ^ 1, &input);
        self.asked += asked as u64;
        read
    }

    #[rustfmt::skip]
    pub fn unite(&mut self, mode: Mode, a: Lent, b: Lent, room: usize) -> Answer<Table> {
        let input = ("unite", mode, a, b, room);
        let (asked, read) = agree::unite(mode, a, b, room);
        let (mut f, mut s) = (Held::new(a.rows), Held::new(b.rows));
        let ((fs, fl), (ss, sl)) = (f.lent(), s.lent());
        let m = number(mode, a.rows.len() / 4 + b.rows.len());
        // SAFETY: `f` and `s` live on; `out` and `answer` are lent for this call alone.
        self.made(&made(read.clone()), room, &input, |out, len, answer| unsafe {
            raw::lookahead_unite(m, a.prod0, a.k, fs, fl, b.prod0, b.k, ss, sl, out, len, answer)
        });
        self.kept(&mut f, |n| n ^ 1, &input);
        self.kept(&mut s, |n| n ^ 1, &input);
        self.asked += asked as u64;
        read
    }

    #[rustfmt::skip]
    pub fn shrink(&mut self, mode: Mode, t: Lent, room: usize) -> Answer<Table> {
        let input = ("shrink", mode, t, room);
        let (asked, read) = agree::shrink(mode, t, room);
        let mut r = Held::new(t.rows);
        let (rs, rl) = r.lent();
        let m = number(mode, t.rows.len() / 4);
        // SAFETY: `r` lives on; `out` and `answer` are lent for this call alone.
        self.made(&made(read.clone()), room, &input, |out, len, answer| unsafe {
            raw::lookahead_shrink(m, t.prod0, t.k, rs, rl, out, len, answer)
        });
        self.kept(&mut r, |n| n ^ 1, &input);
        self.asked += asked as u64;
        read
    }

    #[rustfmt::skip]
    pub fn intake(&mut self, lists: &Lists, room: usize) -> Answer<Table> {
        let input = ("intake", lists, room);
        let read = reading::intake(lists, room);
        let (mut p, mut c) = (Held::new(&lists.productions), Held::new(&lists.counts));
        let (mut n, mut t) = (Held::new(&lists.lengths), Held::new(&lists.tokens));
        let ((ps, pl), (cs, cl), (ns, nl), (ts, tl)) = (p.lent(), c.lent(), n.lent(), t.lent());
        // SAFETY: `p`, `c`, `n` and `t` live on; `out` and `answer` are lent for this call alone.
        self.made(&made(read.clone()), room, &input, |out, len, answer| unsafe {
            raw::lookahead_intake(ps, pl, cs, cl, ns, nl, ts, tl, out, len, answer)
        });
        self.kept(&mut p, |n| n ^ 1, &input);
        self.kept(&mut c, |n| n ^ 1, &input);
        self.kept(&mut n, |n| n ^ 1, &input);
        self.kept(&mut t, |n| n ^ 1, &input);
        read
    }

    #[rustfmt::skip]
    pub fn text_in(&mut self, text: &[u8], room: usize) -> Answer<Table> {
        let input = ("text in", String::from_utf8_lossy(text), text, room);
        let read = reading::text_in(text, room);
        let mut b = Held::new(text);
        let (bs, bl) = b.lent();
        // SAFETY: `b` lives on; `out` and `answer` are lent for this call alone.
        self.made(&heard(read.clone()), room, &input, |out, len, answer| unsafe {
            raw::lookahead_text_in(bs, bl, out, len, answer)
        });
        self.kept(&mut b, |n| n ^ 1, &input);
        read
    }

    #[rustfmt::skip]
    pub fn text_out(&mut self, t: Lent, room: usize) -> Answer<Vec<u8>> {
        let input = ("text out", t, room);
        let read = reading::text_out(t, room);
        let expected = Expected::of(read.clone(), |text| ([text.len() as u64, 0, 0, 0], text));
        let mut r = Held::new(t.rows);
        let (rs, rl) = r.lent();
        let spoil = self.spoil.map(|s| (s, (|n| n ^ 1) as Change<u8>));
        // SAFETY: `r` lives on; `out` and `answer` are lent for this call alone.
        with_output(&mut self.bytes, room, spoil, &expected, &input, |out, len, answer| unsafe {
            raw::lookahead_text_out(t.prod0, t.k, rs, rl, out, len, answer)
        });
        self.count(expected.number);
        self.kept(&mut r, |n| n ^ 1, &input);
        read
    }
}

/// A table that is lent to predict and explain; the Rust's form of it is made once.
pub struct Walked<'a> {
    table: Lent<'a>,
    rows: Held<'a, i32>,
    lending: Lending<'a>,
    check: Answer<usize>,
}

impl Desk {
    /// The checks on the table alone.
    pub fn lend<'a>(&mut self, table: Lent<'a>) -> Walked<'a> {
        let mut rows = Held::new(table.rows);
        let read = reading::explain(table, &[]).matched;
        let expected = read.err().map_or(0, |refusal| refusal.number() as usize);
        let (rs, rl) = rows.lent();
        // SAFETY: `rows` lives on, and nothing is written.
        let mut said = unsafe { raw::lookahead_check(table.prod0, table.k, rs, rl) };
        if self.spoil == Some(Spoil::Number) {
            said ^= 1;
        }
        assert_eq!(said, expected, "for check {table:?}");
        self.kept(&mut rows, |n| n ^ 1, &table);
        self.count(said);
        Walked {
            table,
            rows,
            lending: Lending::new(table),
            check: read,
        }
    }

    #[rustfmt::skip]
    pub fn predict(&mut self, w: &mut Walked, mode: Mode, stream_k: usize, tokens: &[u16]) -> Answer<(i32, usize)> {
        let (t, m) = (w.table, number(mode, stream_k));
        let input = ("predict", mode, t, stream_k, tokens);
        let (asked, read) = w.lending.predict(mode, stream_k, tokens);
        let expected = Expected::of(read, |(production, entered)| {
            ([production as u64, entered as u64, 0, 0], Vec::new())
        });
        let mut held = Held::new(tokens);
        let ((rs, rl), (ts, tl)) = (w.rows.lent(), held.lent());
        // SAFETY: `w.rows` and `held` live on; `answer` is lent for this call alone.
        self.plain(&expected, &input, |answer| unsafe {
            raw::lookahead_predict(m, t.prod0, t.k, rs, rl, stream_k, ts, tl, answer)
        });
        self.kept(&mut held, |n| n ^ 1, &input);
        self.kept(&mut w.rows, |n| n ^ 1, &input);
        self.asked += asked as u64;
        read
    }

    /// A batch: by the words of request 2, from the answers for its windows one by one.
    #[rustfmt::skip]
    pub fn batch(&mut self, w: &mut Walked, mode: Mode, stream_k: usize, count: usize, tokens: &[u16], room: usize) {
        let (t, m) = (w.table, number(mode, count));
        let input = ("batch", mode, t, stream_k, count, tokens, room);
        let (asked, read) = batch(w, mode, stream_k, count, tokens, room);
        let expected = Expected::of(read, |said| ([said.len() as u64, 0, 0, 0], said));
        let mut held = Held::new(tokens);
        let ((rs, rl), (ts, tl)) = (w.rows.lent(), held.lent());
        // SAFETY: `w.rows` and `held` live on; `out` and `answer` are lent for this call alone.
        self.made(&expected, room, &input, |out, len, answer| unsafe {
            raw::lookahead_batch(m, t.prod0, t.k, rs, rl, stream_k, count, ts, tl, out, len, answer)
        });
        self.kept(&mut held, |n| n ^ 1, &input);
        self.kept(&mut w.rows, |n| n ^ 1, &input);
        self.asked += asked as u64;
    }

    #[rustfmt::skip]
    pub fn explain(&mut self, w: &mut Walked, tokens: &[u16]) {
        let t = w.table;
        let input = ("explain", t, tokens);
        let (asked, read) = w.lending.explain(tokens);
        let mut held = Held::new(tokens);
        let ((rs, rl), (ts, tl)) = (w.rows.lent(), held.lent());
        let matched = Expected::of(read.matched, |n| ([n as u64, 0, 0, 0], Vec::new()));
        // SAFETY: `w.rows` and `held` live on; `answer` is lent for this call alone.
        self.plain(&matched, &input, |answer| unsafe {
            raw::lookahead_explain(t.prod0, t.k, rs, rl, ts, tl, answer)
        });
        let stretch = Expected { number: 0, values: [read.start as u64, read.count as u64, 0, 0], front: Vec::new() };
        // SAFETY: as for the first call.
        self.plain(&stretch, &("stretch", input), |answer| unsafe {
            raw::lookahead_stretch(t.prod0, t.k, rs, rl, ts, tl, answer);
            0
        });
        self.kept(&mut held, |n| n ^ 1, &input);
        self.kept(&mut w.rows, |n| n ^ 1, &input);
        self.asked += 2 * asked as u64;
    }
}

/// Whether the Rust was asked of each window, and the answers: the production, or minus the refusal number.
#[rustfmt::skip]
fn batch(w: &Walked, mode: Mode, stream_k: usize, count: usize, tokens: &[u16], room: usize)
    -> (bool, Answer<Vec<i32>>) {
    let one = Refusal::Plain(1);
    if w.check == Err(one) || count.checked_mul(w.table.k) != Some(tokens.len()) || count > 4_096 || count > room {
        return (false, Err(one));
    }
    if let Err(refusal) = w.check {
        return (false, Err(refusal));
    }
    if stream_k < w.table.k {
        return (false, Err(Refusal::Plain(9)));
    }
    let windows = (0..count).map(|i| &tokens[i * w.table.k..][..w.table.k]);
    let said: Vec<_> = windows.map(|window| w.lending.predict(mode, stream_k, window)).collect();
    let asked = count > 0 && said.iter().all(|(asked, _)| *asked);
    (asked, Ok(said.into_iter().map(|(_, answer)| answered(answer)).collect()))
}

fn answered(answer: Answer<(i32, usize)>) -> i32 {
    match answer {
        Ok((production, _)) => production,
        Err(refusal) => -(refusal.number() as i32),
    }
}
