//! The calls over slices that the caller lends: nothing is allocated, any numbers may be lent.
//!
//! Rows stand four numbers each in `i32` slices, prod0 is -1 for "does not accept". Output slices have [`ROOM`] numbers
//! or [`TEXT_ROOM`] bytes or more; a result stands at the front, and what follows it is as before. A call that refuses
//! leaves its output as it was.
//!
//! ```
//! use lookahead::lent::{self, Lent, ROOM};
//! use lookahead::{Mode, Refusal};
//!
//! let (mut first, mut second, mut both) = ([0; ROOM], [0; ROOM], [0; ROOM]);
//! let a = lent::build(1, &[5, 7], &[1, 1], &mut first)?.lent(&first);
//! let b = lent::build(2, &[5, 6], &[2], &mut second)?.lent(&second);
//! let t = lent::unite(Mode::Intake, a, b, &mut both)?.lent(&both);
//! assert_eq!(&[0, 5, 1, 1, 0, 7, 2, 1, 1, 6, 3, 2], t.rows);
//! assert_eq!((2, 2), lent::predict(Mode::Intake, t, 2, &[5, 6])?.into());
//! assert_eq!(Err(Refusal::Length), lent::build(1, &[5], &[1], &mut first[1..]));
//! # Ok::<(), Refusal>(())
//! ```

use crate::raw;
use crate::{Mode, Refusal};

/// The count of numbers that an output slice for rows has at least.
pub const ROOM: usize = 16_384;

/// The count of bytes that an output slice for text has at least.
pub const TEXT_ROOM: usize = 262_144;

/// The count of windows that a batch has at most.
pub const WINDOWS: usize = 4_096;

/// A table as it is lent: any numbers, any length.
#[derive(Debug, Clone, Copy, PartialEq, Eq)]
pub struct Lent<'a> {
    /// What state 0 accepts, -1 for nothing.
    pub prod0: i32,
    /// How many tokens a prediction needs.
    pub k: usize,
    /// The rows, four numbers each.
    pub rows: &'a [i32],
}

/// A table whose rows stand at the front of the output.
#[derive(Debug, Clone, Copy, PartialEq, Eq)]
pub struct Made {
    /// What state 0 accepts, -1 for nothing.
    pub prod0: i32,
    /// How many tokens a prediction needs.
    pub k: usize,
    /// The count of rows.
    pub rows: usize,
    /// The count of states.
    pub states: usize,
}

impl Made {
    /// The table at the front of the output that it was made in.
    ///
    /// # Panics
    /// If `out` is shorter than the rows: only another slice than the one that was written can be.
    #[must_use]
    pub fn lent(self, out: &[i32]) -> Lent<'_> {
        front(self.prod0, self.k, self.rows, out)
    }

    fn of(values: [u64; 4]) -> Made {
        Made {
            prod0: values[0] as i32 - 1,
            k: values[1] as usize,
            rows: values[2] as usize,
            states: values[3] as usize,
        }
    }
}

/// A table that was read from text, its rows at the front of the output. Text does not tell how many states it has.
#[derive(Debug, Clone, Copy, PartialEq, Eq)]
pub struct Read {
    /// What state 0 accepts, -1 for nothing.
    pub prod0: i32,
    /// How many tokens a prediction needs.
    pub k: usize,
    /// The count of rows.
    pub rows: usize,
}

impl Read {
    /// The table at the front of the output that it was read into.
    ///
    /// # Panics
    /// As [`Made::lent`].
    #[must_use]
    pub fn lent(self, out: &[i32]) -> Lent<'_> {
        front(self.prod0, self.k, self.rows, out)
    }

    fn of(values: [u64; 4]) -> Read {
        Read {
            prod0: values[0] as i32 - 1,
            k: values[1] as usize,
            rows: values[2] as usize,
        }
    }
}

/// The table whose rows stand at the front of `out`.
fn front(prod0: i32, k: usize, rows: usize, out: &[i32]) -> Lent<'_> {
    let rows = &out[..4 * rows];
    Lent { prod0, k, rows }
}

/// A prediction: the production, and the count of rows entered.
#[derive(Debug, Clone, Copy, PartialEq, Eq, Hash)]
pub struct Predicted {
    /// The production.
    pub production: u16,
    /// The count of rows entered.
    pub entered: usize,
}

impl From<Predicted> for (u16, usize) {
    fn from(said: Predicted) -> (u16, usize) {
        (said.production, said.entered)
    }
}

/// The four values, or the refusal.
fn asked(call: impl FnOnce(*mut u64) -> usize) -> Result<[u64; 4], Refusal> {
    let mut values = [0; 4];
    let number = call(values.as_mut_ptr());
    Refusal::of(number, &values).map_or(Ok(values), Err)
}

// SAFETY of all calls below: each pointer and length is a live slice's; `out` and `answer` are borrowed alone; the
// library keeps none of them.
// Predict and explain are inlined, since on a table of few rows one more call shows.

/// The tree of a list of strings, whose tokens stand one after the other, under one production. A list without strings
/// makes state 0 accept. Refuses by 1, 2, 14.
#[rustfmt::skip]
pub fn build(production: i32, tokens: &[u16], lengths: &[usize], out: &mut [i32]) -> Result<Made, Refusal> {
    asked(|answer| unsafe {
        raw::lookahead_build(production, tokens.as_ptr(), tokens.len(), lengths.as_ptr(), lengths.len(),
            out.as_mut_ptr(), out.len(), answer)
    }).map(Made::of)
}

/// Two trees as one. Refuses by 1, 2 to 7 of the first, 2 to 7 of the second, 8, 14.
#[rustfmt::skip]
pub fn unite(mode: Mode, a: Lent, b: Lent, out: &mut [i32]) -> Result<Made, Refusal> {
    asked(|answer| unsafe {
        raw::lookahead_unite(mode.number(), a.prod0, a.k, a.rows.as_ptr(), a.rows.len(), b.prod0, b.k,
            b.rows.as_ptr(), b.rows.len(), out.as_mut_ptr(), out.len(), answer)
    }).map(Made::of)
}

/// A ruled table with states that are alike made one. Refuses by 1 to 6.
#[rustfmt::skip]
pub fn shrink(mode: Mode, t: Lent, out: &mut [i32]) -> Result<Made, Refusal> {
    asked(|answer| unsafe {
        raw::lookahead_shrink(mode.number(), t.prod0, t.k, t.rows.as_ptr(), t.rows.len(), out.as_mut_ptr(),
            out.len(), answer)
    }).map(Made::of)
}

/// Lists built, united one after the other and shrunk in intake mode. List i has `counts[i]` strings under
/// `productions[i]`; the strings' lengths and tokens stand one after the other.
///
/// Refuses by 1 (no list, other counts than lists, sums that do not fit, a short `out`), then as the first step that
/// refuses: by 1, 2 or 14 of a list, by 8 or 14 of uniting it.
#[rustfmt::skip]
pub fn intake(productions: &[i32], counts: &[usize], lengths: &[usize], tokens: &[u16], out: &mut [i32])
    -> Result<Made, Refusal> {
    asked(|answer| unsafe {
        raw::lookahead_intake(productions.as_ptr(), productions.len(), counts.as_ptr(), counts.len(),
            lengths.as_ptr(), lengths.len(), tokens.as_ptr(), tokens.len(), out.as_mut_ptr(), out.len(), answer)
    }).map(Made::of)
}

/// The checks of predict and explain on the table alone. Refuses by 1, 2, 3.
pub fn check(t: Lent) -> Result<(), Refusal> {
    let number = unsafe { raw::lookahead_check(t.prod0, t.k, t.rows.as_ptr(), t.rows.len()) };
    Refusal::of(number, &[0; 4]).map_or(Ok(()), Err)
}

/// The production that the first k tokens mean, in a stream whose own k is `stream_k`. Refuses by 1, 2, 3, 9, 10, then
/// 11 or 12.
#[rustfmt::skip]
#[inline]
pub fn predict(mode: Mode, t: Lent, stream_k: usize, tokens: &[u16]) -> Result<Predicted, Refusal> {
    asked(|answer| unsafe {
        raw::lookahead_predict(mode.number(), t.prod0, t.k, t.rows.as_ptr(), t.rows.len(), stream_k, tokens.as_ptr(),
            tokens.len(), answer)
    }).map(predicted)
}

/// The answer for each of `count` windows of k tokens, one after the other: the production, or minus the number of its
/// refusal. It is what so many calls of [`predict`] would say; the table is checked once. The count of answers, or the
/// refusal of all by 1 (also over [`WINDOWS`] windows, other tokens than `count` times k, a short `out`), 2, 3, 9.
///
/// ```
/// use lookahead::lent::{self, Lent};
/// use lookahead::{Mode, Refusal};
///
/// let rows = [0, 5, 1, 1, 1, 6, 2, 2];
/// let t = Lent { prod0: -1, k: 2, rows: &rows };
/// let mut out = [0; 4];
/// assert_eq!(3, lent::batch(Mode::Intake, t, 2, 3, &[5, 6, 9, 9, 5, 9], &mut out)?);
/// assert_eq!([2, -11, 1, 0], out);
/// assert_eq!(Err(Refusal::Length), lent::batch(Mode::Intake, t, 2, 3, &[5, 6, 9, 9, 5], &mut out));
/// assert_eq!(Err(Refusal::Mismatch), lent::batch(Mode::Intake, t, 1, 1, &[5, 6], &mut out));
/// assert_eq!([2, -11, 1, 0], out);
/// # Ok::<(), Refusal>(())
/// ```
#[rustfmt::skip]
pub fn batch(mode: Mode, t: Lent, stream_k: usize, count: usize, tokens: &[u16], out: &mut [i32])
    -> Result<usize, Refusal> {
    asked(|answer| unsafe {
        raw::lookahead_batch(mode.number(), t.prod0, t.k, t.rows.as_ptr(), t.rows.len(), stream_k, count,
            tokens.as_ptr(), tokens.len(), out.as_mut_ptr(), out.len(), answer)
    }).map(|values| values[0] as usize)
}

fn predicted(values: [u64; 4]) -> Predicted {
    Predicted {
        production: values[0] as u16,
        entered: values[1] as usize,
    }
}

/// The count of tokens that have a row one after the other, and the rows that leave the state where the next has none;
/// the empty stretch at the end of `t.rows` if every token matched or that state has no rows. Refuses by 1, 2, 3.
#[rustfmt::skip]
#[inline]
pub fn explain<'a>(t: Lent<'a>, tokens: &[u16]) -> Result<(usize, &'a [i32]), Refusal> {
    let matched = asked(|answer| unsafe {
        raw::lookahead_explain(t.prod0, t.k, t.rows.as_ptr(), t.rows.len(), tokens.as_ptr(), tokens.len(), answer)
    })?[0];
    let [start, count, ..] = asked(|answer| unsafe {
        raw::lookahead_stretch(t.prod0, t.k, t.rows.as_ptr(), t.rows.len(), tokens.as_ptr(), tokens.len(), answer);
        0
    })?.map(|n| n as usize);
    Ok((matched as usize, &t.rows[start..start + count]))
}

/// A table from its text. Refuses by 1 for the output, 13, 1 for over 4,096 rows, 2, 3.
///
/// ```
/// use lookahead::lent::{self, ROOM};
///
/// let mut out = [0; ROOM];
/// let t = lent::text_in(b"Dfa(-1, 1)\nTrans(0, 5, 1, 1),\n", &mut out)?.lent(&out);
/// assert_eq!((-1, 1, &[0, 5, 1, 1][..]), (t.prod0, t.k, t.rows));
/// # Ok::<(), lookahead::Refusal>(())
/// ```
#[rustfmt::skip]
pub fn text_in(text: &[u8], out: &mut [i32]) -> Result<Read, Refusal> {
    asked(|answer| unsafe {
        raw::lookahead_text_in(text.as_ptr(), text.len(), out.as_mut_ptr(), out.len(), answer)
    }).map(Read::of)
}

/// A table's text; the answer is its length. Refuses by 1, 2, 3.
#[rustfmt::skip]
pub fn text_out(t: Lent, out: &mut [u8]) -> Result<usize, Refusal> {
    asked(|answer| unsafe {
        raw::lookahead_text_out(t.prod0, t.k, t.rows.as_ptr(), t.rows.len(), out.as_mut_ptr(), out.len(), answer)
    }).map(|values| values[0] as usize)
}
