//! The exported calls as the static library has them; `c/lookahead.h` says each in a few lines.
//!
//! A slice crosses as a pointer and a length, `answer` as a pointer to four numbers, a mode as a number: 0 is archive,
//! any other intake. Each call but [`lookahead_stretch`] returns the refusal's number, 0 if it accepted; each but
//! [`lookahead_check`] writes all four numbers of the answer.

#[rustfmt::skip]
unsafe extern "C" {
    /// Build: prod0 plus one, k, the row count, the state count.
    ///
    /// # Safety
    /// Each pointer is aligned, not null even for length 0, and good for its length, the answer's for four numbers; no
    /// output and no answer overlaps anything else.
    pub fn lookahead_build(production: i32, tokens: *const u16, tokens_len: usize, lengths: *const usize,
        lengths_len: usize, out: *mut i32, out_len: usize, answer: *mut u64) -> usize;
    /// Unite: the values as build's.
    ///
    /// # Safety
    /// As for [`lookahead_build`].
    pub fn lookahead_unite(mode: u32, prod0a: i32, ka: usize, a: *const i32, a_len: usize, prod0b: i32, kb: usize,
        b: *const i32, b_len: usize, out: *mut i32, out_len: usize, answer: *mut u64) -> usize;
    /// Shrink: the values as build's.
    ///
    /// # Safety
    /// As for [`lookahead_build`].
    pub fn lookahead_shrink(mode: u32, prod0: i32, k: usize, rows: *const i32, rows_len: usize, out: *mut i32,
        out_len: usize, answer: *mut u64) -> usize;
    /// Lists built, united and shrunk in intake mode: the values as build's.
    ///
    /// # Safety
    /// As for [`lookahead_build`].
    pub fn lookahead_intake(productions: *const i32, productions_len: usize, counts: *const usize, counts_len: usize,
        lengths: *const usize, lengths_len: usize, tokens: *const u16, tokens_len: usize, out: *mut i32,
        out_len: usize, answer: *mut u64) -> usize;
    /// The checks 1, 2 and 3 of a table alone.
    ///
    /// # Safety
    /// As for [`lookahead_build`].
    pub fn lookahead_check(prod0: i32, k: usize, rows: *const i32, rows_len: usize) -> usize;
    /// Predict: the production, the count of rows entered.
    ///
    /// # Safety
    /// As for [`lookahead_build`].
    pub fn lookahead_predict(mode: u32, prod0: i32, k: usize, rows: *const i32, rows_len: usize, stream_k: usize,
        tokens: *const u16, tokens_len: usize, answer: *mut u64) -> usize;
    /// Batch: the count of answers, one for each window.
    ///
    /// # Safety
    /// As for [`lookahead_build`].
    pub fn lookahead_batch(mode: u32, prod0: i32, k: usize, rows: *const i32, rows_len: usize, stream_k: usize,
        count: usize, tokens: *const u16, tokens_len: usize, out: *mut i32, out_len: usize,
        answer: *mut u64) -> usize;
    /// Explain, the first call: the count of matched tokens.
    ///
    /// # Safety
    /// As for [`lookahead_build`].
    pub fn lookahead_explain(prod0: i32, k: usize, rows: *const i32, rows_len: usize, tokens: *const u16,
        tokens_len: usize, answer: *mut u64) -> usize;
    /// Explain, the second call: where the stretch of rows begins in the slice, and how many numbers it has.
    ///
    /// # Safety
    /// As for [`lookahead_build`].
    pub fn lookahead_stretch(prod0: i32, k: usize, rows: *const i32, rows_len: usize, tokens: *const u16,
        tokens_len: usize, answer: *mut u64);
    /// Text in: prod0 plus one, k, the row count.
    ///
    /// # Safety
    /// As for [`lookahead_build`].
    pub fn lookahead_text_in(text: *const u8, text_len: usize, out: *mut i32, out_len: usize,
        answer: *mut u64) -> usize;
    /// Text out: the text's length.
    ///
    /// # Safety
    /// As for [`lookahead_build`].
    pub fn lookahead_text_out(prod0: i32, k: usize, rows: *const i32, rows_len: usize, out: *mut u8, out_len: usize,
        answer: *mut u64) -> usize;
}
