/* Lookahead tables: the proved calls, in the library that `c/library` writes.
 *
 * A table is prod0, k and rows of four numbers (from, terminal, to, production of to), production -1 for none.
 * A slice is a pointer and a count of elements; the pointer is not NULL, even if the count is 0. Outputs and answers
 * overlap nothing else. Each call but `lookahead_stretch` returns 0 or the number of its refusal; each but
 * `lookahead_check` writes all four values of `answer`, and those that are not named below are 0. On acceptance the
 * result stands at the front of `out`, and what follows it is as before; on refusal `out` is as before.
 * Nothing is kept between calls; docs/SPEED.md has the stack that each call takes, for intake some 120 KiB. */
#ifndef LOOKAHEAD_H
#define LOOKAHEAD_H

#include <stddef.h>
#include <stdint.h>

#ifdef __cplusplus
extern "C" {
#endif

#define LOOKAHEAD_ROOM 16384       /* numbers that an output for rows has at least */
#define LOOKAHEAD_TEXT_ROOM 262144 /* bytes that an output for text has at least */
#define LOOKAHEAD_WINDOWS 4096     /* windows that a batch has at most */

/* The mode: 0 is archive, any other number intake. */
#define LOOKAHEAD_ARCHIVE 0u /* as the Rust of parol did, faults included */
#define LOOKAHEAD_INTAKE 1u  /* by the string lists alone */

enum lookahead_refusal {
    LOOKAHEAD_ACCEPTED = 0,
    LOOKAHEAD_LENGTH = 1,   /* a wrong length or sum of lengths, too little room, too many strings, rows or windows */
    LOOKAHEAD_RANGE = 2,    /* a number outside its bounds */
    LOOKAHEAD_ORDER = 3,    /* rows not strictly rising by (from, terminal) */
    LOOKAHEAD_SHAPE = 4,    /* a row with to not above from */
    LOOKAHEAD_LOOSE = 5,    /* a from that is not 0 and is no row's to */
    LOOKAHEAD_SPLIT = 6,    /* one to-state with two productions */
    LOOKAHEAD_TREE = 7,     /* ruled, but no tree */
    LOOKAHEAD_CLASH = 8,    /* answer: the first table's production, the second's */
    LOOKAHEAD_MISMATCH = 9, /* table k over stream k */
    LOOKAHEAD_SHORT = 10,   /* fewer tokens than table k */
    LOOKAHEAD_NONE = 11,    /* prod0 is -1 and no accepting row was entered */
    LOOKAHEAD_ROOT = 12,    /* archive only: prod0 accepts, rows were entered, none of them accepting */
    LOOKAHEAD_TEXT = 13,    /* answer: the byte offset of the first line not in form */
    LOOKAHEAD_FULL = 14     /* the result would have over 1,024 states */
};

/* Build: the tree of `lengths_len` strings, their tokens one after the other, under one production. A list without
 * strings makes state 0 accept. Answer: prod0 plus one, k, the row count, the state count. Refuses by 1, 2, 14. */
size_t lookahead_build(int32_t production, const uint16_t *tokens, size_t tokens_len, const size_t *lengths,
                       size_t lengths_len, int32_t *out, size_t out_len, uint64_t answer[4]);

/* Unite: two trees as one.
 * Answer as build's. Refuses by 1, 2 to 7 of the first, 2 to 7 of the second, 8, 14. */
size_t lookahead_unite(uint32_t mode, int32_t prod0a, size_t ka, const int32_t *a, size_t a_len, int32_t prod0b,
                       size_t kb, const int32_t *b, size_t b_len, int32_t *out, size_t out_len, uint64_t answer[4]);

/* Shrink: a ruled table with states that are alike made one.
 * Answer as build's. Refuses by 1 to 6. */
size_t lookahead_shrink(uint32_t mode, int32_t prod0, size_t k, const int32_t *rows, size_t rows_len, int32_t *out,
                        size_t out_len, uint64_t answer[4]);

/* Intake: list i has counts[i] strings under productions[i], all lengths and all tokens one after the other; the lists
 * built, united in turn and shrunk in intake mode. Answer as build's. Refuses by 1 (no list, other counts than lists,
 * sums that do not fit, a short `out`), then as its first step that refuses: 1, 2, 8, 14. */
size_t lookahead_intake(const int32_t *productions, size_t productions_len, const size_t *counts, size_t counts_len,
                        const size_t *lengths, size_t lengths_len, const uint16_t *tokens, size_t tokens_len,
                        int32_t *out, size_t out_len, uint64_t answer[4]);

/* Check: the checks of predict and explain on the table alone; no answer is written.
 * Refuses by 1, 2, 3. */
size_t lookahead_check(int32_t prod0, size_t k, const int32_t *rows, size_t rows_len);

/* Predict: the production that the first k tokens mean, in a stream whose own k is `stream_k`.
 * Answer: the production, the count of rows entered. Refuses by 1, 2, 3, 9, 10, then 11 or 12. */
size_t lookahead_predict(uint32_t mode, int32_t prod0, size_t k, const int32_t *rows, size_t rows_len, size_t stream_k,
                         const uint16_t *tokens, size_t tokens_len, uint64_t answer[4]);

/* Batch: predict for `count` windows of k tokens, one after the other; into `out` each production, or minus the number.
 * Answer: `count`. Refuses by 1 (also over 4,096 windows, other tokens than count times k, a short `out`), 2, 3, 9. */
size_t lookahead_batch(uint32_t mode, int32_t prod0, size_t k, const int32_t *rows, size_t rows_len, size_t stream_k,
                       size_t count, const uint16_t *tokens, size_t tokens_len, int32_t *out, size_t out_len,
                       uint64_t answer[4]);

/* Explain, the first call: how many tokens have a row, one after the other.
 * Answer: that count. Refuses by 1, 2, 3. */
size_t lookahead_explain(int32_t prod0, size_t k, const int32_t *rows, size_t rows_len, const uint16_t *tokens,
                         size_t tokens_len, uint64_t answer[4]);

/* Explain, the second call: the rows that leave the state where the next token has none, as a stretch of `rows`; the
 * empty stretch at their end if every token matched, that state has no rows, or the first call refuses.
 * Answer: where it begins, how many numbers it has. Never refuses. */
void lookahead_stretch(int32_t prod0, size_t k, const int32_t *rows, size_t rows_len, const uint16_t *tokens,
                       size_t tokens_len, uint64_t answer[4]);

/* Text in: a table from its text.
 * Answer: prod0 plus one, k, the row count. Refuses by 1 for the output, 13, 1 for over 4,096 rows, 2, 3. */
size_t lookahead_text_in(const uint8_t *text, size_t text_len, int32_t *out, size_t out_len, uint64_t answer[4]);

/* Text out: a table's text, without a closing zero.
 * Answer: its length. Refuses by 1, 2, 3. */
size_t lookahead_text_out(int32_t prod0, size_t k, const int32_t *rows, size_t rows_len, uint8_t *out,
                          size_t out_len, uint64_t answer[4]);

#ifdef __cplusplus
}
#endif

#endif
