/* Strings 5; 7 under production 1 and string 5 6 under 2, from lists to text, in intake mode and once in archive mode;
 * each step says what it expects. */
#include "lookahead.h"

#include <stdio.h>
#include <stdlib.h>
#include <string.h>

/* A table with room for any rows. */
struct table {
    int32_t prod0;
    size_t k, rows, states;
    int32_t numbers[LOOKAHEAD_ROOM];
};

static struct table a, b, both, small, other;
static uint8_t text[LOOKAHEAD_TEXT_ROOM];
static uint64_t answer[4];

static void expect(int holds, const char *what) {
    if (!holds) {
        printf("not as expected: %s\n", what);
        exit(1);
    }
}

/* What a call that made a table answered. */
static void take(struct table *t, size_t refusal, const char *what) {
    expect(refusal == LOOKAHEAD_ACCEPTED, what);
    t->prod0 = (int32_t)answer[0] - 1;
    t->k = (size_t)answer[1];
    t->rows = (size_t)answer[2];
    t->states = (size_t)answer[3];
    printf("%s: prod0 %d, k %zu, %zu rows, %zu states\n", what, (int)t->prod0, t->k, t->rows, t->states);
}

static int same_rows(const struct table *t, const struct table *u) {
    return t->rows == u->rows && memcmp(t->numbers, u->numbers, 4 * t->rows * sizeof(int32_t)) == 0;
}

static void unite(struct table *out, uint32_t mode, const struct table *t, const struct table *u, const char *what) {
    take(out,
         lookahead_unite(mode, t->prod0, t->k, t->numbers, 4 * t->rows, u->prod0, u->k, u->numbers, 4 * u->rows,
                         out->numbers, LOOKAHEAD_ROOM, answer),
         what);
}

static void shrink(struct table *out, uint32_t mode, const struct table *t, const char *what) {
    take(out,
         lookahead_shrink(mode, t->prod0, t->k, t->numbers, 4 * t->rows, out->numbers, LOOKAHEAD_ROOM, answer),
         what);
}

static void make(void) {
    static const uint16_t tokens_a[] = {5, 7}, tokens_b[] = {5, 6};
    static const size_t lengths_a[] = {1, 1}, lengths_b[] = {2};
    take(&a, lookahead_build(1, tokens_a, 2, lengths_a, 2, a.numbers, LOOKAHEAD_ROOM, answer), "a");
    take(&b, lookahead_build(2, tokens_b, 2, lengths_b, 1, b.numbers, LOOKAHEAD_ROOM, answer), "b");
    unite(&both, LOOKAHEAD_INTAKE, &a, &b, "united");
    shrink(&small, LOOKAHEAD_INTAKE, &both, "shrunk");
    expect(small.prod0 == -1 && small.k == 2 && small.rows == 3 && small.states == 4, "the shrunk table");
}

/* The same in one call. */
static void make_in_one(void) {
    static const int32_t productions[] = {1, 2};
    static const size_t counts[] = {2, 1}, lengths[] = {1, 1, 2};
    static const uint16_t tokens[] = {5, 7, 5, 6};
    take(&other,
         lookahead_intake(productions, 2, counts, 2, lengths, 3, tokens, 4, other.numbers, LOOKAHEAD_ROOM, answer),
         "in one call");
    expect(same_rows(&other, &small), "the same table in one call");
}

static void predict(uint32_t mode, const struct table *t, uint16_t first, uint16_t second, uint64_t production,
                    uint64_t entered) {
    const uint16_t tokens[] = {first, second};
    size_t refusal = lookahead_predict(mode, t->prod0, t->k, t->numbers, 4 * t->rows, 2, tokens, 2, answer);
    expect(refusal == LOOKAHEAD_ACCEPTED && answer[0] == production && answer[1] == entered, "a prediction");
    printf("%u %u: production %u, rows entered %u\n", (unsigned)first, (unsigned)second, (unsigned)answer[0],
           (unsigned)answer[1]);
}

static void predict_batch(void) {
    static const uint16_t tokens[] = {5, 6, 9, 9, 7, 5};
    int32_t said[3];
    size_t refusal = lookahead_batch(LOOKAHEAD_INTAKE, small.prod0, small.k, small.numbers, 4 * small.rows, 2, 3,
                                     tokens, 6, said, 3, answer);
    expect(refusal == LOOKAHEAD_ACCEPTED && answer[0] == 3, "the count of answers");
    expect(said[0] == 2 && said[1] == -LOOKAHEAD_NONE && said[2] == 1, "the answers");
    printf("5 6, 9 9, 7 5: %d, %d, %d\n", (int)said[0], (int)said[1], (int)said[2]);
}

static void explain(void) {
    static const uint16_t tokens[] = {5, 9};
    const int32_t *row;
    size_t refusal = lookahead_explain(small.prod0, small.k, small.numbers, 4 * small.rows, tokens, 2, answer);
    expect(refusal == LOOKAHEAD_ACCEPTED && answer[0] == 1, "the matched tokens");
    lookahead_stretch(small.prod0, small.k, small.numbers, 4 * small.rows, tokens, 2, answer);
    expect(answer[1] == 4, "one row");
    row = small.numbers + answer[0];
    expect(row[0] == 1 && row[1] == 6 && row[2] == 3 && row[3] == 2, "the row");
    printf("5 9: 1 matched, then row %d %d %d %d\n", (int)row[0], (int)row[1], (int)row[2], (int)row[3]);
}

static void write_text(void) {
    static const char expected[] = "Dfa(-1, 2)\nTrans(0, 5, 1, 1),\nTrans(0, 7, 2, 1),\nTrans(1, 6, 3, 2),\n";
    size_t refusal = lookahead_text_out(small.prod0, small.k, small.numbers, 4 * small.rows, text,
                                        LOOKAHEAD_TEXT_ROOM, answer);
    size_t length = (size_t)answer[0];
    expect(refusal == LOOKAHEAD_ACCEPTED && length == sizeof expected - 1, "the text's length");
    expect(memcmp(text, expected, length) == 0, "the text");
    fwrite(text, 1, length, stdout);
    expect(lookahead_text_in(text, length, other.numbers, LOOKAHEAD_ROOM, answer) == LOOKAHEAD_ACCEPTED, "text in");
    other.rows = (size_t)answer[2];
    expect(same_rows(&other, &small), "the same rows");
}

/* b with a in archive mode is the table T of document 01; shrunk in archive mode it loses the string 5 6. */
static void archive_beside_intake(void) {
    unite(&both, LOOKAHEAD_ARCHIVE, &b, &a, "T");
    shrink(&other, LOOKAHEAD_INTAKE, &both, "T shrunk in intake mode");
    expect(other.states == 4 && same_rows(&other, &both), "T itself");
    predict(LOOKAHEAD_INTAKE, &other, 5, 6, 2, 2);
    shrink(&other, LOOKAHEAD_ARCHIVE, &both, "T shrunk in archive mode");
    expect(other.states == 3 && other.rows == 2, "a state and a row less");
    predict(LOOKAHEAD_ARCHIVE, &other, 5, 6, 1, 1);
}

static void refuse(void) {
    static const int32_t row_1[] = {0, 5, 1, 1}, row_2[] = {0, 5, 1, 2}, falling[] = {0, 7, 2, 1, 0, 5, 1, 1};
    size_t refusal = lookahead_unite(LOOKAHEAD_INTAKE, -1, 1, row_1, 4, -1, 1, row_2, 4, both.numbers,
                                     LOOKAHEAD_ROOM, answer);
    expect(refusal == LOOKAHEAD_CLASH && answer[0] == 1 && answer[1] == 2, "a clash");
    printf("5 under 1 and under 2: refused %zu with %u, %u\n", refusal, (unsigned)answer[0], (unsigned)answer[1]);
    refusal = lookahead_text_in((const uint8_t *)"Dfa(-1, 2)\nTrans\n", 17, both.numbers, LOOKAHEAD_ROOM, answer);
    expect(refusal == LOOKAHEAD_TEXT && answer[0] == 11, "a bad line");
    printf("a bad line: refused %zu at byte %u\n", refusal, (unsigned)answer[0]);
    refusal = lookahead_check(-1, 1, falling, 8);
    expect(refusal == LOOKAHEAD_ORDER, "falling rows");
    printf("falling rows: refused %zu\n", refusal);
    expect(lookahead_check(-1, 1, falling + 4, 4) == LOOKAHEAD_ACCEPTED, "the last of them alone");
}

int main(void) {
    make();
    make_in_one();
    predict(LOOKAHEAD_INTAKE, &small, 5, 6, 2, 2);
    predict(LOOKAHEAD_INTAKE, &small, 5, 9, 1, 1);
    predict(LOOKAHEAD_INTAKE, &small, 9, 5, 1, 1);
    predict_batch();
    explain();
    write_text();
    archive_beside_intake();
    refuse();
    return 0;
}
