/* Every call from C: the answers and refusals of documents 01 and 02, counts of 0, words that have to
   stay, and the version. Prints a line for each check that fails and returns 1; else prints how many
   passed.

   cc bindings/c/tests.c -Ibindings/c target/staticlib/libexports.a -o tests && ./tests */
#include <stdio.h>

#include "zesthull.h"

enum { MARGIN = 4, MOST_ROWS = 2000, UNSET = 0x5A5A5A5A };

struct body {
    const uint32_t *rows;
    size_t row_words;
    const uint32_t *pairs;
    size_t pair_words;
    const uint8_t *bytes;
    size_t byte_count;
};

/* What a walk is given. */
struct course {
    const uint32_t *choices;
    size_t choice_count, limit;
};

struct answer {
    const uint32_t *sheet;
    size_t sheet_words;
    const uint32_t *bindings;
    size_t rows;
    size_t placing, verdict;
};

static const uint32_t no_words[1];

/* A pointer and a count, for the members of both; a count of 0 has a pointer too. */
#define WORDS(...) \
    (const uint32_t[]){__VA_ARGS__}, sizeof((const uint32_t[]){__VA_ARGS__}) / sizeof(uint32_t)
#define NO_WORDS no_words, 0
#define BYTES(text) (const uint8_t *)text, sizeof(text) - 1

#define LENT(b) (b).rows, (b).row_words, (b).pairs, (b).pair_words, (b).bytes, (b).byte_count

static size_t checks, failures;

static void check(int line, int passed, const char *what) {
    checks++;
    if (passed) return;
    failures++;
    printf("tests.c:%d: %s\n", line, what);
}

/* The number that a call has returned and its value, beside those due. */
static void check_told(int line, const char *call, uint32_t number, size_t value,
                       uint32_t number_due, size_t value_due) {
    char what[160];
    snprintf(what, sizeof what, "zesthull_%s gave number %u and value %zu, due are %u and %zu", call,
             (unsigned)number, value, (unsigned)number_due, value_due);
    check(line, number == number_due && value == value_due, what);
}

/* Lent memory: it holds a pattern, and each buffer has a margin on both sides. */

static uint32_t sheet_memory[8 * MOST_ROWS + 3 * MARGIN];
static uint32_t binding_memory[MOST_ROWS + 3 * MARGIN];
static uint32_t *const sheet = sheet_memory + MARGIN, *const bindings = binding_memory + MARGIN;

#define COUNT(array) (sizeof(array) / sizeof((array)[0]))

static uint32_t pattern(size_t at) { return 0xA5A50000u ^ (uint32_t)at; }

static void fill(void) {
    for (size_t i = 0; i < COUNT(sheet_memory); i++) sheet_memory[i] = pattern(i);
    for (size_t i = 0; i < COUNT(binding_memory); i++) binding_memory[i] = pattern(i);
}

/* Whether the memory has the words given after its margin, and the pattern elsewhere. */
static int holds(const uint32_t *memory, size_t count, const uint32_t *words, size_t written) {
    for (size_t i = 0; i < count; i++) {
        int inside = i >= MARGIN && i < MARGIN + written;
        if (memory[i] != (inside ? words[i - MARGIN] : pattern(i))) return 0;
    }
    return 1;
}

static void check_memory(int line, struct answer due) {
    check(line, holds(sheet_memory, COUNT(sheet_memory), due.sheet, due.sheet_words), "sheet words");
    check(line, holds(binding_memory, COUNT(binding_memory), due.bindings, due.rows), "binding words");
}

/* Each call, with what it has to tell. */

static size_t *unset(size_t *word) {
    *word = UNSET;
    return word;
}

static void try_refusal(int line, struct body body, uint32_t number, size_t due) {
    size_t value;
    uint32_t got = zesthull_refusal(LENT(body), unset(&value));
    check_told(line, "refusal", got, value, number, due);
}

static void try_placing(int line, struct body body, uint32_t number, size_t due) {
    size_t value;
    uint32_t got = zesthull_placing(LENT(body), unset(&value));
    check_told(line, "placing", got, value, number, due);
}

static void try_verdict(int line, struct body body, uint32_t number, size_t due) {
    size_t value;
    uint32_t got = zesthull_verdict(LENT(body), unset(&value));
    check_told(line, "verdict", got, value, number, due);
}

static void try_labels(int line, struct body body, size_t sheet_words, size_t binding_words,
                       uint32_t number, size_t due, struct answer answer) {
    size_t value;
    fill();
    uint32_t got = zesthull_labels(LENT(body), sheet, sheet_words, bindings, binding_words,
                                   unset(&value));
    check_told(line, "labels", got, value, number, due);
    check_memory(line, answer);
}

static void try_marks(int line, struct body body, size_t sheet_words, size_t binding_words,
                      uint32_t number, size_t due, struct answer answer) {
    size_t value, placing, verdict;
    fill();
    uint32_t got = zesthull_marks(LENT(body), sheet, sheet_words, bindings, binding_words,
                                  unset(&value), unset(&placing), unset(&verdict));
    check_told(line, "marks", got, value, number, due);
    check(line, placing == answer.placing, "placing of the marks");
    check(line, verdict == answer.verdict, "verdict of the marks");
    check_memory(line, answer);
}

static void try_walk(int line, struct body body, struct course course, uint32_t number, size_t due,
                     size_t steps_due, size_t used_due) {
    size_t value, steps, used;
    uint32_t got = zesthull_walk(LENT(body), course.choices, course.choice_count, course.limit,
                                 unset(&value), unset(&steps), unset(&used));
    check_told(line, "walk", got, value, number, due);
    check(line, steps == steps_due, "steps of the walk");
    check(line, used == used_due, "choices used by the walk");
}

/* The places that a walk can reach. */
enum { STOPPED = 0, BRACE = 1 };
#define AT(row) (2 + (row))

static void walked(int line, struct body body, struct course course, size_t place, size_t steps,
                   size_t used) {
    try_walk(line, body, course, ZESTHULL_NONE, place, steps, used);
}

/* A refused walk leaves steps and choices used as they were. */
static void walk_refused(int line, struct body body, struct course course, uint32_t number,
                         size_t index) {
    try_walk(line, body, course, number, index, UNSET, UNSET);
}

/* The walk that stays at row 0, or refusal 8 where the body has a fault. */
static void try_first_place(int line, struct body body, struct answer due) {
    struct course course = {WORDS(9), 0};
    if (due.sheet_words || due.placing)
        walk_refused(line, body, course, ZESTHULL_FAULTY, 0);
    else
        walked(line, body, course, AT(0), 0, 0);
}

/* A well-formed body through every call, with buffers just long enough and longer. */
static void answered(int line, struct body body, struct answer due) {
    try_refusal(line, body, ZESTHULL_NONE, 0);
    try_placing(line, body, ZESTHULL_NONE, due.placing);
    try_verdict(line, body, ZESTHULL_NONE, due.verdict);
    try_first_place(line, body, due);
    size_t faults = due.sheet_words / 4;
    for (size_t more = 0; more <= MARGIN; more += MARGIN) {
        size_t sheet_words = 8 * due.rows + more, binding_words = due.rows + more;
        try_labels(line, body, sheet_words, binding_words, ZESTHULL_NONE, faults, due);
        try_marks(line, body, sheet_words, binding_words, ZESTHULL_NONE, faults, due);
    }
}

/* What a refused call leaves: nothing written, not even placing and verdict. */
static const struct answer nothing = {NULL, 0, NULL, 0, UNSET, UNSET};

static void writers_refused(int line, struct body body, size_t sheet_words, size_t binding_words,
                            uint32_t number, size_t index) {
    try_labels(line, body, sheet_words, binding_words, number, index, nothing);
    try_marks(line, body, sheet_words, binding_words, number, index, nothing);
}

/* A refused body through every call, with long buffers and with none. */
static void refused(int line, struct body body, uint32_t number, size_t index) {
    try_refusal(line, body, number, index);
    try_placing(line, body, number, index);
    try_verdict(line, body, number, index);
    writers_refused(line, body, 8 * MOST_ROWS, MOST_ROWS, number, index);
    writers_refused(line, body, 0, 0, number, index);
    walk_refused(line, body, (struct course){WORDS(9), 9}, number, index);
    walk_refused(line, body, (struct course){NO_WORDS, 0}, number, index);
}

/* {goto M;L:for{}} */
static const uint32_t example_rows[25] = {
    12, 0, 1, 0, 5, 11, 2, 7, 1, 1, 3, 0, 9, 2, 3, 19, 0, 11, 0, 2, 12, 0, 14, 0, 1,
};
static const uint32_t example_pairs[4] = {0, 1, 1, 1};

static struct body example(void) {
    return (struct body){example_rows, 25, example_pairs, 4, BYTES("ML")};
}

static void test_numbers(void) {
    check(__LINE__, zesthull_version() == ZESTHULL_VERSION, "version of header and archive");
    check(__LINE__, ZESTHULL_NONE == 0 && ZESTHULL_ROW_WORDS == 1, "refusals 0 and 1");
    check(__LINE__, ZESTHULL_NAME_WORDS == 2 && ZESTHULL_PAIR == 3, "refusals 2 and 3");
    check(__LINE__, ZESTHULL_ROW == 4 && ZESTHULL_SHAPE == 5, "refusals 4 and 5");
    check(__LINE__, ZESTHULL_DEPTH == 6 && ZESTHULL_TOO_SHORT == 7, "refusals 6 and 7");
    check(__LINE__, ZESTHULL_FAULTY == 8 && ZESTHULL_CHOICE == 9, "refusals 8 and 9");
    check(__LINE__, ZESTHULL_DEFAULTS == 10, "refusal 10");
}

/* Bodies of document 01's table; the position of row r is 10 * (r + 1). */
static void test_labels(void) {
    answered(__LINE__, example(),
             (struct answer){WORDS(8, 7, 1, 0, 9, 9, 2, 0), WORDS(0, 0, 3, 0, 0), 0, 1});
    /* L: for { break L } */
    answered(__LINE__,
             (struct body){WORDS(12, 0, 10, 0, 5, 3, 0, 20, 1, 4, 19, 0, 30, 0, 3, 12, 0, 40, 0, 2,
                                 11, 0, 50, 1, 1),
                           WORDS(0, 1), BYTES("L")},
             (struct answer){NO_WORDS, WORDS(0, 2, 0, 0, 2), 0, 0});
    /* goto L; x := 1; L: return */
    answered(__LINE__,
             (struct body){WORDS(12, 0, 10, 0, 5, 11, 2, 20, 1, 1, 7, 1, 30, 0, 1, 3, 0, 40, 1, 2,
                                 10, 0, 50, 0, 1),
                           WORDS(0, 1), BYTES("L")},
             (struct answer){WORDS(3, 20, 1, 30), WORDS(0, 4, 0, 4, 0), 0, 1});
    /* { L: return }; goto L; L: return, with a number for each L */
    answered(__LINE__,
             (struct body){WORDS(12, 0, 10, 0, 7, 12, 0, 20, 0, 3, 3, 0, 30, 1, 2, 10, 0, 40, 0, 1,
                                 11, 2, 50, 2, 1, 3, 0, 60, 3, 2, 10, 0, 70, 0, 1),
                           WORDS(0, 1, 1, 1, 2, 1), BYTES("LLL")},
             (struct answer){WORDS(1, 60, 3, 0, 2, 30, 1, 0, 9, 30, 1, 0),
                             WORDS(0, 0, 3, 0, 6, 0, 0), 0, 1});
}

static void test_placing_and_verdict(void) {
    /* no items */
    answered(__LINE__, (struct body){WORDS(12, 0, 10, 0, 1), NO_WORDS, BYTES("")},
             (struct answer){NO_WORDS, WORDS(0), 0, 0});
    /* select {} */
    answered(__LINE__,
             (struct body){WORDS(12, 0, 10, 0, 3, 18, 0, 20, 0, 2, 12, 0, 30, 0, 1), NO_WORDS, BYTES("")},
             (struct answer){NO_WORDS, WORDS(0, 0, 0), 0, 1});
    /* switch { default: fallthrough } */
    answered(__LINE__,
             (struct body){WORDS(12, 0, 10, 0, 5, 15, 0, 20, 0, 4, 12, 0, 30, 0, 3, 14, 1, 40, 0, 2,
                                 11, 3, 50, 0, 1),
                           NO_WORDS, BYTES("")},
             (struct answer){NO_WORDS, WORDS(0, 0, 0, 0, 0), 5, 1});
    /* switch { case a: fallthrough; default: }, and the same as a type switch */
    answered(__LINE__,
             (struct body){WORDS(12, 0, 10, 0, 6, 15, 0, 20, 0, 5, 12, 0, 30, 0, 4, 14, 0, 40, 0, 2,
                                 11, 3, 50, 0, 1, 14, 1, 60, 0, 1),
                           NO_WORDS, BYTES("")},
             (struct answer){NO_WORDS, WORDS(0, 0, 0, 0, 0, 0), 0, 0});
    answered(__LINE__,
             (struct body){WORDS(12, 0, 10, 0, 6, 16, 0, 20, 0, 5, 12, 0, 30, 0, 4, 14, 0, 40, 0, 2,
                                 11, 3, 50, 0, 1, 14, 1, 60, 0, 1),
                           NO_WORDS, BYTES("")},
             (struct answer){NO_WORDS, WORDS(0, 0, 0, 0, 0, 0), 5, 0});
}

/* Rows of a Block: Empty items, or Blocks inside each other. */

static uint32_t many_rows[5 * (MOST_ROWS + 1)];

static void put_row(size_t row, uint32_t kind, size_t size) {
    const uint32_t words[5] = {kind, 0, 1, 0, (uint32_t)size};
    for (size_t i = 0; i < 5; i++) many_rows[5 * row + i] = words[i];
}

static struct body of_many_rows(size_t rows) {
    return (struct body){many_rows, 5 * rows, NO_WORDS, BYTES("")};
}

static struct body flat(size_t rows) {
    for (size_t r = 0; r < rows; r++) put_row(r, r ? 2 : 12, r ? 1 : rows);
    return of_many_rows(rows);
}

static struct body nested(size_t rows) {
    for (size_t r = 0; r < rows; r++) put_row(r, 12, rows - r);
    return of_many_rows(rows);
}

static void test_row_words(void) {
    struct body body = example();
    for (body.row_words = 0; body.row_words < 5; body.row_words++)
        refused(__LINE__, body, ZESTHULL_ROW_WORDS, 0);
    body.row_words = 24;
    refused(__LINE__, body, ZESTHULL_ROW_WORDS, 0);
    refused(__LINE__, flat(2001), ZESTHULL_ROW_WORDS, 0);
    static const uint32_t unbound[2000];
    answered(__LINE__, flat(2000), (struct answer){NO_WORDS, unbound, 2000, 0, 0});
}

static void test_name_words(void) {
    static uint32_t pairs[1002];
    static uint8_t bytes[8001];
    for (uint32_t i = 0; i < 501; i++) {
        pairs[2 * i] = i;
        pairs[2 * i + 1] = 1;
    }
    struct body body = {example_rows, 25, pairs, 1000, bytes, 8000};
    try_refusal(__LINE__, body, ZESTHULL_NONE, 0);
    body.byte_count = 8001;
    refused(__LINE__, body, ZESTHULL_NAME_WORDS, 0);
    body.byte_count = 8000;
    body.pair_words = 1002;
    refused(__LINE__, body, ZESTHULL_NAME_WORDS, 0);
    body.pair_words = 5;
    refused(__LINE__, body, ZESTHULL_NAME_WORDS, 0);
}

static void pairs_refused(int line, const uint32_t *pairs, size_t pair_words, size_t index) {
    struct body body = {example_rows, 25, pairs, pair_words, BYTES("ML")};
    refused(line, body, ZESTHULL_PAIR, index);
}

static void test_pairs(void) {
    pairs_refused(__LINE__, WORDS(0, 0, 1, 1), 0);
    pairs_refused(__LINE__, WORDS(0, 1, 1, 0), 1);
    pairs_refused(__LINE__, WORDS(0, 2, 1, 1), 1);
    pairs_refused(__LINE__, WORDS(0, 1, 1, 2), 1);
    pairs_refused(__LINE__, WORDS(0, 1, 0xFFFFFFFF, 2), 1);
}

/* The example with one word of its rows changed. */
static void word_refused(int line, size_t at, uint32_t word, uint32_t number, size_t row) {
    uint32_t rows[25];
    for (size_t i = 0; i < 25; i++) rows[i] = i == at ? word : example_rows[i];
    struct body body = {rows, 25, example_pairs, 4, BYTES("ML")};
    refused(line, body, number, row);
}

static void test_rows(void) {
    word_refused(__LINE__, 5, 21, ZESTHULL_ROW, 1);
    word_refused(__LINE__, 6, 4, ZESTHULL_ROW, 1);
    word_refused(__LINE__, 12, 0, ZESTHULL_ROW, 2);
    word_refused(__LINE__, 8, 0, ZESTHULL_ROW, 1);
    word_refused(__LINE__, 13, 3, ZESTHULL_ROW, 2);
    word_refused(__LINE__, 23, 1, ZESTHULL_ROW, 4);
}

static void test_shape(void) {
    word_refused(__LINE__, 4, 4, ZESTHULL_SHAPE, 0);
    word_refused(__LINE__, 24, 0, ZESTHULL_SHAPE, 4);
    word_refused(__LINE__, 24, 2, ZESTHULL_SHAPE, 4);
    word_refused(__LINE__, 14, 1, ZESTHULL_SHAPE, 2);
    word_refused(__LINE__, 20, 2, ZESTHULL_SHAPE, 3);
    word_refused(__LINE__, 20, 14, ZESTHULL_SHAPE, 3);
}

/* One switch, type switch or select, whose clauses, the rows from 3 on, have these details. */
static struct body of_clauses(uint32_t kind, const uint32_t *details, size_t count) {
    put_row(0, 12, 3 + count);
    put_row(1, kind, 2 + count);
    put_row(2, 12, 1 + count);
    for (size_t i = 0; i < count; i++) {
        put_row(3 + i, kind == 18 ? 17 : 14, 1);
        many_rows[5 * (3 + i) + 1] = details[i];
    }
    return of_many_rows(3 + count);
}

/* switch { default: switch { default: default: } default: } */
static const uint32_t nest_of_defaults[45] = {
    12, 0, 10, 0, 9, /* 0 { */
    15, 0, 20, 0, 8, /* 1   switch */
    12, 0, 30, 0, 7, /* 2   { */
    14, 1, 40, 0, 5, /* 3   default: */
    15, 0, 50, 0, 4, /* 4     switch */
    12, 0, 60, 0, 3, /* 5     { */
    14, 1, 70, 0, 1, /* 6     default: */
    14, 1, 80, 0, 1, /* 7     default: */
    14, 1, 90, 0, 1, /* 8   default: */
};

/* The nest with other details for its last two defaults, the inner one's and the outer one's. */
static struct body nest_with(uint32_t inner, uint32_t outer) {
    for (size_t i = 0; i < 45; i++) many_rows[i] = nest_of_defaults[i];
    many_rows[5 * 7 + 1] = inner;
    many_rows[5 * 8 + 1] = outer;
    return of_many_rows(9);
}

/* Two defaults in one statement; one inside a clause of another doesn't count for the outer one. */
static void test_defaults(void) {
    static const uint32_t kinds[3] = {15, 16, 18};
    for (size_t i = 0; i < COUNT(kinds); i++) {
        uint32_t kind = kinds[i];
        try_refusal(__LINE__, of_clauses(kind, WORDS(1, 0, 0)), ZESTHULL_NONE, 0);
        try_refusal(__LINE__, of_clauses(kind, WORDS(0, 0, 1)), ZESTHULL_NONE, 0);
        refused(__LINE__, of_clauses(kind, WORDS(1, 1)), ZESTHULL_DEFAULTS, 4);
        refused(__LINE__, of_clauses(kind, WORDS(1, 0, 0, 1)), ZESTHULL_DEFAULTS, 6);
        refused(__LINE__, of_clauses(kind, WORDS(0, 1, 1, 0)), ZESTHULL_DEFAULTS, 5);
        refused(__LINE__, of_clauses(kind, WORDS(0, 1, 0, 1, 1)), ZESTHULL_DEFAULTS, 6);
    }
    try_refusal(__LINE__, nest_with(0, 0), ZESTHULL_NONE, 0);
    refused(__LINE__, nest_with(0, 1), ZESTHULL_DEFAULTS, 8);
    refused(__LINE__, nest_with(1, 0), ZESTHULL_DEFAULTS, 7);
    refused(__LINE__, nest_with(1, 1), ZESTHULL_DEFAULTS, 7);
}

static void test_depth(void) {
    try_refusal(__LINE__, nested(100), ZESTHULL_NONE, 0);
    refused(__LINE__, nested(101), ZESTHULL_DEPTH, 100);
    refused(__LINE__, nested(2000), ZESTHULL_DEPTH, 100);
}

static void test_too_short(void) {
    writers_refused(__LINE__, example(), 39, 5, ZESTHULL_TOO_SHORT, 0);
    writers_refused(__LINE__, example(), 40, 4, ZESTHULL_TOO_SHORT, 0);
    writers_refused(__LINE__, example(), 0, 5, ZESTHULL_TOO_SHORT, 0);
    writers_refused(__LINE__, example(), 40, 0, ZESTHULL_TOO_SHORT, 0);
    writers_refused(__LINE__, example(), 0, 0, ZESTHULL_TOO_SHORT, 0);
}

/* Blocks inside each other around a switch with two defaults, the rows 100 and 101, both 101 deep. */
static struct body deep_defaults(void) {
    struct body body = nested(102);
    put_row(98, 15, 4);
    put_row(100, 14, 1);
    put_row(101, 14, 1);
    many_rows[5 * 100 + 1] = many_rows[5 * 101 + 1] = 1;
    return body;
}

/* Two faults or more: the one that documents 01 and 02 test first. */
static void test_order(void) {
    struct body body = {example_rows, 24, WORDS(0), BYTES("")};
    refused(__LINE__, body, ZESTHULL_ROW_WORDS, 0);
    body.row_words = 25;
    refused(__LINE__, body, ZESTHULL_NAME_WORDS, 0);
    body = nested(101);
    many_rows[5 * 100 + 2] = 0;
    refused(__LINE__, body, ZESTHULL_ROW, 100);
    many_rows[5 * 100 + 2] = 1;
    many_rows[5 * 100] = 19;
    refused(__LINE__, body, ZESTHULL_SHAPE, 100);
    body = deep_defaults();
    refused(__LINE__, body, ZESTHULL_DEFAULTS, 101);
    many_rows[5 * 101 + 1] = 0;
    refused(__LINE__, body, ZESTHULL_DEPTH, 100);
    body = deep_defaults();
    many_rows[5 * 101 + 4] = 2;
    refused(__LINE__, body, ZESTHULL_SHAPE, 101);
    many_rows[5 * 101 + 2] = 0;
    refused(__LINE__, body, ZESTHULL_ROW, 101);
}

/* Counts of 0 for each argument; the pointers stay good. */
static void test_counts_of_zero(void) {
    struct body body = example();
    body.row_words = 0;
    refused(__LINE__, body, ZESTHULL_ROW_WORDS, 0);
    body = example();
    body.pair_words = 0;
    refused(__LINE__, body, ZESTHULL_ROW, 1);
    body = example();
    body.byte_count = 0;
    refused(__LINE__, body, ZESTHULL_PAIR, 0);
    body.pair_words = 0;
    refused(__LINE__, body, ZESTHULL_ROW, 1);
    body.row_words = 0;
    refused(__LINE__, body, ZESTHULL_ROW_WORDS, 0);
}

/* Bodies to walk; the position of row r is 10 * (r + 1). */

/* if c {} */
static const uint32_t if_rows[15] = {12, 0, 10, 0, 3, 13, 0, 20, 0, 2, 12, 0, 30, 0, 1};

/* L: for c { switch { case a: fallthrough; case b: continue L; default: break }; if d { break L } };
   return */
static const uint32_t loop_rows[80] = {
    12, 0, 10,  0, 16, /*  0 { */
    3,  0, 20,  1, 14, /*  1   L: */
    19, 1, 30,  0, 13, /*  2   for c */
    12, 0, 40,  0, 12, /*  3   { */
    15, 0, 50,  0, 8,  /*  4     switch */
    12, 0, 60,  0, 7,  /*  5     { */
    14, 0, 70,  0, 2,  /*  6     case a: */
    11, 3, 80,  0, 1,  /*  7       fallthrough */
    14, 0, 90,  0, 2,  /*  8     case b: */
    11, 1, 100, 1, 1,  /*  9       continue L */
    14, 1, 110, 0, 2,  /* 10     default: */
    11, 0, 120, 0, 1,  /* 11       break */
    13, 0, 130, 0, 3,  /* 12     if d */
    12, 0, 140, 0, 2,  /* 13     { */
    11, 0, 150, 1, 1,  /* 14       break L */
    10, 0, 160, 0, 1,  /* 15   return */
};

/* L: for range x { for { if a { continue L } else { f() }; switch { case b: case c: break L } } };
   return */
static const uint32_t nest_rows[85] = {
    12, 0, 10,  0, 17, /*  0 { */
    3,  0, 20,  1, 15, /*  1   L: */
    20, 0, 30,  0, 14, /*  2   for range x */
    12, 0, 40,  0, 13, /*  3   { */
    19, 0, 50,  0, 12, /*  4     for */
    12, 0, 60,  0, 11, /*  5     { */
    13, 1, 70,  0, 5,  /*  6       if a */
    12, 0, 80,  0, 2,  /*  7       { */
    11, 1, 90,  1, 1,  /*  8         continue L */
    12, 0, 100, 0, 2,  /*  9       else { */
    4,  0, 110, 0, 1,  /* 10         f() */
    15, 0, 120, 0, 5,  /* 11       switch */
    12, 0, 130, 0, 4,  /* 12       { */
    14, 0, 140, 0, 1,  /* 13       case b: */
    14, 0, 150, 0, 2,  /* 14       case c: */
    11, 0, 160, 1, 1,  /* 15         break L */
    10, 0, 170, 0, 1,  /* 16   return */
};

/* goto M; L: select { case <-c: goto M; case c <- 1: break L }; return; M: goto L */
static const uint32_t goto_rows[60] = {
    12, 0, 10,  0, 12, /*  0 { */
    11, 2, 20,  2, 1,  /*  1   goto M */
    3,  0, 30,  1, 7,  /*  2   L: */
    18, 0, 40,  0, 6,  /*  3   select */
    12, 0, 50,  0, 5,  /*  4   { */
    17, 0, 60,  0, 2,  /*  5   case <-c: */
    11, 2, 70,  2, 1,  /*  6     goto M */
    17, 0, 80,  0, 2,  /*  7   case c <- 1: */
    11, 0, 90,  1, 1,  /*  8     break L */
    10, 0, 100, 0, 1,  /*  9   return */
    3,  0, 110, 2, 2,  /* 10   M: */
    11, 2, 120, 1, 1,  /* 11   goto L */
};

static const uint32_t walk_pairs[4] = {0, 1, 1, 1};

/* These rows, with the names L and M. */
static struct body to_walk(const uint32_t *rows, size_t row_words) {
    return (struct body){rows, row_words, walk_pairs, 4, BYTES("LM")};
}

/* A Block of one statement of this kind over a Block without items. */
static struct body lone(uint32_t kind) {
    put_row(0, 12, 3);
    put_row(1, kind, 2);
    put_row(2, 12, 1);
    return of_many_rows(3);
}

/* The limit is looked at first; then whether the walk has ended, then whether a choice is left, then
   its range. */
static void test_walk_ends(void) {
    struct body body = to_walk(if_rows, 15);
    walked(__LINE__, body, (struct course){WORDS(1), 9}, BRACE, 3, 1);
    walked(__LINE__, body, (struct course){WORDS(0), 9}, BRACE, 2, 1);
    walked(__LINE__, body, (struct course){WORDS(1), 3}, BRACE, 3, 1);
    walked(__LINE__, body, (struct course){WORDS(1), 2}, AT(2), 2, 1);
    walked(__LINE__, body, (struct course){WORDS(0, 9), SIZE_MAX}, BRACE, 2, 1);
    walked(__LINE__, body, (struct course){NO_WORDS, 0}, AT(0), 0, 0);
    walked(__LINE__, body, (struct course){NO_WORDS, 9}, AT(1), 1, 0);
    walked(__LINE__, body, (struct course){WORDS(9), 0}, AT(0), 0, 0);
    walked(__LINE__, body, (struct course){WORDS(9), 1}, AT(1), 1, 0);
    walk_refused(__LINE__, body, (struct course){WORDS(9), 2}, ZESTHULL_CHOICE, 0);
    walk_refused(__LINE__, body, (struct course){WORDS(2), 9}, ZESTHULL_CHOICE, 0);
    walk_refused(__LINE__, body, (struct course){WORDS(0x10000), 9}, ZESTHULL_CHOICE, 0);
    walk_refused(__LINE__, body, (struct course){WORDS(UINT32_MAX), 9}, ZESTHULL_CHOICE, 0);
}

static void test_walks(void) {
    struct body body = to_walk(loop_rows, 80);
    walked(__LINE__, body, (struct course){WORDS(1, 0, 1, 2, 0, 0), 99}, STOPPED, 17, 6);
    walked(__LINE__, body, (struct course){WORDS(1, 0, 1, 2, 0, 0), 16}, AT(15), 16, 6);
    walked(__LINE__, body, (struct course){WORDS(1, 0, 1, 2, 0), 99}, AT(2), 15, 5);
    walked(__LINE__, body, (struct course){WORDS(1, 2, 1), 99}, STOPPED, 11, 3);
    walked(__LINE__, body, (struct course){WORDS(1, 0, 0, 9), 99}, STOPPED, 11, 3);
    walk_refused(__LINE__, body, (struct course){WORDS(1, 3), 99}, ZESTHULL_CHOICE, 1);
    walk_refused(__LINE__, body, (struct course){WORDS(1, 1, 1, 2, 2), 99}, ZESTHULL_CHOICE, 4);
    body = to_walk(nest_rows, 85);
    walked(__LINE__, body, (struct course){WORDS(1, 1, 0), 99}, STOPPED, 11, 3);
    walked(__LINE__, body, (struct course){WORDS(1, 0, 0, 0, 1), 99}, STOPPED, 20, 5);
    walked(__LINE__, body, (struct course){WORDS(1, 0, 2), 10}, AT(4), 10, 3);
    walk_refused(__LINE__, body, (struct course){WORDS(1, 0, 3), 10}, ZESTHULL_CHOICE, 2);
    body = to_walk(goto_rows, 60);
    walked(__LINE__, body, (struct course){WORDS(0, 1), 99}, STOPPED, 15, 2);
    walked(__LINE__, body, (struct course){WORDS(0, 1), 10}, AT(2), 10, 1);
    walk_refused(__LINE__, body, (struct course){WORDS(0, 2), 99}, ZESTHULL_CHOICE, 1);
}

/* Statements over no items: what they take of the choices, and where they lead. */
static void test_walks_without_items(void) {
    for (uint32_t kind = 15; kind <= 16; kind++) {
        walked(__LINE__, lone(kind), (struct course){WORDS(0), 9}, BRACE, 2, 1);
        walked(__LINE__, lone(kind), (struct course){NO_WORDS, 9}, AT(1), 1, 0);
        walk_refused(__LINE__, lone(kind), (struct course){WORDS(1), 9}, ZESTHULL_CHOICE, 0);
    }
    walked(__LINE__, lone(18), (struct course){WORDS(5), 9}, STOPPED, 2, 0);
    walked(__LINE__, lone(19), (struct course){WORDS(5), 9}, AT(1), 9, 0);
    walked(__LINE__, lone(19), (struct course){NO_WORDS, 1000000}, AT(2), 1000000, 0);
    walked(__LINE__, lone(20), (struct course){WORDS(1, 1, 0), 9}, BRACE, 6, 3);
    walked(__LINE__, nested(100), (struct course){NO_WORDS, 99}, AT(99), 99, 0);
    walked(__LINE__, nested(100), (struct course){NO_WORDS, 101}, BRACE, 100, 0);
    walked(__LINE__, flat(2000), (struct course){NO_WORDS, SIZE_MAX}, BRACE, 2000, 0);
}

/* 8 comes after the refusals of the body, which `refused` tries, and before 9. */
static void test_walks_refused(void) {
    walk_refused(__LINE__, example(), (struct course){NO_WORDS, 0}, ZESTHULL_FAULTY, 0);
    walk_refused(__LINE__, example(), (struct course){WORDS(9), 9}, ZESTHULL_FAULTY, 0);
    /* if c {}; break */
    struct body body = {WORDS(12, 0, 10, 0, 4, 13, 0, 20, 0, 2, 12, 0, 30, 0, 1, 11, 0, 40, 0, 1),
                        NO_WORDS, BYTES("")};
    walk_refused(__LINE__, body, (struct course){NO_WORDS, 0}, ZESTHULL_FAULTY, 0);
    walk_refused(__LINE__, body, (struct course){WORDS(9), 9}, ZESTHULL_FAULTY, 0);
    body = nested(101);
    many_rows[5 * 100] = 11;
    walk_refused(__LINE__, body, (struct course){WORDS(9), 9}, ZESTHULL_DEPTH, 100);
}

static void named(int line, struct body body, size_t number, size_t length, size_t start) {
    size_t offset;
    size_t got = zesthull_name(body.pairs, body.pair_words, body.bytes, body.byte_count, number,
                               unset(&offset));
    check(line, got == length, "length of the name");
    check(line, offset == start, "offset of the name");
}

/* Where there is no such name, length and offset are 0. */
static void test_names(void) {
    struct body body = {NO_WORDS, WORDS(1, 2, 4, 3), BYTES("abcdefgh")};
    named(__LINE__, body, 1, 2, 1);
    named(__LINE__, body, 2, 3, 4);
    named(__LINE__, body, 0, 0, 0);
    named(__LINE__, body, 3, 0, 0);
    named(__LINE__, body, SIZE_MAX, 0, 0);
    named(__LINE__, body, SIZE_MAX / 2 + 2, 0, 0);
    body.byte_count = 6;
    named(__LINE__, body, 1, 0, 0);
    body.byte_count = 0;
    named(__LINE__, body, 1, 0, 0);
    body.byte_count = 8;
    body.pair_words = 3;
    named(__LINE__, body, 1, 0, 0);
    body.pair_words = 0;
    named(__LINE__, body, 1, 0, 0);
}

int main(void) {
    test_numbers();
    test_labels();
    test_placing_and_verdict();
    test_row_words();
    test_name_words();
    test_pairs();
    test_rows();
    test_shape();
    test_defaults();
    test_depth();
    test_too_short();
    test_order();
    test_counts_of_zero();
    test_walk_ends();
    test_walks();
    test_walks_without_items();
    test_walks_refused();
    test_names();
    if (failures) {
        printf("%zu of %zu checks failed\n", failures, checks);
        return 1;
    }
    printf("%zu checks passed\n", checks);
    return 0;
}
