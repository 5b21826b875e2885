/* The marks of a Go function body: label faults (the sheet), where labels bind, whether unlabelled
   branches are well placed, and whether the body is terminating (the verdict). And walks of it by
   given choices.

   A body is its row words (five a row: kind, detail, position, name, size), its pair words (two a
   name: offset, length) and its name bytes, each lent as a pointer and a count.

   Each call on a body returns the number of the refusal, 0 for none, and writes through `value` the
   refusal's index or the answer. A refusal changes no other memory. A call ends on any words, reads
   and writes inside the counts given, and keeps no pointer.

   What the caller owes: a pointer is aligned and not null, also where its count is 0; it leads to as
   many words as its count says; and memory that a call writes overlaps with nothing else lent to it.

   Link with libexports.a (x86-64 Linux). */
#ifndef ZESTHULL_H
#define ZESTHULL_H

#include <stddef.h>
#include <stdint.h>

#ifdef __cplusplus
extern "C" {
#endif

/* 0.12.0: major * 1,000,000 + minor * 1,000 + patch. */
#define ZESTHULL_VERSION 12000

/* In the order in which they are tested: 10 comes after 5 and before 6. */
enum zesthull_refusals {
    ZESTHULL_NONE = 0,
    ZESTHULL_ROW_WORDS = 1,  /* row words empty, not a multiple of 5, or over 2,000 rows */
    ZESTHULL_NAME_WORDS = 2, /* odd pair words, over 500 pairs, or over 8,000 name bytes */
    ZESTHULL_PAIR = 3,       /* a pair, by its index from 0 */
    ZESTHULL_ROW = 4,        /* a row's kind, detail, position or name, by the row */
    ZESTHULL_SHAPE = 5,      /* a row's size, parent or children, by the row */
    ZESTHULL_DEFAULTS = 10,  /* two defaults in one switch or select, by the row of the second */
    ZESTHULL_DEPTH = 6,      /* a row over 100 deep, by the row */
    ZESTHULL_TOO_SHORT = 7,  /* sheet under 8 words a row, or bindings under 1 word a row */
    ZESTHULL_FAULTY = 8,     /* sheet not empty, or a row badly placed */
    ZESTHULL_CHOICE = 9      /* a choice out of range when it is met, by its index from 0 */
};

/* Whether the body is well-formed: none of the refusals 1 to 6 and 10 applies. The value is 0 if it
   is. */
uint32_t zesthull_refusal(const uint32_t *rows, size_t row_words,
                          const uint32_t *pairs, size_t pair_words,
                          const uint8_t *bytes, size_t byte_count, size_t *value);

/* The label call: it writes the sheet (four words a row: code, position, name, other) and the
   bindings (one word a row of the body). The value is the sheet's row count. Words past both stay. */
uint32_t zesthull_labels(const uint32_t *rows, size_t row_words,
                         const uint32_t *pairs, size_t pair_words,
                         const uint8_t *bytes, size_t byte_count,
                         uint32_t *sheet, size_t sheet_words,
                         uint32_t *bindings, size_t binding_words, size_t *value);

/* The placing call. The value is 1 + the first row badly placed, or 0. */
uint32_t zesthull_placing(const uint32_t *rows, size_t row_words,
                          const uint32_t *pairs, size_t pair_words,
                          const uint8_t *bytes, size_t byte_count, size_t *value);

/* The verdict call. The value is 1 for yes, 0 for no. */
uint32_t zesthull_verdict(const uint32_t *rows, size_t row_words,
                          const uint32_t *pairs, size_t pair_words,
                          const uint8_t *bytes, size_t byte_count, size_t *value);

/* The three calls in one, after one look for refusals: the sheet's row count through `value`, the
   placing call's value through `placing`, the verdict call's through `verdict`. A refusal writes its
   index through `value` alone. */
uint32_t zesthull_marks(const uint32_t *rows, size_t row_words,
                        const uint32_t *pairs, size_t pair_words,
                        const uint8_t *bytes, size_t byte_count,
                        uint32_t *sheet, size_t sheet_words,
                        uint32_t *bindings, size_t binding_words,
                        size_t *value, size_t *placing, size_t *verdict);

/* The walk call: from row 0 by the choices given, of `limit` steps at most. At If, For with a
   condition and Range a choice is 1 for the body and 0 for the other way; at a switch or Select it is
   the clause from 0, and the number of clauses for going on where a switch has no default. An empty
   Select takes none. The walk ends at a stop, the closing brace, the limit, which is looked at first,
   or where it needs a choice and none is left. A limit of any size will do: where the walk goes round
   without a choice, the rounds up to the limit aren't made one by one.

   The value is the place reached: 0 for stopped, 1 for the closing brace, 2 + the row; the steps made
   come through `steps`, the choices used through `used`. A refusal writes its index through `value`
   alone. */
uint32_t zesthull_walk(const uint32_t *rows, size_t row_words,
                       const uint32_t *pairs, size_t pair_words,
                       const uint8_t *bytes, size_t byte_count,
                       const uint32_t *choices, size_t choice_count, size_t limit,
                       size_t *value, size_t *steps, size_t *used);

/* The bytes of a name: returns the length of the name's pair, and writes the pair's offset, where in
   `bytes` the name starts, through `offset`. Both are 0 where there is no such name: for number 0,
   for a number past the last pair, and for pairs or bytes that are refused. */
size_t zesthull_name(const uint32_t *pairs, size_t pair_words,
                     const uint8_t *bytes, size_t byte_count, size_t number, size_t *offset);

/* The version of the archive linked; equal to ZESTHULL_VERSION where header and archive belong
   together. */
uint32_t zesthull_version(void);

#ifdef __cplusplus
}
#endif

#endif
