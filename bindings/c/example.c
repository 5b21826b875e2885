/* The marks of {goto M;L:for{}}, printed as the program `marks` prints them.

   cc bindings/c/example.c -Ibindings/c target/staticlib/libexports.a -o example && ./example */
#include <stdio.h>

#include "zesthull.h"

enum { ROWS = 5, ROW_WORDS = 5 * ROWS, SHEET_WORDS = 8 * ROWS };

static const uint32_t rows[ROW_WORDS] = {
    12, 0, 1, 0, 5, /* { */
    11, 2, 7, 1, 1, /*   goto M */
    3, 0, 9, 2, 3,  /*   L: */
    19, 0, 11, 0, 2, /*  for */
    12, 0, 14, 0, 1, /*  {} */
};
static const uint32_t pairs[4] = {0, 1, 1, 1};
static const uint8_t bytes[2] = {'M', 'L'};

static void print_marks(const uint32_t *sheet, size_t faults, const uint32_t *bindings) {
    printf("sheet %zu\n", faults);
    for (size_t i = 0; i < faults; i++, sheet += 4)
        printf("%u %u %u %u\n", sheet[0], sheet[1], sheet[2], sheet[3]);
    size_t bound = 0;
    for (size_t r = 0; r < ROWS; r++) bound += bindings[r] != 0;
    printf("binds %zu\n", bound);
    for (size_t r = 0; r < ROWS; r++)
        if (bindings[r]) printf("%zu %u\n", r, bindings[r] - 1);
}

int main(void) {
    uint32_t sheet[SHEET_WORDS], bindings[ROWS];
    size_t value, placing, verdict;
    uint32_t refusal = zesthull_marks(rows, ROW_WORDS, pairs, 4, bytes, 2, sheet, SHEET_WORDS,
                                      bindings, ROWS, &value, &placing, &verdict);
    if (refusal) {
        printf("refused %u %zu\n", refusal, value);
        return 1;
    }
    print_marks(sheet, value, bindings);
    if (placing)
        printf("placed no %zu\n", placing - 1);
    else
        printf("placed yes\n");
    printf("verdict %s\n", verdict ? "yes" : "no");
    return 0;
}
