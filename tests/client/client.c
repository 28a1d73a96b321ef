/* Judges standard input through `elk_check` and `elk_judge` and prints the answer: number, tab, line. The entries must agree, and a refusal
 * must leave nothing but zeros in tables that held other numbers before. */
#include <stdio.h>
#include <stdlib.h>
#include <string.h>

#include "govelamuth.h"

enum { NAMES = 128, FORMULAS = 3072, ROWS = 16384, POOL = 16384, MOST = 1 << 20 };

static uint8_t text[MOST];
static uint16_t names[NAMES + 1], formulas[FORMULAS + 1], rows[ROWS + 1], left[POOL + 1], right[POOL + 1];

static int all_zero(const uint16_t *table, size_t length) {
    for (size_t i = 0; i < length; i++)
        if (table[i] != 0)
            return 0;
    return 1;
}

int main(void) {
    size_t length = fread(text, 1, sizeof text, stdin);
    if (ferror(stdin) || !feof(stdin)) {
        fputs("client: cannot read standard input\n", stderr);
        return 2;
    }
    memset(names, 0xa5, sizeof names);
    memset(formulas, 0xa5, sizeof formulas);
    memset(rows, 0xa5, sizeof rows);
    memset(left, 0xa5, sizeof left);
    memset(right, 0xa5, sizeof right);
    struct elk_answer answer = elk_check(text, length);
    struct elk_answer lent = elk_judge(text, length, names, NAMES, formulas, FORMULAS, rows, ROWS, left, POOL, right, POOL);
    if (answer.number != lent.number || answer.line != lent.line) {
        fputs("client: the two entries differ\n", stderr);
        return 1;
    }
    if (names[NAMES] != 0xa5a5 || formulas[FORMULAS] != 0xa5a5 || rows[ROWS] != 0xa5a5 || left[POOL] != 0xa5a5 || right[POOL] != 0xa5a5) {
        fputs("client: a table was written past its end\n", stderr);
        return 1;
    }
    if (answer.number != ELK_ACCEPTED
        && !(all_zero(names, NAMES) && all_zero(formulas, FORMULAS) && all_zero(rows, ROWS) && all_zero(left, POOL) && all_zero(right, POOL))) {
        fputs("client: a refusal left numbers in a table\n", stderr);
        return 1;
    }
    printf("%u\t%u\n", answer.number, answer.line);
    return 0;
}
