/* tables NAMES FORMULAS ROWS LEFT RIGHT: judges standard input in lent tables of these lengths that held other numbers before, and
 * prints the answer (number, tab, line) and a line for each table: its name, its length, and its numbers up to the last that is
 * not 0. What stands before each table must be untouched. */
#include "lent.h"

int main(int count, char **words) {
    size_t lengths[TABLES];
    if (count != TABLES + 1) {
        fputs("usage: tables NAMES FORMULAS ROWS LEFT RIGHT\n", stderr);
        return 2;
    }
    for (int i = 0; i < TABLES; i++)
        lengths[i] = strtoul(words[i + 1], NULL, 10);
    struct bytes text = read_whole(stdin, "standard input");
    struct tables tables = lent_tables(lengths, 0xa5);
    struct elk_answer answer = judged(text, &tables);
    printf("%u\t%u\n", answer.number, answer.line);
    for (int i = 0; i < TABLES; i++) {
        size_t used = lengths[i];
        while (used > 0 && numbers(&tables, i)[used - 1] == 0)
            used--;
        printf("%s %zu:", kinds[i], lengths[i]);
        for (size_t k = 0; k < used; k++)
            printf(" %u", numbers(&tables, i)[k]);
        puts(guard_stands(tables.at[i], tables.byte) ? "" : " written past an end");
    }
    give_back(&tables);
    free(text.at);
    return 0;
}
