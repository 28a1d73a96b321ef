/* Judges each line of standard input, a text as the corpus lists it, through `elk_check` and `elk_judge`, and prints an answer for
 * each: number, tab, line. The entries must agree. */
#include "lent.h"

int main(void) {
    struct tables tables = lent_tables(least, 0xa5);
    char *line = NULL;
    size_t space = 0;
    for (ssize_t read; (read = getline(&line, &space, stdin)) > 0;) {
        struct bytes text = read_back(line, (size_t)read - 1);
        struct elk_answer answer = checked(text);
        if (!same_answer(answer, judged(text, &tables))) {
            fputs("listed: the two entries differ\n", stderr);
            return 1;
        }
        printf("%u\t%u\n", answer.number, answer.line);
    }
    free(line);
    give_back(&tables);
    return 0;
}
