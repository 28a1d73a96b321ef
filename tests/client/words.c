/* words TEXT PRINTED: has the file TEXT told in lent texts of several lengths, and compares with the file PRINTED: the sentences, or
 * number, tab, line where there are none. Number, line and tables must be those of elk_judge; the lent text must hold the sentences
 * and then zeros; and after a refusal, also for want of room, text and tables must be zeros alone. Everything held other bytes before,
 * and what stands before it must be untouched. Prints how many lent texts were tried. */
#include "lent.h"

enum { LENT_BY_THE_COMMAND = 1 << 20 };

static const char *text_name;
static int tried;

static void fail(size_t space, const char *what) {
    fprintf(stderr, "words: %s in %zu bytes: %s\n", text_name, space, what);
    exit(1);
}

/* Tells the text in so many bytes that were `byte` before; `sentences` is null where it is to be refused. One table lacks its last
 * number, unless `short_table` is -1. */
static void tell(struct bytes text, size_t space, uint8_t byte, struct elk_answer expected, const struct bytes *sentences,
                 const struct tables *judged_tables, int short_table) {
    size_t lent[TABLES];
    for (int i = 0; i < TABLES; i++)
        lent[i] = least[i] - (i == short_table);
    struct tables tables = lent_tables(lent, byte);
    uint8_t *words = guarded(space, byte);
    text = lent_text(text);
    struct elk_answer answer =
        elk_words(text.at, text.length, numbers(&tables, NAMES), lent[NAMES], numbers(&tables, FORMULAS), lent[FORMULAS],
                  numbers(&tables, ROWS), lent[ROWS], numbers(&tables, LEFT), lent[LEFT], numbers(&tables, RIGHT), lent[RIGHT], words, space);
    if (!same_answer(answer, expected)) {
        fprintf(stderr, "words: %u at line %u for %u at line %u\n", answer.number, answer.line, expected.number, expected.line);
        fail(space, "another answer");
    }
    size_t used = sentences == NULL ? 0 : sentences->length;
    if (used > 0 && memcmp(words, sentences->at, used) != 0)
        fail(space, "other words");
    if (!all_zero(words + used, space - used))
        fail(space, "no zeros after the words");
    if (!guard_stands(words, byte))
        fail(space, "the lent text was written past an end");
    if (sentences == NULL ? !tables_zero(&tables) : !tables_equal(&tables, judged_tables))
        fail(space, "another table");
    if (!tables_guarded(&tables))
        fail(space, "a table was written past an end");
    unmap(words, space);
    give_back(&tables);
    tried++;
}

int main(int count, char **arguments) {
    if (count != 3) {
        fputs("usage: words TEXT PRINTED\n", stderr);
        return 2;
    }
    text_name = arguments[1];
    struct bytes text = whole_file(arguments[1]), printed = whole_file(arguments[2]);
    struct tables tables = lent_tables(least, 0x5a);
    struct elk_answer judgement = judged(text, &tables);
    static const struct elk_answer short_table = {ELK_SHORT_TABLE, 0}, no_room = {ELK_NO_ROOM, 0};
    static const uint8_t before[] = {0xa5, 0xff, 0x01, '.'};

    for (size_t i = 0; i < sizeof before; i++) {
        uint8_t byte = before[i];
        if (printed.length >= 4 && memcmp(printed.at, "Row ", 4) == 0) {
            size_t exact = printed.length;
            const size_t enough[] = {exact, exact + 1, exact + 777, LENT_BY_THE_COMMAND + i};
            const size_t little[] = {exact - 1, exact / 2, 3, 1, 0};
            for (size_t k = 0; k < sizeof enough / sizeof *enough; k++)
                if (enough[k] >= exact)
                    tell(text, enough[k], byte, judgement, &printed, &tables, -1);
            for (size_t k = 0; k < sizeof little / sizeof *little; k++)
                tell(text, little[k], byte, no_room, NULL, &tables, -1);
        } else {
            struct elk_answer expected;
            unsigned number, line;
            char end;
            if (sscanf((const char *)printed.at, "%u\t%u%c", &number, &line, &end) != 3 || end != '\n')
                fail(0, "neither sentences nor a number");
            expected = (struct elk_answer){number, line};
            if (number != ELK_NO_ROOM && (judgement.number != number || judgement.line != line))
                fail(0, "another judgement");
            static const size_t spaces[] = {0, 1, 100, 5000, LENT_BY_THE_COMMAND};
            for (size_t k = 0; k < sizeof spaces / sizeof *spaces; k++)
                tell(text, spaces[k], byte, expected, NULL, &tables, -1);
        }
        for (int table = 0; table < TABLES; table++)
            tell(text, table * 100, byte, short_table, NULL, &tables, table);
    }
    give_back(&tables);
    free(text.at);
    free(printed.at);
    printf("%d lent texts\n", tried);
    return 0;
}
