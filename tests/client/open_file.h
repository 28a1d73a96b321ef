/* What the clients that enter rows have in common: an open file in lent tables, a row tried in it, and cases that are counted. */
#ifndef OPEN_FILE_H
#define OPEN_FILE_H

#include "lent.h"

struct open_file {
    struct tables tables;
    struct elk_counts counts;
};

/* Cases, and what was first found wrong in the one that goes on. */
static int passed, failed;
static const char *wrong;

static inline void expect(int found, const char *otherwise) {
    if (!found && wrong == NULL)
        wrong = otherwise;
}

static inline void end_case(const char *name) {
    if (wrong == NULL) {
        passed++;
    } else {
        failed++;
        printf("%s: %s\n", name, wrong);
    }
    wrong = NULL;
}

/* The last line, and the client's status. */
static inline int end_cases(void) {
    printf("%d passed, %d failed\n", passed, failed);
    return failed != 0;
}

static inline int same_counts(struct elk_counts a, struct elk_counts b) {
    return a.atoms == b.atoms && a.formulas == b.formulas && a.rows == b.rows && a.left == b.left && a.right == b.right;
}

static inline struct elk_opened opened(struct bytes text, const struct tables *t) {
    text = lent_text(text);
    return elk_open(text.at, text.length, numbers(t, NAMES), t->lengths[NAMES], numbers(t, FORMULAS), t->lengths[FORMULAS],
                    numbers(t, ROWS), t->lengths[ROWS], numbers(t, LEFT), t->lengths[LEFT], numbers(t, RIGHT), t->lengths[RIGHT]);
}

static inline struct elk_opened added(struct bytes row, const struct open_file *file) {
    const struct tables *t = &file->tables;
    row = lent_text(row);
    return elk_add(row.at, row.length, numbers(t, FORMULAS), t->lengths[FORMULAS], numbers(t, ROWS), t->lengths[ROWS],
                   numbers(t, LEFT), t->lengths[LEFT], numbers(t, RIGHT), t->lengths[RIGHT], file->counts);
}

/* In tables that cannot be written meanwhile. */
static inline struct elk_answer previewed(struct bytes row, const struct open_file *file) {
    const struct tables *t = &file->tables;
    row = lent_text(row);
    for (int i = 0; i < TABLES; i++)
        set_writable(t->at[i], size_of(t, i), 0);
    struct elk_answer answer =
        elk_preview(row.at, row.length, numbers(t, FORMULAS), t->lengths[FORMULAS], numbers(t, ROWS), t->lengths[ROWS],
                    numbers(t, LEFT), t->lengths[LEFT], numbers(t, RIGHT), t->lengths[RIGHT], file->counts);
    for (int i = 0; i < TABLES; i++)
        set_writable(t->at[i], size_of(t, i), 1);
    return answer;
}

/* Puts what one file holds into another with tables of the same lengths. */
static inline void copy_file(struct open_file *to, const struct open_file *from) {
    to->counts = from->counts;
    for (int i = 0; i < TABLES; i++)
        memcpy(to->tables.at[i], from->tables.at[i], size_of(&from->tables, i));
}

/* Previews a row and then adds it. Both must answer as expected, and a refusal must change nothing. `before` has tables of the same
 * lengths, and holds the file as it was. */
static inline void try_row(struct open_file *file, struct bytes row, struct elk_answer expected, struct open_file *before) {
    copy_file(before, file);
    struct elk_answer preview = previewed(row, file);
    expect(same_answer(preview, expected), "another answer to the preview");
    struct elk_opened after = added(row, file);
    expect(same_answer(after.answer, expected), "another answer to the row");
    if (expected.number != ELK_ACCEPTED) {
        expect(same_counts(after.counts, file->counts), "a refusal changed the counts");
        expect(tables_equal(&file->tables, &before->tables), "a refusal changed a table");
    }
    expect(tables_guarded(&file->tables), "a table was written past an end");
    file->counts = after.counts;
}

enum { MOST_ROWS = 2048, RULES = 38, WORDS = 6, ABSENT = 65535 };

/* By their codes. */
static const char *const formula_words[WORDS] = {"bot", "atom", "not", "and", "or", "imp"};
static const char *const rule_words[RULES] = {
    "def", "same", "andl", "andr", "wr", "bot", "orr", "orl", "notl", "impr", "impl", "notr", "rcut", "unst", "xini", "xnnl", "xnnr",
    "xandl", "xandr1", "xandr2", "xorr", "xorl1", "xorl2", "ximpl1", "ximpl2", "ximpl3", "ximpr1", "ximpr2", "xnimpl", "xnimpr1",
    "xnimpr2", "xnandl1", "xnandl2", "xnandr", "xnorl", "xnorr1", "xnorr2", "swap",
};

/* A row that passes in every open file with so many rows: a refutation of nothing. */
static inline struct bytes plain_row(size_t number) {
    static char text[64];
    return (struct bytes){(uint8_t *)text, (size_t)sprintf(text, "N\t%zu\txini\t-\t-\t-\t-\n", number)};
}

#endif
