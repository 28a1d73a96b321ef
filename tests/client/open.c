/* open TEXT...: opens each text, with its M and C lines and without them, and enters its rows one by one, each previewed first. Tables and
 * counts must be those of the text so far at each step, and those of elk_judge at the end. A row that the whole text is refused for must
 * be refused alike, and so must tables that hold it all the same, or such a formula; a fourth of the texts must be of that kind, as in the
 * corpus. The last line is `N passed, 0 failed` if all is well. */
#include "open_file.h"

static struct open_file whole, file, so_far, before;

/* The first line, with its line feed if it has one. */
static struct bytes first_line(struct bytes text) {
    uint8_t *feed = text.length > 0 ? memchr(text.at, '\n', text.length) : NULL;
    return (struct bytes){text.at, feed == NULL ? text.length : (size_t)(feed - text.at) + 1};
}

static struct bytes after(struct bytes text, struct bytes line) {
    return (struct bytes){line.at + line.length, (size_t)(text.at + text.length - (line.at + line.length))};
}

/* The lines before the first that is of none of these kinds. */
static struct bytes lines_of(struct bytes text, const char *kinds, uint32_t *count) {
    struct bytes rest = text;
    for (*count = 0; rest.length > 0 && strchr(kinds, rest.at[0]) != NULL && rest.at[0] != 0; ++*count)
        rest = after(rest, first_line(rest));
    return (struct bytes){text.at, text.length - rest.length};
}

/* ---- items that a text is refused for, stored as if they had passed */

/* A number, or ABSENT for `-`, up to the byte after it, which is passed. One that no table can hold, or that would look absent, clears `fits`. */
static uint16_t field(const char **at, int *fits) {
    unsigned long number = ABSENT;
    if (**at == '-') {
        ++*at;
    } else {
        char *end;
        number = strtoul(*at, &end, 10);
        *at = end;
        *fits &= number < ABSENT;
    }
    ++*at;
    return (uint16_t)number;
}

static int code_of(const char **at, const char *const *words, int count) {
    size_t length = strcspn(*at, "\t");
    int code = 0;
    while (code < count && (strlen(words[code]) != length || memcmp(words[code], *at, length) != 0))
        code++;
    *at += length + 1;
    return code;
}

/* Stores a list as far as there is room, runs written out, and gives the count of its numbers. */
static size_t list(const char **at, uint16_t *table, size_t room, int *fits) {
    size_t count = 0;
    if (**at == '-') {
        *at += 2;
        return 0;
    }
    for (char between = ','; between == ',';) {
        uint16_t first = field(at, fits), last = first;
        if ((between = (*at)[-1]) == '-') {
            last = field(at, fits);
            between = (*at)[-1];
        }
        for (uint32_t k = first; k <= last && *fits; k++) {
            if (count < room)
                table[count] = (uint16_t)k;
            *fits &= ++count <= room;
        }
    }
    return count;
}

static int store_formula(struct open_file *f, const char *line) {
    const char *at = line + 2;
    int fits = f->counts.formulas < least[FORMULAS] / 3;
    field(&at, &fits);
    if (!fits)
        return 0;
    uint16_t *record = numbers(&f->tables, FORMULAS) + 3 * f->counts.formulas++;
    record[0] = (uint16_t)code_of(&at, formula_words, WORDS);
    record[1] = field(&at, &fits);
    record[2] = field(&at, &fits);
    return fits;
}

static int store_row(struct open_file *f, const char *line) {
    const char *at = line + 2;
    struct elk_counts *counts = &f->counts;
    int fits = counts->rows < MOST_ROWS;
    field(&at, &fits);
    if (!fits)
        return 0;
    uint16_t *record = numbers(&f->tables, ROWS) + 8 * counts->rows++;
    record[0] = (uint16_t)code_of(&at, rule_words, RULES);
    record[1] = field(&at, &fits);
    record[2] = record[3] = ABSENT;
    list(&at, record + 2, 2, &fits);
    record[4] = (uint16_t)counts->left;
    record[5] = (uint16_t)list(&at, numbers(&f->tables, LEFT) + counts->left, least[LEFT] - counts->left, &fits);
    record[6] = (uint16_t)counts->right;
    record[7] = (uint16_t)list(&at, numbers(&f->tables, RIGHT) + counts->right, least[RIGHT] - counts->right, &fits);
    counts->left += record[5];
    counts->right += record[7];
    return fits;
}

static int stored_trials;

/* The file with the line that it is refused for must be no open file, where tables can hold the line. */
static void try_stored(const char *line, uint32_t number) {
    int numbered = number == ELK_NO_SUCH_ITEM || number == ELK_FORMULA_AGAIN || number == ELK_BAD_SIDE || number == ELK_WRONG_PREMISES
        || number == ELK_TOO_MANY_ATOMS || number == ELK_WRONG_STEP;
    if (numbered && ((line[0] == 'F' && store_formula(&file, line)) || (line[0] == 'N' && store_row(&file, line)))) {
        try_row(&file, plain_row(file.counts.rows), (struct elk_answer){ELK_OUT_OF_ORDER, 0}, &before);
        stored_trials++;
    }
}

/* ---- one text */

/* Enters the rows after the lines before them, up to the line that the whole text is refused for. */
static void enter_rows(struct bytes text, struct elk_answer judgement) {
    uint32_t line = 0;
    struct bytes beginning = lines_of(text, "AF", &line);
    int refused_there = judgement.line <= line && judgement.number != ELK_ACCEPTED && judgement.number != ELK_NO_CLAIM;
    if (refused_there) { /* what stands before that line still opens */
        beginning.length = 0;
        for (uint32_t k = 1; k < judgement.line; k++)
            beginning.length += first_line(after(text, beginning)).length;
    }
    struct elk_opened begun = opened(beginning, &file.tables);
    file.counts = begun.counts;
    expect(begun.answer.number == ELK_ACCEPTED, "its beginning is refused");
    if (refused_there) {
        try_stored((const char *)after(text, beginning).at, judgement.number);
        return;
    }
    for (struct bytes rest = after(text, beginning), row; rest.length > 0 && rest.at[0] == 'N'; rest = after(rest, row)) {
        row = first_line(rest);
        uint32_t number = ++line == judgement.line && judgement.number != ELK_NO_CLAIM ? judgement.number : ELK_ACCEPTED;
        try_row(&file, row, (struct elk_answer){number, 1}, &before);
        if (number != ELK_ACCEPTED) {
            try_stored((const char *)row.at, number);
            return;
        }
        struct elk_opened longer = opened((struct bytes){text.at, (size_t)(row.at - text.at) + row.length}, &so_far.tables);
        expect(same_answer(longer.answer, (struct elk_answer){ELK_ACCEPTED, line}), "another answer to the lines so far");
        expect(same_counts(file.counts, longer.counts), "other counts than the lines so far have");
        expect(tables_equal(&file.tables, &so_far.tables), "other tables than the lines so far have");
    }
    if (judgement.number == ELK_ACCEPTED)
        expect(tables_equal(&file.tables, &whole.tables), "other tables than the whole file has");
}

static size_t lines_that_begin(struct bytes text, uint8_t kind) {
    size_t count = 0;
    for (struct bytes rest = text; rest.length > 0; rest = after(rest, first_line(rest)))
        count += rest.at[0] == kind;
    return count;
}

/* Opens the whole text, and if it is accepted its lines without M and C, and then adds one more row. */
static void open_text(struct bytes text, struct elk_answer judgement) {
    struct elk_answer expected = judgement;
    if (judgement.number == ELK_NO_CLAIM)
        expected = (struct elk_answer){ELK_ACCEPTED, judgement.line - 1};
    struct elk_opened all = opened(text, &so_far.tables);
    expect(same_answer(all.answer, expected), "another answer to the text");
    expect(tables_guarded(&so_far.tables), "a table was written past an end");
    if (expected.number != ELK_ACCEPTED) {
        expect(tables_zero(&so_far.tables), "a refusal left numbers in a table");
        expect(same_counts(all.counts, (struct elk_counts){0}), "a refusal left counts");
        return;
    }
    struct elk_counts counts = {lines_that_begin(text, 'A'), lines_that_begin(text, 'F'), lines_that_begin(text, 'N'), 0, 0};
    if (counts.rows > 0) {
        const uint16_t *last = numbers(&so_far.tables, ROWS) + 8 * (counts.rows - 1);
        counts.left = (size_t)last[4] + last[5];
        counts.right = (size_t)last[6] + last[7];
    }
    expect(same_counts(all.counts, counts), "other counts than the text has");
    if (judgement.number == ELK_ACCEPTED)
        expect(tables_equal(&so_far.tables, &whole.tables), "other tables than the whole file has");

    uint32_t lines;
    struct bytes rows = lines_of(text, "AFN", &lines);
    struct elk_opened without = opened(rows, &file.tables);
    expect(same_answer(without.answer, (struct elk_answer){ELK_ACCEPTED, lines}), "another answer without model and claim");
    expect(same_counts(without.counts, all.counts), "other counts without model and claim");
    expect(tables_equal(&file.tables, &so_far.tables), "other tables without model and claim");

    so_far.counts = all.counts;
    struct elk_answer full = {ELK_FULL, 1}, added = {ELK_ACCEPTED, 1};
    try_row(&so_far, plain_row(counts.rows), counts.rows == MOST_ROWS ? full : added, &before);
    if (counts.rows < MOST_ROWS) {
        static const uint16_t plain[] = {14, ABSENT, ABSENT, ABSENT};
        uint16_t *record = numbers(&file.tables, ROWS) + 8 * counts.rows;
        memcpy(record, plain, sizeof plain);
        record[4] = (uint16_t)counts.left;
        record[6] = (uint16_t)counts.right;
        counts.rows++;
    }
    expect(same_counts(so_far.counts, counts), "other counts with one more row");
    expect(tables_equal(&so_far.tables, &file.tables), "other tables with one more row");
}

int main(int count, char **names) {
    whole.tables = lent_tables(least, 0xa5);
    file.tables = lent_tables(least, 0x5a);
    so_far.tables = lent_tables(least, 0xff);
    before.tables = lent_tables(least, 0x01);
    for (int i = 1; i < count; i++) {
        struct bytes text = whole_file(names[i]);
        struct elk_answer judgement = judged(text, &whole.tables);
        open_text(text, judgement);
        if (judgement.number != ELK_TOO_LONG)
            enter_rows(text, judgement);
        end_case(names[i]);
        free(text.at);
    }
    expect(stored_trials >= (count - 1) / 4, "too few");
    end_case("lines stored that are refused");
    give_back(&whole.tables);
    give_back(&file.tables);
    give_back(&so_far.tables);
    give_back(&before.tables);
    return end_cases();
}
