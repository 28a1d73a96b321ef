/* handed_in TEXT...: opens each text, which should be small, and hands in what is no open file: each number of the four tables changed in
 * turn to many others, also behind what the counts say; two at once; counts off by one, at their limits, past them and near wrapping;
 * tables too short and longer ones; and for an open file, other texts than a row, long ones, and several faults at once. Counts and
 * tables that can be written in 65,536 bytes are good exactly if that text opens to the same; one file takes rows beyond that. The last
 * line is `N passed, 0 failed` if all is well. */
#include <stdarg.h>

#include "open_file.h"

enum { MOST_BYTES = 65536, MOST_WRITTEN = 1 << 20 };

static const size_t limits[] = {64, 1024, MOST_ROWS, 16384, 16384};
static const size_t longer[TABLES] = {128, 3100, 16400, 16385, 16999};

static struct open_file good, file, written, before;
static const struct elk_answer no_open_file = {ELK_OUT_OF_ORDER, 0}, accepted = {ELK_ACCEPTED, 1};

/* ---- whether counts and tables are those of a body: by the text that they stand for */

static char text[MOST_WRITTEN];
static size_t text_length;

static void put(const char *format, ...) {
    va_list arguments;
    va_start(arguments, format);
    text_length += (size_t)vsnprintf(text + text_length, sizeof text - text_length, format, arguments);
    va_end(arguments);
    if (text_length >= sizeof text) {
        fputs("handed_in: no room for the text\n", stderr);
        exit(1);
    }
}

static void put_field(uint16_t number, char end) {
    if (number == ABSENT)
        put("-%c", end);
    else
        put("%u%c", number, end);
}

/* Whether the side lies in the part of its pool that the counts say. */
static int put_side(const uint16_t *pool, size_t start, size_t length, size_t used, char end) {
    if (start + length > used)
        return 0;
    if (length == 0)
        put("-%c", end);
    for (size_t k = 0; k < length; k++)
        put("%u%c", pool[start + k], k + 1 < length ? ',' : end);
    return 1;
}

static int can_be_written(const struct open_file *f) {
    const uint16_t *formulas = numbers(&f->tables, FORMULAS), *rows = numbers(&f->tables, ROWS);
    const size_t counts[] = {f->counts.atoms, f->counts.formulas, f->counts.rows, f->counts.left, f->counts.right};
    text_length = 0;
    for (size_t i = 0; i < sizeof limits / sizeof *limits; i++)
        if (counts[i] > limits[i])
            return 0;
    for (size_t i = 0; i < f->counts.atoms; i++)
        put("A\t%zu\ta%zu\n", i, i);
    for (size_t i = 0; i < f->counts.formulas; i++) {
        const uint16_t *record = formulas + 3 * i;
        if (record[0] >= WORDS)
            return 0;
        put("F\t%zu\t%s\t", i, formula_words[record[0]]);
        put_field(record[1], '\t');
        put_field(record[2], '\n');
    }
    for (size_t i = 0; i < f->counts.rows; i++) {
        const uint16_t *record = rows + 8 * i;
        if (record[0] >= RULES || (record[2] == ABSENT && record[3] != ABSENT))
            return 0;
        put("N\t%zu\t%s\t", i, rule_words[record[0]]);
        put_field(record[1], '\t');
        put_field(record[2], record[3] == ABSENT ? '\t' : ',');
        if (record[3] != ABSENT)
            put("%u\t", record[3]);
        if (!put_side(numbers(&f->tables, LEFT), record[4], record[5], f->counts.left, '\t')
            || !put_side(numbers(&f->tables, RIGHT), record[6], record[7], f->counts.right, '\n'))
            return 0;
    }
    return 1;
}

static int is_open_file(const struct open_file *f) {
    if (!can_be_written(f))
        return 0;
    struct elk_opened again = opened((struct bytes){(uint8_t *)text, text_length}, &written.tables);
    if (again.answer.number != ELK_ACCEPTED || !same_counts(again.counts, f->counts))
        return 0;
    for (int i = FORMULAS; i < TABLES; i++) /* the names may be others */
        if (memcmp(written.tables.at[i], f->tables.at[i], size_of(&f->tables, i)) != 0)
            return 0;
    return 1;
}

/* Tries the file as it was changed, and takes the change back. */
static void try_changed(void) {
    struct elk_answer full = {ELK_FULL, 1};
    int open = is_open_file(&file);
    try_row(&file, plain_row(file.counts.rows), !open ? no_open_file : file.counts.rows == MOST_ROWS ? full : accepted, &before);
    copy_file(&file, &good);
}

/* ---- tables and counts */

static size_t used_of(int table) {
    const struct elk_counts *c = &good.counts;
    return table == FORMULAS ? 3 * c->formulas : table == ROWS ? 8 * c->rows : table == LEFT ? c->left : c->right;
}

static void change_tables(const char *name) {
    static const uint16_t values[] = {0, 1, 2, 3, 4, 5, 6, 7, 8, 9, 10, 11, 12, 13, 14, 15, 16, 17, 18, 20, 22, 36, 37, 38, 39, 63, 64, 65, 66,
                                      255, 256, 1023, 1024, 2047, 2048, 16383, 16384, 32767, 32768, 65533, 65534, 65535};
    for (int table = FORMULAS; table < TABLES; table++) {
        uint16_t *entry = numbers(&file.tables, table), *unchanged = numbers(&good.tables, table);
        size_t used = used_of(table), lent = longer[table];
        const size_t behind[] = {used, used + 1, used + 7, least[table] - 1, least[table], lent - 1};
        for (size_t k = 0; k < used + sizeof behind / sizeof *behind; k++) {
            size_t place = k < used ? k : behind[k - used];
            if (place >= lent)
                continue;
            for (size_t v = 0; v < sizeof values / sizeof *values; v++)
                if (values[v] != unchanged[place]) {
                    entry[place] = values[v];
                    try_changed();
                }
            for (int by = -1; by <= 1; by += 2) {
                entry[place] = (uint16_t)(unchanged[place] + by);
                try_changed();
            }
            end_case(name);
        }
    }
}

static uint32_t random_below(uint32_t bound) {
    static uint32_t state = 105;
    state = state * 1664525 + 1013904223;
    return (state >> 8) % bound;
}

/* Numbers near those that stand there make rows and formulas of other files. */
static void change_two_at_once(const char *name, int times) {
    for (int i = 0; i < times; i++) {
        for (int change = 0; change < 2; change++) {
            int table = FORMULAS + (int)random_below(TABLES - FORMULAS);
            size_t used = used_of(table);
            if (used > 0)
                numbers(&file.tables, table)[random_below((uint32_t)used)] = (uint16_t)(random_below(8) == 0 ? ABSENT : random_below(12));
        }
        try_changed();
    }
    end_case(name);
}

static void change_counts(const char *name) {
    size_t *const changed[] = {&file.counts.atoms, &file.counts.formulas, &file.counts.rows, &file.counts.left, &file.counts.right};
    for (size_t i = 0; i < sizeof changed / sizeof *changed; i++) {
        size_t count = *changed[i], limit = limits[i];
        const size_t others[] = {0, count - 1, count + 1, count + 2, limit - 1, limit, limit + 1, 2 * limit, count + 65536,
                                 count + ((size_t)1 << 32), SIZE_MAX / 8 + 1 + count, SIZE_MAX / 2 + 1 + count, SIZE_MAX - 1, SIZE_MAX};
        for (size_t k = 0; k < sizeof others / sizeof *others; k++) {
            *changed[i] = others[k];
            try_changed();
        }
        end_case(name);
    }
    file.counts = (struct elk_counts){64, 1024, MOST_ROWS, 16384, 16384};
    try_changed();
    file.counts = (struct elk_counts){SIZE_MAX, SIZE_MAX, SIZE_MAX, SIZE_MAX, SIZE_MAX};
    try_changed();
    file.counts = (struct elk_counts){0};
    try_changed();
    end_case(name);
}

/* ---- the row's text, and lengths; of several faults the first counts */

static struct bytes text_of(const char *line) { return (struct bytes){(uint8_t *)line, strlen(line)}; }

static void try_texts(const char *name) {
    struct elk_answer bad_line = {ELK_BAD_LINE, 1}, out_of_order = {ELK_OUT_OF_ORDER, 1}, too_long = {ELK_TOO_LONG, 0};
    size_t rows = good.counts.rows;
    char line[128];
    struct bytes row = plain_row(rows);
    memcpy(line, row.at, row.length + 1);

    static const char *const other[] = {"", "\n", "N", "N\n", "N\t\n", "\t", "A\t0\tp\n", "F\t0\tbot\t-\t-\n", "M\t-\n", "C\t-\t-\n", "N\t0\n"};
    for (size_t i = 0; i < sizeof other / sizeof *other; i++)
        try_row(&file, text_of(other[i]), bad_line, &before);
    for (size_t cut = 0; cut < row.length; cut++)
        try_row(&file, (struct bytes){(uint8_t *)line, cut}, bad_line, &before);
    for (int byte = 0; byte < 256; byte++) { /* more after the row: a byte, and the row again */
        line[row.length] = (char)byte;
        try_row(&file, (struct bytes){(uint8_t *)line, row.length + 1}, bad_line, &before);
    }
    memcpy(line + row.length, plain_row(rows + 1).at, plain_row(rows + 1).length);
    try_row(&file, (struct bytes){(uint8_t *)line, row.length + plain_row(rows + 1).length}, bad_line, &before);
    end_case(name);

    const size_t other_numbers[] = {rows + 1, rows + 2, rows > 0 ? rows - 1 : 1, 2047, 2048, 99999};
    for (size_t i = 0; i < sizeof other_numbers / sizeof *other_numbers; i++)
        if (other_numbers[i] != rows)
            try_row(&file, plain_row(other_numbers[i]), out_of_order, &before);
    end_case(name);

    static uint8_t most[MOST_BYTES + 1];
    memset(most, '9', sizeof most);
    memcpy(most, "N\t", 2);
    try_row(&file, (struct bytes){most, MOST_BYTES}, bad_line, &before);
    try_row(&file, (struct bytes){most, MOST_BYTES + 1}, too_long, &before);
    most[MOST_BYTES - 1] = '\n';
    try_row(&file, (struct bytes){most, MOST_BYTES}, bad_line, &before);
    try_row(&file, (struct bytes){most, MOST_BYTES + 1}, too_long, &before);
    end_case(name);
}

/* Every set of short tables, with and without counts that are none and a text that is too long. */
static void try_lengths(const char *name) {
    static uint8_t long_text[MOST_BYTES + 1];
    struct bytes texts[] = {plain_row(good.counts.rows), {long_text, sizeof long_text}};
    struct elk_answer short_table = {ELK_SHORT_TABLE, 0}, too_long = {ELK_TOO_LONG, 0};
    for (int set = 0; set < 1 << (TABLES - FORMULAS); set++)
        for (int broken = 0; broken < 2; broken++)
            for (int i = 0; i < 2; i++) {
                size_t lengths[TABLES];
                memcpy(lengths, least, sizeof lengths);
                for (int table = FORMULAS; table < TABLES; table++)
                    lengths[table] -= (size_t)(set >> (table - FORMULAS) & 1);
                struct open_file lent = {lent_tables(lengths, 0xa5), good.counts}, copy = {lent_tables(lengths, 0), good.counts};
                for (int table = 0; table < TABLES; table++)
                    memcpy(lent.tables.at[table], good.tables.at[table], size_of(&lent.tables, table));
                lent.counts.rows += (size_t)broken;
                try_row(&lent, texts[i], set != 0 ? short_table : broken ? no_open_file : i == 1 ? too_long : accepted, &copy);
                give_back(&lent.tables);
                give_back(&copy.tables);
            }
    end_case(name);

    const struct open_file *f = &file; /* no table at all */
    struct elk_counts none = {0};
    uint16_t *at = numbers(&f->tables, ROWS);
    struct elk_opened opened = elk_add(texts[0].at, texts[0].length, at, 0, at + 1, 0, at + 2, 0, at + 3, 0, none);
    expect(same_answer(opened.answer, short_table) && same_counts(opened.counts, none), "another answer without tables");
    expect(same_answer(elk_preview(texts[0].at, texts[0].length, at, 0, at, 0, at, 0, at, 0, none), short_table),
           "another answer to a preview without tables");
    expect(tables_equal(&f->tables, &good.tables), "a table that was not lent was changed");
    end_case(name);
}

/* A beginning in tables of other lengths. */
static void try_opening(const char *name, struct bytes beginning) {
    for (int shorter = 0; shorter < TABLES; shorter++)
        for (int long_text = 0; long_text < 2; long_text++) {
            static uint8_t zeros[MOST_BYTES + 1];
            size_t lengths[TABLES];
            memcpy(lengths, longer, sizeof lengths);
            lengths[shorter] = least[shorter] - 1;
            struct tables tables = lent_tables(lengths, 0xff);
            struct elk_opened refused = opened(long_text ? (struct bytes){zeros, sizeof zeros} : beginning, &tables);
            expect(same_answer(refused.answer, (struct elk_answer){ELK_SHORT_TABLE, 0}), "another answer with a short table");
            expect(tables_zero(&tables) && same_counts(refused.counts, (struct elk_counts){0}), "a short table left something");
            expect(tables_guarded(&tables), "a table was written past an end");
            give_back(&tables);
        }
    struct elk_opened nothing = opened((struct bytes){beginning.at, 0}, &written.tables);
    expect(same_answer(nothing.answer, (struct elk_answer){ELK_ACCEPTED, 0}), "another answer to the empty text");
    expect(tables_zero(&written.tables) && same_counts(nothing.counts, (struct elk_counts){0}), "the empty text left something");
    end_case(name);
}

/* ---- more lines than a text can hold */

/* # and its negations, as many formulas as there can be, and rows about the last of them, up to the limit and one beyond. */
static void try_more_than_a_text(void) {
    uint16_t last = 1023;
    text_length = 0;
    put("F\t0\tbot\t-\t-\n");
    for (unsigned i = 1; i <= last; i++)
        put("F\t%u\tnot\t%u\t-\n", i, i - 1);
    struct elk_opened begun = opened((struct bytes){(uint8_t *)text, text_length}, &good.tables);
    expect(same_answer(begun.answer, (struct elk_answer){ELK_ACCEPTED, last + 1u}), "its formulas do not open");
    good.counts = begun.counts;
    copy_file(&file, &good);
    for (size_t k = 0; k <= MOST_ROWS; k++) {
        char row[64];
        size_t length = (size_t)sprintf(row, "N\t%zu\tsame\t%u\t-\t%u\t%u\n", k, last, last, last);
        try_row(&file, (struct bytes){(uint8_t *)row, length}, k < MOST_ROWS ? accepted : (struct elk_answer){ELK_FULL, 1}, &before);
        if (k < MOST_ROWS) { /* what is to be stored */
            const uint16_t record[] = {1, last, ABSENT, ABSENT, (uint16_t)k, 1, (uint16_t)k, 1};
            memcpy(numbers(&good.tables, ROWS) + 8 * k, record, sizeof record);
            numbers(&good.tables, LEFT)[k] = numbers(&good.tables, RIGHT)[k] = last;
        }
    }
    expect(same_counts(file.counts, (struct elk_counts){0, last + 1u, MOST_ROWS, MOST_ROWS, MOST_ROWS}), "other counts");
    expect(tables_equal(&file.tables, &good.tables), "other tables");
    expect(can_be_written(&file) && text_length > MOST_BYTES, "it can be written in a text");
    end_case("more than a text");
}

int main(int count, char **names) {
    good.tables = lent_tables(longer, 0xa5);
    file.tables = lent_tables(longer, 0x5a);
    written.tables = lent_tables(longer, 0xff);
    before.tables = lent_tables(longer, 0x01);
    for (int i = 1; i < count; i++) {
        struct bytes beginning = whole_file(names[i]);
        struct elk_opened begun = opened(beginning, &good.tables);
        good.counts = begun.counts;
        expect(begun.answer.number == ELK_ACCEPTED && is_open_file(&good), "it does not open");
        end_case(names[i]);
        copy_file(&file, &good);
        change_tables(names[i]);
        change_two_at_once(names[i], 5000);
        change_counts(names[i]);
        try_texts(names[i]);
        try_lengths(names[i]);
        try_opening(names[i], beginning);
        free(beginning.at);
    }
    try_more_than_a_text();
    give_back(&good.tables);
    give_back(&file.tables);
    give_back(&written.tables);
    give_back(&before.tables);
    return end_cases();
}
