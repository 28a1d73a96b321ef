/* cases opening|opened|adding, in the corpus folder: answers each line of standard input with a line.
 *
 * `opening` opens the text that the line names, and prints number, line and counts; `opened` prints the five tables instead, each up to
 * where the counts say. `adding` takes the first four fields of a line of adding.tsv: name, beginning, changes, row. It previews and adds
 * the row, and prints number and line, and what is stored: the record, and the entries of either pool. All fields are parted by tabs, and
 * numbers by commas; `-` is none. */
#include "open_file.h"

static void stop(const char *why, const char *where) {
    fprintf(stderr, "cases: %s: %s\n", why, where);
    exit(1);
}

static struct bytes corpus_text(const char *name) {
    char path[256];
    snprintf(path, sizeof path, "%s.txt", name);
    return whole_file(path);
}

static void print_numbers(const uint16_t *from, size_t count) {
    printf(count == 0 ? "\t-" : "\t");
    for (size_t i = 0; i < count; i++)
        printf("%s%u", i == 0 ? "" : ",", from[i]);
}

/* ---- opening */

static void print_opened(const char *name, int with_tables) {
    struct tables tables = lent_tables(least, 0xa5);
    struct bytes text = corpus_text(name);
    struct elk_opened after = opened(text, &tables);
    const struct elk_counts *c = &after.counts;
    const size_t used[TABLES] = {2 * c->atoms, 3 * c->formulas, 8 * c->rows, c->left, c->right};
    for (int i = 0; i < TABLES; i++)
        if (!all_zero(tables.at[i] + used[i] * sizeof(uint16_t), size_of(&tables, i) - used[i] * sizeof(uint16_t)))
            stop("no zeros after what the counts say", name);
    if (!tables_guarded(&tables))
        stop("a table was written past an end", name);
    if (with_tables) {
        printf("%s", name);
        for (int i = 0; i < TABLES; i++)
            print_numbers(numbers(&tables, i), used[i]);
    } else {
        printf("%u\t%u\t%zu\t%zu\t%zu\t%zu\t%zu", after.answer.number, after.answer.line, c->atoms, c->formulas, c->rows, c->left, c->right);
    }
    puts("");
    free(text.at);
    give_back(&tables);
}

/* ---- adding */

/* The text, or its first lines where the name ends in `:COUNT`. */
static struct bytes beginning(char *name) {
    char *colon = strchr(name, ':');
    if (colon != NULL)
        *colon = 0;
    struct bytes text = corpus_text(name);
    if (colon != NULL) {
        size_t lines = strtoul(colon + 1, NULL, 10), length = 0;
        for (; lines > 0 && length < text.length; length++)
            lines -= text.at[length] == '\n';
        text.length = length;
    }
    return text;
}

/* A row as it is listed; or after `@` a text, or the one line of it where the name ends in `:LINE`. The caller frees it. */
static struct bytes row_of(char *written) {
    struct bytes text;
    if (written[0] == '@') {
        char *colon = strchr(written, ':');
        size_t line = colon == NULL ? 0 : strtoul(colon + 1, NULL, 10);
        if (colon != NULL)
            *colon = 0;
        text = corpus_text(written + 1);
        if (line > 0) {
            size_t start = 0, end;
            for (; line > 1; start++)
                line -= text.at[start] == '\n';
            for (end = start; end < text.length && (end == start || text.at[end - 1] != '\n'); end++)
                ;
            memmove(text.at, text.at + start, text.length = end - start);
        }
    } else {
        text = read_back(written, strlen(written));
        uint8_t *copy = needed(malloc(text.length + 1));
        memcpy(copy, text.at, text.length);
        text.at = copy;
    }
    return text;
}

static int table_named(const char *name) {
    for (int i = 0; i < TABLES; i++)
        if (strcmp(name, kinds[i]) == 0)
            return i;
    stop("no such table", name);
    return TABLES;
}

static size_t *count_named(struct elk_counts *c, const char *name) {
    size_t *const counts[] = {NULL, &c->formulas, &c->rows, &c->left, &c->right};
    return strcmp(name, "atoms") == 0 ? &c->atoms : counts[table_named(name)];
}

/* Lends a table of another length, with zeros after what it held. */
static void lend_again(struct tables *tables, int table, size_t length) {
    size_t old = size_of(tables, table), new = length * sizeof(uint16_t);
    uint8_t *at = guarded(new, tables->byte);
    memset(at, 0, new);
    memcpy(at, tables->at[table], old < new ? old : new);
    unmap(tables->at[table], old);
    tables->at[table] = at;
    tables->lengths[table] = length;
}

/* `length:TABLE:LENGTH`, `count:COUNT:NUMBER` or `TABLE:PLACE:NUMBER`. */
static void change(struct open_file *file, char *written) {
    char *first = strtok(written, ":"), *second = strtok(NULL, ":"), *third = strtok(NULL, ":");
    if (third == NULL)
        stop("no such change", written);
    size_t number = strtoull(third, NULL, 10);
    if (strcmp(first, "length") == 0) {
        lend_again(&file->tables, table_named(second), number);
    } else if (strcmp(first, "count") == 0) {
        *count_named(&file->counts, second) = number;
    } else {
        size_t place = strtoul(second, NULL, 10);
        int table = table_named(first);
        if (place >= file->tables.lengths[table])
            stop("no such place", first);
        numbers(&file->tables, table)[place] = (uint16_t)number;
    }
}

static void print_added(char *line) {
    char *fields[4], *rest = line;
    for (int i = 0; i < 4; i++)
        if ((fields[i] = strsep(&rest, "\t")) == NULL)
            stop("no case", line);
    struct bytes text = beginning(fields[1]), row = row_of(fields[3]);
    struct open_file file = {.tables = lent_tables(least, 0xa5)};
    struct elk_opened begun = opened(text, &file.tables);
    if (begun.answer.number != ELK_ACCEPTED)
        stop("its beginning does not open", fields[0]);
    file.counts = begun.counts;
    for (char *each; (each = strsep(&fields[2], " ")) != NULL;)
        if (strcmp(each, "-") != 0)
            change(&file, each);
    struct open_file before = {.tables = lent_tables(file.tables.lengths, 0)};
    copy_file(&before, &file);
    struct elk_answer answer = previewed(row, &before);
    try_row(&file, row, answer, &before);
    if (wrong != NULL)
        stop(wrong, fields[0]);
    printf("%u\t%u", answer.number, answer.line);
    if (answer.number == ELK_ACCEPTED) {
        struct elk_counts was = before.counts, is = file.counts;
        if (is.atoms != was.atoms || is.formulas != was.formulas || is.rows != was.rows + 1 || is.left < was.left || is.right < was.right)
            stop("other counts", fields[0]);
        const size_t from[TABLES] = {0, 0, 8 * was.rows, was.left, was.right}, count[TABLES] = {0, 0, 8, is.left - was.left, is.right - was.right};
        for (int i = FORMULAS; i < TABLES; i++) {
            uint16_t *stored = numbers(&file.tables, i) + from[i];
            if (i > FORMULAS)
                print_numbers(stored, count[i]);
            memcpy(numbers(&before.tables, i) + from[i], stored, count[i] * sizeof *stored);
        }
        if (!tables_equal(&file.tables, &before.tables))
            stop("changed elsewhere", fields[0]);
    } else {
        printf("\t-\t-\t-");
    }
    puts("");
    give_back(&before.tables);
    give_back(&file.tables);
    free(text.at);
    free(row.at);
}

int main(int count, char **words) {
    const char *what = count == 2 ? words[1] : "";
    int adding = strcmp(what, "adding") == 0, with_tables = strcmp(what, "opened") == 0;
    if (!adding && !with_tables && strcmp(what, "opening") != 0) {
        fputs("usage: cases opening|opened|adding\n", stderr);
        return 2;
    }
    char *line = NULL;
    size_t space = 0;
    for (ssize_t read; (read = getline(&line, &space, stdin)) > 0;) {
        line[read - 1] = 0;
        if (adding)
            print_added(line);
        else
            print_opened(line, with_tables);
    }
    free(line);
    return 0;
}
