/* Times open files: the beginning of a large file opened, all but its M and C lines; its last row added to what comes before; and that row
 * previewed. Adding and previewing judge all rows again, from the tables. */
#include "timing.h"

/* A beginning up to the last row, in tables of both checkers. */
struct opened {
    const uint8_t *text, *row;
    size_t before_row, length; /* of the text: up to the last row, and with it */
    struct tables proved, fast;
    struct elk_counts counts;
};

static struct elk_opened opened_by(__typeof__(elk_open) *open, const uint8_t *text, size_t length, struct tables *t) {
    return open(text, length, t->names, 128, t->formulas, 3 * MOST_FORMULAS, t->rows, 8 * MOST_ROWS, t->left, MOST_ENTRIES,
                t->right, MOST_ENTRIES);
}

static struct elk_opened added_by(__typeof__(elk_add) *add, const struct opened *o, struct tables *t) {
    return add(o->row, o->length - o->before_row, t->formulas, 3 * MOST_FORMULAS, t->rows, 8 * MOST_ROWS, t->left, MOST_ENTRIES, t->right,
               MOST_ENTRIES, o->counts);
}

static struct elk_answer previewed_by(__typeof__(elk_preview) *preview, const struct opened *o, const struct tables *t) {
    return preview(o->row, o->length - o->before_row, t->formulas, 3 * MOST_FORMULAS, t->rows, 8 * MOST_ROWS, t->left, MOST_ENTRIES, t->right,
                   MOST_ENTRIES, o->counts);
}

static bool same_counts(struct elk_counts a, struct elk_counts b) {
    return a.atoms == b.atoms && a.formulas == b.formulas && a.rows == b.rows && a.left == b.left && a.right == b.right;
}

/* Takes the last row out of the tables again. */
static void take_back(struct tables *t, struct elk_counts before, struct elk_counts after) {
    memset(t->rows + 8 * before.rows, 0, 8 * (after.rows - before.rows) * sizeof *t->rows);
    memset(t->left + before.left, 0, (after.left - before.left) * sizeof *t->left);
    memset(t->right + before.right, 0, (after.right - before.right) * sizeof *t->right);
}

/* Opens the text up to its last row by both checkers, which must agree on that, on the row, and on the tables with it. */
static void begin(const char *name, const struct text *t, struct opened *o) {
    o->text = (const uint8_t *)t->bytes;
    size_t last = 0, end = 0;
    for (size_t at = 0; at < t->length; at += (size_t)((const char *)memchr(t->bytes + at, '\n', t->length - at) - (t->bytes + at)) + 1)
        if (t->bytes[at] == 'N')
            last = at;
        else if (last > 0 && end == 0)
            end = at;
    o->row = o->text + last;
    o->before_row = last;
    o->length = end;
    memset(&o->proved, 0x5a, sizeof o->proved);
    memset(&o->fast, 0xa5, sizeof o->fast);
    struct elk_opened proved = opened_by(elk_open, o->text, last, &o->proved), fast = opened_by(fast_open, o->text, last, &o->fast);
    o->counts = fast.counts;
    bool agreed = proved.answer.number == 0 && fast.answer.number == 0 && proved.answer.line == fast.answer.line
        && same_counts(proved.counts, fast.counts) && memcmp(&o->proved, &o->fast, sizeof o->fast) == 0
        && previewed_by(elk_preview, o, &o->proved).number == 0 && previewed_by(fast_preview, o, &o->fast).number == 0;
    proved = added_by(elk_add, o, &o->proved);
    fast = added_by(fast_add, o, &o->fast);
    agreed = agreed && proved.answer.number == 0 && fast.answer.number == 0 && same_counts(proved.counts, fast.counts)
        && memcmp(&o->proved, &o->fast, sizeof o->fast) == 0;
    if (!agreed) {
        fprintf(stderr, "bench: %s: the open files differ, or a row is refused\n", name);
        exit(1);
    }
    take_back(&o->proved, o->counts, proved.counts);
    take_back(&o->fast, o->counts, fast.counts);
}

static double microseconds_opened(__typeof__(elk_open) *open, const struct opened *o, struct tables *t) {
    struct timespec start = now();
    opened_by(open, o->text, o->length, t);
    return microseconds_since(start);
}

/* The row is taken back before the next call, out of the time. */
static double microseconds_added(__typeof__(elk_add) *add, const struct opened *o, struct tables *t) {
    struct timespec start = now();
    struct elk_opened after = added_by(add, o, t);
    double time = microseconds_since(start);
    take_back(t, o->counts, after.counts);
    return time;
}

static double microseconds_previewed(__typeof__(elk_preview) *preview, const struct opened *o, const struct tables *t) {
    struct timespec start = now();
    previewed_by(preview, o, t);
    return microseconds_since(start);
}

static const struct {
    const char *shape, *opened, *added, *previewed;
} open_files[] = {
    {"short rows", "open, short", "add, short", "preview, short"},
    {"sides of 64", "open, wide", "add, wide", "preview, wide"},
    {"unst, 63 atoms", "open, unst", "add, unst", "preview, unst"},
    {"many formulas", "open, many", "add, many", "preview, many"},
};

void print_open_files(void) {
    static struct file file;
    static struct text text;
    static struct opened o;
    print_heading("open files");
    for (size_t i = 0; i < sizeof open_files / sizeof *open_files; i++) {
        int shape = 0;
        while (shape < SHAPES && strcmp(shapes[shape].name, open_files[i].shape) != 0)
            shape++;
        if (shape == SHAPES || !largest(&shapes[shape], MOST_BYTES, &file, &text)) {
            fprintf(stderr, "bench: %s: no such shape, or no file fits\n", open_files[i].shape);
            exit(1);
        }
        begin(open_files[i].opened, &text, &o);
        struct times added = {0}, previewed = {0}, opened = {0};
        for (int k = 0; k < REPETITIONS; k++)
            keep_best(&added, microseconds_added(elk_add, &o, &o.proved), microseconds_added(fast_add, &o, &o.fast));
        for (int k = 0; k < REPETITIONS; k++)
            keep_best(&previewed, microseconds_previewed(elk_preview, &o, &o.proved), microseconds_previewed(fast_preview, &o, &o.fast));
        for (int k = 0; k < REPETITIONS; k++)
            keep_best(&opened, microseconds_opened(elk_open, &o, &o.proved), microseconds_opened(fast_open, &o, &o.fast));
        print_times(open_files[i].opened, o.length, &file, opened);
        print_times(open_files[i].added, o.length - o.before_row, &file, added);
        print_times(open_files[i].previewed, o.length - o.before_row, &file, previewed);
    }
}
