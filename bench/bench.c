/* Times the proved checker beside the unverified one of fast.c, on accepted files near the format's limits: the same texts, lent
 * tables and process, through the same signature. Every call of either clears the tables first. Some files are also told in words, in
 * a lent text that these fill. Texts that were made to be slow, accepted and refused (worst.c), make a second table; files with the slowest
 * models and the slowest rows of `swap` that there are stand apart, since these take the most time by far; and so do lines that mean as
 * many entries as a line can, which are refused, and open files (open.c). */
#include "timing.h"

/* ---- both checkers on one text */

static struct elk_answer judged_by(__typeof__(elk_judge) *judge, const struct text *t, struct tables *lent) {
    return judge((const uint8_t *)t->bytes, t->length, lent->names, 128, lent->formulas, 3 * MOST_FORMULAS,
                 lent->rows, 8 * MOST_ROWS, lent->left, MOST_ENTRIES, lent->right, MOST_ENTRIES);
}

static struct tables proved_tables, fast_tables;

/* Both must answer with this number, the same line and the same tables. */
static void agree(const char *name, const struct text *t, unsigned number) {
    memset(&proved_tables, 0x5a, sizeof proved_tables);
    memset(&fast_tables, 0xa5, sizeof fast_tables);
    struct elk_answer proved = judged_by(elk_judge, t, &proved_tables), fast = judged_by(fast_judge, t, &fast_tables);
    if (proved.number != number || fast.number != number) {
        fprintf(stderr, "bench: %s, %zu bytes: expected %u, proved %u at line %u, unverified %u at line %u\n", name, t->length, number,
                proved.number, proved.line, fast.number, fast.line);
        exit(1);
    }
    if (proved.line != fast.line || memcmp(&proved_tables, &fast_tables, sizeof proved_tables) != 0) {
        fprintf(stderr, "bench: %s, %zu bytes: the line or the tables differ\n", name, t->length);
        exit(1);
    }
}

static double microseconds(__typeof__(elk_judge) *judge, const struct text *t, struct tables *lent) {
    struct timespec start = now();
    judged_by(judge, t, lent);
    return microseconds_since(start);
}

enum { MODEL_REPETITIONS = 5, SIZES = 4 };

/* Both are taken in turn. */
static struct times times_of(const struct text *t, int repetitions) {
    struct times best = {0};
    for (int i = 0; i < repetitions; i++) {
        double proved = microseconds(elk_judge, t, &proved_tables), fast = microseconds(fast_judge, t, &fast_tables);
        keep_best(&best, proved, fast);
    }
    return best;
}

/* ---- both writers on one text */

/* Words grow faster than their file where formulas nest, so the files that are told are smaller ones. */
enum { TOLD_BYTES = MOST_BYTES / 4, MOST_WORDS = 1 << 20 };

static uint8_t proved_words[MOST_WORDS], fast_written[MOST_WORDS];

static struct elk_answer told_by(__typeof__(elk_words) *tell, const struct text *t, struct tables *lent, uint8_t *words, size_t length) {
    return tell((const uint8_t *)t->bytes, t->length, lent->names, 128, lent->formulas, 3 * MOST_FORMULAS, lent->rows, 8 * MOST_ROWS,
                lent->left, MOST_ENTRIES, lent->right, MOST_ENTRIES, words, length);
}

/* The length of the words, which both must write alike. */
static size_t agreed_words(const struct shape *shape, const struct text *t) {
    struct elk_answer fast = told_by(fast_words, t, &fast_tables, fast_written, MOST_WORDS);
    size_t length = fast.number == 0 ? strnlen((const char *)fast_written, MOST_WORDS) : 0;
    memset(proved_words, 0xa5, sizeof proved_words);
    struct elk_answer proved = told_by(elk_words, t, &proved_tables, proved_words, length);
    if (fast.number != 0 || proved.number != 0 || memcmp(proved_words, fast_written, length) != 0) {
        fprintf(stderr, "bench: %s: the words differ, proved %u, unverified %u\n", shape->told, proved.number, fast.number);
        exit(1);
    }
    return length;
}

static double microseconds_told(__typeof__(elk_words) *tell, const struct text *t, struct tables *lent, uint8_t *words, size_t length) {
    struct timespec start = now();
    told_by(tell, t, lent, words, length);
    return microseconds_since(start);
}

static struct times times_told(const struct text *t, size_t length) {
    struct times best = {0};
    for (int i = 0; i < REPETITIONS; i++) {
        double proved = microseconds_told(elk_words, t, &proved_tables, proved_words, length);
        double fast = microseconds_told(fast_words, t, &fast_tables, fast_written, length);
        keep_best(&best, proved, fast);
    }
    return best;
}

/* The times of the largest files of each shape within each size; those within the last are printed. A shape whose first rows alone are
 * larger than a size has no time there, and one that comes to another limit first grows no more. */
static void print_sizes(const char *table, const struct shape *of, int count, struct times (*times)[SIZES]) {
    static struct file file;
    static struct text text;
    print_heading(table);
    for (int i = 0; i < count; i++)
        for (int j = 0; j < SIZES; j++) {
            bool full_size = j == SIZES - 1;
            if (!largest(&of[i], (size_t)MOST_BYTES >> (SIZES - 1 - j), &file, &text)) {
                if (full_size) {
                    fprintf(stderr, "bench: %s: no file fits\n", of[i].name);
                    exit(1);
                }
                continue;
            }
            agree(of[i].name, &text, of[i].number);
            times[i][j] = times_of(&text, REPETITIONS);
            if (full_size)
                print_times(of[i].name, text.length, &file, times[i][j]);
        }
}

static void print_growth(const struct shape *of, int count, struct times (*times)[SIZES]) {
    for (int i = 0; i < count; i++)
        for (int fast = 0; fast < 2; fast++) {
            printf("%-17s %-11s", fast ? "" : of[i].name, fast ? "unverified" : "proved");
            for (int j = 0; j < SIZES; j++)
                if (times[i][j].taken)
                    printf(" %10.1f", fast ? times[i][j].fast : times[i][j].proved);
                else
                    printf(" %10s", "-");
            printf("\n");
        }
}

/* The largest files of shapes that take far longer than others. */
static void print_slow(const char *table, const struct shape *slow, int count, int repetitions) {
    static struct file file;
    static struct text text;
    printf("\n");
    print_heading(table);
    for (int i = 0; i < count; i++) {
        if (!largest(&slow[i], MOST_BYTES, &file, &text)) {
            fprintf(stderr, "bench: %s: no file fits\n", slow[i].name);
            exit(1);
        }
        agree(slow[i].name, &text, slow[i].number);
        print_times(slow[i].name, text.length, &file, times_of(&text, repetitions));
    }
}

/* With the word `swaps`, the slowest rows of that rule alone: they take seconds together. */
int main(int words, char **word) {
    static struct file file;
    static struct text text;
    static struct times times[SHAPES][SIZES], worst_times[WORST_CASES][SIZES];
    if (words > 1 && strcmp(word[1], "swaps") == 0) {
        print_slow("slowest swaps", slow_swaps, SLOW_SWAPS, 1);
        return 0;
    }
    printf("Microseconds of one call, the best of %d. Every call clears the five lent tables first, on both sides.\n\n", REPETITIONS);
    print_sizes("largest files", shapes, SHAPES, times);
    for (int i = 0; i < SHAPES; i++)
        if (shapes[i].told != NULL && largest(&shapes[i], TOLD_BYTES, &file, &text)) {
            size_t length = agreed_words(&shapes[i], &text);
            print_times(shapes[i].told, length, &file, times_told(&text, length));
        }

    printf("\n");
    print_sizes("worst cases", worst_cases, WORST_CASES, worst_times);

    printf("\n%-17s %-11s", "as the text grows", "");
    for (int j = 0; j < SIZES; j++)
        printf(" %6d KiB", MOST_BYTES >> (SIZES - 1 - j) >> 10);
    printf("\n");
    print_growth(shapes, SHAPES, times);
    print_growth(worst_cases, WORST_CASES, worst_times);

    print_slow("slowest models", slow_models, SLOW_MODELS, MODEL_REPETITIONS);

    printf("\n");
    print_heading("longest lines");
    memset(&file, 0, sizeof file);
    for (int i = 0; i < LONG_LINES; i++) {
        longest(&long_lines[i], &text);
        agree(long_lines[i].name, &text, long_lines[i].number);
        print_times(long_lines[i].name, text.length, &file, times_of(&text, REPETITIONS));
    }

    printf("\n");
    print_open_files();
    return 0;
}
