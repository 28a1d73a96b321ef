/* The texts of the benchmark: files near the format's limits, in several shapes, texts made to be slow, and the lines that mean most. */
#ifndef SHAPES_H
#define SHAPES_H

#include <stdbool.h>
#include <stddef.h>

enum { MOST_BYTES = 65536, MOST_ATOMS = 64, MOST_FORMULAS = 1024, MOST_ROWS = 2048, MOST_ON_SIDE = 64, MOST_ENTRIES = 16384 };
enum { MOST_IN_MODEL = 16, IN_SWAP = 8 };

/* A set of formulas, or of atoms, by their numbers in rising order. */
struct side {
    int count;
    int formulas[MOST_ON_SIDE];
};

struct text {
    size_t length;
    char bytes[MOST_BYTES + 1];
};

/* The lines of each kind apart, so that formulas can be made as rows need them. */
struct file {
    bool in_runs;
    struct text atom_lines, formula_lines, row_lines;
    int atoms, formulas, rows, left_entries, right_entries;
    struct side last_left, last_right;
    bool modelled;
    struct side model;
};

/* A shape is written by one of the two functions. */
struct shape {
    const char *name;
    void (*write)(struct file *, int rounds);
    const char *told;    /* its name where it is told in words, if it is */
    bool in_runs;        /* its lists are */
    bool filled_in_runs; /* with the rows that fit so, and not only those that fit in plain lists */
    unsigned number;     /* that it earns */
    void (*write_over)(struct file *, int size, int rounds);
    int size;            /* how many atoms, or formulas to choose from */
};

enum { SHAPES = 12, WORST_CASES = 8, SLOW_MODELS = 5, SLOW_SWAPS = 7, LONG_LINES = 3 };

extern const struct shape shapes[SHAPES], worst_cases[WORST_CASES], slow_models[SLOW_MODELS], slow_swaps[SLOW_SWAPS];

/* A line with a list, and the number that it is refused with if the list is as many runs of 100,000 as a text has room for. */
struct long_line {
    const char *name, *before, *after;
    unsigned number;
};

extern const struct long_line long_lines[LONG_LINES];

/* Writes the file with the most rounds that fits into so many bytes, and tells whether there is one. */
bool largest(const struct shape *shape, size_t bytes, struct file *f, struct text *t);

/* Writes the line, with its list. */
void longest(const struct long_line *line, struct text *t);

#endif
