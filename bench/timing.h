/* What the tables of the benchmark have in common: both checkers' lent tables, and their best times. */
#ifndef TIMING_H
#define TIMING_H

#include <stdio.h>
#include <stdlib.h>
#include <string.h>
#include <time.h>

#include "govelamuth.h"
#include "shapes.h"

/* The entries of fast.c, which is compiled under these names. */
__typeof__(elk_judge) fast_judge;
__typeof__(elk_words) fast_words;
__typeof__(elk_open) fast_open;
__typeof__(elk_add) fast_add;
__typeof__(elk_preview) fast_preview;

struct tables {
    uint16_t names[128], formulas[3 * MOST_FORMULAS], rows[8 * MOST_ROWS], left[MOST_ENTRIES], right[MOST_ENTRIES];
};

enum { REPETITIONS = 300 };

/* The best times of both, in microseconds. */
struct times {
    bool taken;
    double proved, fast;
};

static inline struct timespec now(void) {
    struct timespec time;
    clock_gettime(CLOCK_MONOTONIC, &time);
    return time;
}

static inline double microseconds_since(struct timespec start) {
    struct timespec end = now();
    return (double)(end.tv_sec - start.tv_sec) * 1e6 + (double)(end.tv_nsec - start.tv_nsec) / 1e3;
}

static inline void keep_best(struct times *best, double proved, double fast) {
    best->proved = !best->taken || proved < best->proved ? proved : best->proved;
    best->fast = !best->taken || fast < best->fast ? fast : best->fast;
    best->taken = true;
}

static inline void print_heading(const char *table) {
    printf("%-16s %7s %6s %9s %6s %10s %11s %7s\n", table, "bytes", "atoms", "formulas", "rows", "proved", "unverified", "ratio");
}

static inline void print_times(const char *name, size_t bytes, const struct file *f, struct times best) {
    printf("%-16s %7zu %6d %9d %6d %10.1f %11.1f %7.2f\n", name, bytes, f->atoms, f->formulas, f->rows, best.proved, best.fast,
           best.proved / best.fast);
}

/* Times beginnings opened and rows added and previewed. */
void print_open_files(void);

#endif
