/* What the clients have in common: texts read from files, and texts and tables lent where nothing can be read past their ends. */
#ifndef LENT_H
#define LENT_H

#include <stdio.h>
#include <stdlib.h>
#include <string.h>
#include <sys/mman.h>

#include "govelamuth.h"

enum { NAMES, FORMULAS, ROWS, LEFT, RIGHT, TABLES };

static const char *const kinds[TABLES] = {"names", "formulas", "rows", "left", "right"};
static const size_t least[TABLES] = {128, 3072, 16384, 16384, 16384};

struct bytes {
    uint8_t *at;
    size_t length;
};

/* Ends the client where it cannot do its work. */
static inline void *needed(void *memory) {
    if (memory == NULL) {
        fputs("client: no memory\n", stderr);
        exit(2);
    }
    return memory;
}

/* All that can be read, with a zero behind it for reading numbers. */
static inline struct bytes read_whole(FILE *from, const char *name) {
    size_t room = 4096, count;
    struct bytes file = {needed(malloc(room)), 0};
    while ((count = fread(file.at + file.length, 1, room - file.length - 1, from)) > 0) {
        file.length += count;
        if (file.length == room - 1)
            file.at = needed(realloc(file.at, room *= 2));
    }
    if (ferror(from)) {
        fprintf(stderr, "client: cannot read %s\n", name);
        exit(2);
    }
    file.at[file.length] = 0;
    return file;
}

static inline struct bytes whole_file(const char *name) {
    FILE *from = fopen(name, "rb");
    if (from == NULL) {
        fprintf(stderr, "client: cannot read %s\n", name);
        exit(2);
    }
    struct bytes file = read_whole(from, name);
    fclose(from);
    return file;
}

/* Puts the text, where `\t`, `\n` and `\x` with two digits are one byte each, in the place of how the corpus lists it. */
static inline struct bytes read_back(char *listed, size_t length) {
    size_t written = 0;
    for (size_t at = 0; at < length; at++) {
        char byte = listed[at];
        if (byte == '\\') {
            at++;
            char digits[] = {listed[at + 1], listed[at + 2], 0};
            switch (listed[at]) {
            case 't': byte = '\t'; break;
            case 'n': byte = '\n'; break;
            case 'x': byte = (char)strtoul(digits, NULL, 16); at += 2; break;
            default: fprintf(stderr, "client: no byte is written %.2s\n", &listed[at - 1]); exit(1);
            }
        }
        listed[written++] = byte;
    }
    return (struct bytes){(uint8_t *)listed, written};
}

/* ---- lent memory: no sanitizer sees what the proved code reads, so it ends where a page begins that cannot be read or written */

enum { GUARD = 64, PAGES = 1 << 16 }; /* bytes: before the memory; and a multiple of any page's */

static inline size_t in_pages(size_t length) { return (length + GUARD + PAGES - 1) / PAGES * PAGES; }

/* So many bytes, and a guard before them, all of them one byte. */
static inline uint8_t *guarded(size_t length, uint8_t byte) {
    size_t size = in_pages(length);
    uint8_t *memory = mmap(NULL, size + PAGES, PROT_NONE, MAP_PRIVATE | MAP_ANONYMOUS, -1, 0);
    if (memory == MAP_FAILED || mprotect(memory, size, PROT_READ | PROT_WRITE) != 0)
        needed(NULL);
    memset(memory + size - length - GUARD, byte, GUARD + length);
    return memory + size - length;
}

static inline int guard_stands(const uint8_t *memory, uint8_t byte) {
    for (int i = 1; i <= GUARD; i++)
        if (memory[-i] != byte)
            return 0;
    return 1;
}

static inline void set_writable(uint8_t *memory, size_t length, int writable) {
    size_t size = in_pages(length);
    if (mprotect(memory + length - size, size, writable ? PROT_READ | PROT_WRITE : PROT_READ) != 0)
        needed(NULL);
}

static inline void unmap(uint8_t *memory, size_t length) {
    size_t size = in_pages(length);
    munmap(memory + length - size, size + PAGES);
}

/* The text as it is lent, until the next one is. */
static inline struct bytes lent_text(struct bytes text) {
    enum { ROOM = 1 << 20 };
    static uint8_t *room;
    if (room == NULL)
        room = guarded(ROOM, 0);
    if (text.length > ROOM)
        needed(NULL);
    uint8_t *at = room + ROOM - text.length;
    memmove(at, text.at, text.length);
    return (struct bytes){at, text.length};
}

static inline int all_zero(const uint8_t *memory, size_t length) {
    for (size_t i = 0; i < length; i++)
        if (memory[i] != 0)
            return 0;
    return 1;
}

/* Each table with a guard of the same byte as it held when it was lent. */
struct tables {
    size_t lengths[TABLES];
    uint8_t byte;
    uint8_t *at[TABLES];
};

static inline size_t size_of(const struct tables *tables, int i) { return tables->lengths[i] * sizeof(uint16_t); }

static inline struct tables lent_tables(const size_t lengths[TABLES], uint8_t byte) {
    struct tables tables = {.byte = byte};
    for (int i = 0; i < TABLES; i++) {
        tables.lengths[i] = lengths[i];
        tables.at[i] = guarded(size_of(&tables, i), byte);
    }
    return tables;
}

static inline void give_back(struct tables *tables) {
    for (int i = 0; i < TABLES; i++)
        unmap(tables->at[i], size_of(tables, i));
}

static inline uint16_t *numbers(const struct tables *tables, int i) { return (uint16_t *)(void *)tables->at[i]; }

static inline int tables_guarded(const struct tables *tables) {
    for (int i = 0; i < TABLES; i++)
        if (!guard_stands(tables->at[i], tables->byte))
            return 0;
    return 1;
}

static inline int tables_zero(const struct tables *tables) {
    for (int i = 0; i < TABLES; i++)
        if (!all_zero(tables->at[i], size_of(tables, i)))
            return 0;
    return 1;
}

/* Whether two sets of tables of the same lengths hold the same. */
static inline int tables_equal(const struct tables *a, const struct tables *b) {
    for (int i = 0; i < TABLES; i++)
        if (memcmp(a->at[i], b->at[i], size_of(a, i)) != 0)
            return 0;
    return 1;
}

static inline struct elk_answer checked(struct bytes text) {
    text = lent_text(text);
    return elk_check(text.at, text.length);
}

/* The text judged in the tables. */
static inline struct elk_answer judged(struct bytes text, const struct tables *t) {
    text = lent_text(text);
    return elk_judge(text.at, text.length, numbers(t, NAMES), t->lengths[NAMES], numbers(t, FORMULAS), t->lengths[FORMULAS],
                     numbers(t, ROWS), t->lengths[ROWS], numbers(t, LEFT), t->lengths[LEFT], numbers(t, RIGHT), t->lengths[RIGHT]);
}

static inline int same_answer(struct elk_answer a, struct elk_answer b) { return a.number == b.number && a.line == b.line; }

#endif
