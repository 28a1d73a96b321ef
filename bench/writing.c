#include <stdarg.h>
#include <stdio.h>
#include <string.h>

#include "writing.h"

struct side with(struct side s, int formula) {
    int at = s.count;
    while (at > 0 && s.formulas[at - 1] > formula)
        at--;
    if (at > 0 && s.formulas[at - 1] == formula)
        return s;
    memmove(&s.formulas[at + 1], &s.formulas[at], (size_t)(s.count - at) * sizeof *s.formulas);
    s.formulas[at] = formula;
    s.count++;
    return s;
}

struct side without(struct side s, int formula) {
    struct side rest = {0};
    for (int i = 0; i < s.count; i++)
        if (s.formulas[i] != formula)
            rest.formulas[rest.count++] = s.formulas[i];
    return rest;
}

struct side one(int a) { return with((struct side){0}, a); }
struct side two(int a, int b) { return with(one(a), b); }
const struct side empty;

void put(struct text *t, const char *format, ...) {
    va_list arguments;
    va_start(arguments, format);
    size_t used = t->length < sizeof t->bytes ? t->length : sizeof t->bytes;
    t->length += (size_t)vsnprintf(t->bytes + used, sizeof t->bytes - used, format, arguments);
    va_end(arguments);
}

static void put_number(struct text *t, int number) {
    if (number == NONE)
        put(t, "\t-");
    else
        put(t, "\t%d", number);
}

void put_side(struct text *t, struct side s, bool in_runs) {
    put_number(t, s.count > 0 ? s.formulas[0] : NONE);
    for (int i = 1; i < s.count; i++) {
        int last = i;
        while (in_runs && last < s.count && s.formulas[last] == s.formulas[last - 1] + 1)
            last++;
        if (last > i) {
            put(t, "-%d", s.formulas[last - 1]);
            i = last;
        }
        if (i < s.count)
            put(t, ",%d", s.formulas[i]);
    }
}

int formula(struct file *f, const char *word, int first, int second) {
    struct text *t = &f->formula_lines;
    put(t, "F\t%d\t%s", f->formulas, word);
    put_number(t, first);
    put_number(t, second);
    put(t, "\n");
    return f->formulas++;
}

int negation(struct file *f, int a) { return formula(f, "not", a, NONE); }

int atom(struct file *f) {
    put(&f->atom_lines, "A\t%d\tatom_%d\n", f->atoms, f->atoms);
    return formula(f, "atom", f->atoms++, NONE);
}

int row(struct file *f, const char *rule, int principal, int first, int second, struct side left, struct side right) {
    struct text *t = &f->row_lines;
    put(t, "N\t%d\t%s", f->rows, rule);
    put_number(t, principal);
    put_number(t, first);
    if (second != NONE)
        put(t, ",%d", second);
    put_side(t, left, f->in_runs);
    put_side(t, right, f->in_runs);
    put(t, "\n");
    f->left_entries += left.count;
    f->right_entries += right.count;
    f->last_left = left;
    f->last_right = right;
    return f->rows++;
}

void model(struct file *f, struct side atoms) {
    f->modelled = true;
    f->model = atoms;
}

void close_with(struct file *f, int p) {
    row(f, "same", p, NONE, NONE, one(p), one(p));
    model(f, one(p));
}

int joined(struct file *f, const int *formulas, int count) {
    int whole = formulas[count - 1];
    for (int i = count - 2; i >= 0; i--)
        whole = formula(f, "and", formulas[i], whole);
    return whole;
}

void unstable_premises(struct file *f, struct unstable *u) {
    int others = joined(f, u->p + 1, u->atoms - 1);
    u->k = formula(f, "and", u->p[0], others);
    int e = joined(f, u->middle, u->atoms);
    int blocked = formula(f, "and", u->not_p[0], others);
    int not_blocked = negation(f, blocked);

    u->l = two(u->doubled[0], not_blocked);
    int last = row(f, "def", u->not_p[0], NONE, NONE, empty, with(two(u->not_p[0], blocked), u->k));
    last = row(f, "notl", u->doubled[0], last, NONE, one(u->doubled[0]), two(blocked, u->k));
    u->choice = row(f, "notl", not_blocked, last, NONE, u->l, one(u->k));

    struct side left = {0}, right = {0};
    for (int i = 0; i < u->atoms; i++)
        right = with(right, u->not_p[i]);
    last = row(f, "xini", NONE, NONE, NONE, left, with(right, u->p[0]));
    last = row(f, "xorr", u->middle[0], last, NONE, left, with(right, u->middle[0]));
    right = with(right, e);
    last = row(f, "xandr1", e, last, NONE, left, right);
    for (int i = 0; i < u->atoms; i++) {
        left = with(left, u->doubled[i]);
        right = without(right, u->not_p[i]);
        last = row(f, "xnnl", u->doubled[i], last, NONE, left, right);
    }
    u->lacking = last;
    u->refutation = row(f, "xnandl1", not_blocked, last, NONE, with(left, not_blocked), right);
}
