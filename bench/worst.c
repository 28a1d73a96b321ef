/* Worst cases: texts that were made to be slow, accepted and refused. Large models and rows of `swap` are slower by far and stand apart. */
#include "govelamuth.h"
#include "writing.h"

/* ---- rows whose premises are long, and that are short themselves */

/* The premises of unst over 63 atoms, the most that a short L can have: with 64 the second premise has room for a literal of each atom and
 * nothing else, so that L is all of these. Formulas of one kind are numbered one after the other, and sides are short runs; those of L
 * come early, since it stands in each row. */
static struct unstable most_unstable(struct file *f) {
    struct unstable u = {.atoms = IN_UNST};
    u.p[0] = atom(f);
    u.not_p[0] = negation(f, u.p[0]);
    u.doubled[0] = negation(f, u.not_p[0]);
    for (int i = 1; i < IN_UNST; i++)
        u.p[i] = atom(f);
    for (int i = 1; i < IN_UNST; i++)
        u.not_p[i] = negation(f, u.p[i]);
    for (int i = 1; i < IN_UNST; i++)
        u.doubled[i] = negation(f, u.not_p[i]);
    for (int i = 0; i < IN_UNST; i++)
        u.middle[i] = formula(f, "or", u.p[i], u.not_p[i]);
    unstable_premises(f, &u);
    return u;
}

static void unstable_row(struct file *f, const struct unstable *u) { row(f, "unst", NONE, u->choice, u->refutation, u->l, empty); }

static void most_unstable_rows(struct file *f, int rounds) {
    struct unstable u = most_unstable(f);
    for (int i = 0; i < rounds; i++)
        unstable_row(f, &u);
}

/* ---- sides that are looked through to their ends */

/* What rows of impl with 64 formulas on a side rest on: what the rule adds comes last, and ~A stands behind 62 other negations. */
struct wide {
    struct side left, right;
    int whole, first, second;
};

static struct wide wide_premises(struct file *f, const int *p, const int *not_p) {
    struct wide w = {.right = one(p[0])};
    for (int i = 0; i < MOST_ON_SIDE - 1; i++)
        w.left = with(w.left, p[i]);
    for (int i = 1; i < MOST_ON_SIDE - 1; i++)
        w.right = with(w.right, not_p[i]);
    int a = formula(f, "and", p[0], p[0]), b = formula(f, "or", p[0], p[0]), not_a = negation(f, a);
    w.whole = formula(f, "imp", a, b);
    w.first = row(f, "same", p[0], NONE, NONE, with(w.left, b), with(w.right, not_a));
    w.second = row(f, "same", p[0], NONE, NONE, w.left, with(w.right, a));
    return w;
}

static void wide_row(struct file *f, const struct wide *w) {
    row(f, "impl", w->whole, w->first, w->second, with(w->left, w->whole), w->right);
}

static void wide_rows(struct file *f, int rounds) {
    int p[MOST_ON_SIDE - 1], not_p[MOST_ON_SIDE - 1];
    for (int i = 0; i < MOST_ON_SIDE - 1; i++)
        p[i] = atom(f);
    for (int i = 1; i < MOST_ON_SIDE - 1; i++)
        not_p[i] = negation(f, p[i]);
    struct wide w = wide_premises(f, p, not_p);
    for (int i = 0; i < rounds; i++)
        wide_row(f, &w);
    close_with(f, p[0]);
}

/* ---- formulas that are nearly equal */

/* The proved library looks for an equal formula among those whose records have the same slot (crates/known/src/index.rt): the word, 31
 * times the first operand and 173 times the second, added up, modulo 1024. So with a word and one operand there is one other for a slot. */
enum { SLOTS = 1024, SLOT = 0, INVERSE_OF_31 = 991, INVERSE_OF_173 = 805 };

struct record {
    int word, first, second;
};

/* The records of the slot over the formulas that have been seen, and how many of them have been used. */
struct slot {
    int seen, count, used;
    struct record records[3 * SLOTS];
};

static void find_record(struct slot *s, struct record r) {
    if (r.first <= s->seen && r.second <= s->seen)
        s->records[s->count++] = r;
}

static int modulo_slots(int n) { return (int)((unsigned)n % SLOTS); }

/* Those that have the next formula for an operand. */
static void see_formula(struct slot *s) {
    for (int word = 3; word <= 5; word++) {
        int first = modulo_slots((SLOT - word - 173 * s->seen) * INVERSE_OF_31);
        int second = modulo_slots((SLOT - word - 31 * s->seen) * INVERSE_OF_173);
        find_record(s, (struct record){word, s->seen, second});
        if (first != s->seen)
            find_record(s, (struct record){word, first, s->seen});
    }
    s->seen++;
}

static void put_record(struct file *f, struct record r) {
    static const char *const words[] = {"bot", "atom", "not", "and", "or", "imp"};
    formula(f, words[r.word], r.first, r.second);
}

/* A new formula of the slot, or a negation as long as there is none. */
static void slotted_formula(struct file *f, struct slot *s) {
    while (s->seen < f->formulas && s->seen < MOST_FORMULAS)
        see_formula(s);
    if (s->used < s->count)
        put_record(f, s->records[s->used++]);
    else
        negation(f, f->formulas - 1);
}

static void one_slot(struct file *f, int rounds) {
    struct slot s = {0};
    int p = atom(f);
    for (int i = 0; i < rounds; i++)
        slotted_formula(f, &s);
    close_with(f, p);
}

/* The same with a last formula that equals the one that is looked at last. */
static void equal_formula(struct file *f, int rounds) {
    struct slot s = {0};
    atom(f);
    for (int i = 0; i < rounds; i++)
        slotted_formula(f, &s);
    put_record(f, s.records[0]);
}

/* Formulas that each join the one before with itself, so that the last would have 2 to the power of hundreds of parts. */
static void shared_halves(struct file *f, int rounds) {
    int p = atom(f), whole = p, last = row(f, "same", p, NONE, NONE, one(p), one(p));
    for (int i = 0; i < rounds; i++) {
        int half = whole;
        whole = formula(f, "and", half, half);
        last = row(f, "andl", whole, last, NONE, one(whole), one(half));
        last = row(f, "andr", whole, last, last, one(whole), one(whole));
    }
    close_with(f, p);
}

/* ---- names that are nearly equal */

/* Names of 24 bytes that differ in the last two; the last is the one before it again. */
static void names_alike(struct file *f, int rounds) {
    for (; f->atoms < rounds; f->atoms++)
        put(&f->atom_lines, "A\t%d\tthe_name_of_some_atom_%02d\n", f->atoms, f->atoms + 1 < rounds ? f->atoms : f->atoms - 1);
}

/* ---- the slowest of all */

/* Formulas of one slot, rows of unst and wide rows, in the proportions that were found slowest. */
static struct unstable slowest_rows(struct file *f, int rounds) {
    struct slot s = {0};
    struct unstable u = most_unstable(f);
    struct wide w = wide_premises(f, u.p, u.not_p);
    for (int i = 0; i < rounds; i++) {
        if (f->formulas < MOST_FORMULAS)
            slotted_formula(f, &s);
        if (i % 5 == 0)
            wide_row(f, &w);
        unstable_row(f, &u);
        unstable_row(f, &u);
    }
    return u;
}

static void slowest_accepted(struct file *f, int rounds) { slowest_rows(f, rounds); }

/* The same with a last row that is refused once its premises have been looked through: in the second a formula of L is missing. */
static void slowest_refused(struct file *f, int rounds) {
    struct unstable u = slowest_rows(f, rounds);
    row(f, "unst", NONE, u.choice, u.lacking, u.l, empty);
}

const struct shape worst_cases[WORST_CASES] = {
    {"unst, most rows", .write = most_unstable_rows, .in_runs = true, .filled_in_runs = true},
    {"wide impl", .write = wide_rows, .in_runs = true, .filled_in_runs = true},
    {"one slot", .write = one_slot},
    {"equal formula", .write = equal_formula, .number = ELK_FORMULA_AGAIN},
    {"shared halves", .write = shared_halves},
    {"names alike", .write = names_alike, .number = ELK_BAD_NAME},
    {"slowest accepted", .write = slowest_accepted, .in_runs = true, .filled_in_runs = true},
    {"slowest refused", .write = slowest_refused, .in_runs = true, .filled_in_runs = true, .number = ELK_WRONG_STEP},
};
