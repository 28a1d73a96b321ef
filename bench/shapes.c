#include <string.h>

#include "govelamuth.h"
#include "writing.h"

/* ---- shapes: each writes an accepted derivation of so many rounds, and the last row is an ELK row to claim, with a model or as a
 * contradiction */

/* Every ELK rule but unst, on short sides. */
static void short_rows(struct file *f, int rounds) {
    int p = atom(f), q = atom(f), r = atom(f), s = atom(f);
    int bot = formula(f, "bot", NONE, NONE);
    int not_p = negation(f, p);
    int p_and_q = formula(f, "and", p, q);
    int p_or_q = formula(f, "or", p, q);
    int p_imp_q = formula(f, "imp", p, q);
    struct side left = two(r, s), right = two(r, bot);
    struct side left_p = with(left, p), left_q = with(left, q), left_pq = with(left_p, q);
    struct side right_p = with(right, p), right_q = with(right, q), right_pq = with(right_p, q);
    for (int i = 0; i < rounds; i++) {
        int p_p = row(f, "same", p, NONE, NONE, left_p, right_p);
        int p_pq = row(f, "wr", q, p_p, NONE, left_p, right_pq);
        int q_pq = row(f, "same", q, NONE, NONE, left_q, right_pq);
        row(f, "orr", p_or_q, p_pq, NONE, left_p, with(right, p_or_q));
        row(f, "orl", p_or_q, p_pq, q_pq, with(left, p_or_q), right_pq);
        int pq_p = row(f, "same", p, NONE, NONE, left_pq, right_p);
        int pq_q = row(f, "same", q, NONE, NONE, left_pq, right_q);
        int pq_and = row(f, "andr", p_and_q, pq_p, pq_q, left_pq, with(right, p_and_q));
        row(f, "andl", p_and_q, pq_and, NONE, with(left, p_and_q), with(right, p_and_q));
        row(f, "impr", p_imp_q, pq_q, NONE, left_q, with(right, p_imp_q));
        int pq_q_not_p = row(f, "wr", not_p, pq_q, NONE, left_pq, with(right_q, not_p));
        row(f, "impl", p_imp_q, pq_q_not_p, p_pq, with(left_p, p_imp_q), right_q);
        row(f, "notl", not_p, p_pq, NONE, with(left_p, not_p), right_q);
        int q_p_not_p = row(f, "notr", not_p, pq_p, NONE, left_q, with(right_p, not_p));
        row(f, "rcut", p, q_p_not_p, pq_q, left_q, with(right_q, not_p));
        int q_not_p = row(f, "def", not_p, NONE, NONE, left_q, with(right, not_p));
        row(f, "bot", bot, q_not_p, NONE, left_q, with(one(r), not_p));
    }
    model(f, left_q);
}

/* Sides of 62 to 64 formulas, with one premise and with two. */
static void wide_sides(struct file *f, int rounds) {
    struct side left = {0}, right = {0};
    for (int i = 0; i < MOST_ON_SIDE; i++)
        left = with(left, atom(f));
    for (int i = 0; i < MOST_ON_SIDE - 2; i++)
        right = with(right, negation(f, left.formulas[i]));
    int a = left.formulas[MOST_ON_SIDE - 2], b = left.formulas[MOST_ON_SIDE - 1];
    int both = formula(f, "and", a, b);
    for (int i = 0; i < rounds; i++) {
        int with_a = row(f, "same", a, NONE, NONE, left, with(right, a));
        int with_b = row(f, "same", b, NONE, NONE, left, with(right, b));
        int with_both = row(f, "andr", both, with_a, with_b, left, with(right, both));
        row(f, "wr", a, with_both, NONE, left, with(with(right, both), a));
        row(f, "rcut", b, with_b, with_both, left, with(right, both));
    }
    close_with(f, a);
}

/* Negations nested as deep as there are rounds, each row on the one before. */
static void deep_chain(struct file *f, int rounds) {
    int p = atom(f), a = p;
    int last = row(f, "same", a, NONE, NONE, one(a), one(a));
    for (int i = 0; i < rounds; i++) {
        int not_a = negation(f, a);
        last = row(f, "notl", not_a, last, NONE, two(a, not_a), empty);
        last = row(f, "notr", not_a, last, NONE, one(not_a), one(not_a));
        a = not_a;
    }
    close_with(f, p);
}

/* Short rows of unst with long tests; the last row claims that L has no equilibrium model. */
static void unstable_rows(struct file *f, int atoms, int rounds) {
    struct unstable u = {.atoms = atoms};
    for (int i = 0; i < atoms; i++) {
        u.p[i] = atom(f);
        u.not_p[i] = negation(f, u.p[i]);
        u.doubled[i] = negation(f, u.not_p[i]);
        u.middle[i] = formula(f, "or", u.p[i], u.not_p[i]);
    }
    unstable_premises(f, &u);
    for (int i = 0; i < rounds; i++)
        row(f, "unst", NONE, u.choice, u.refutation, u.l, two(u.k, u.p[i % atoms]));
    row(f, "unst", NONE, u.choice, u.refutation, u.l, empty);
}

/* Two refutations that wrap one formula deeper and deeper, the second under a negation, among literals on both sides. */
static void refutations(struct file *f, int rounds) {
    int x = atom(f), y = atom(f), a = atom(f), b = atom(f), c = atom(f), d = atom(f), n = negation(f, y);
    struct side left = two(a, negation(f, b)), right = two(d, negation(f, c));
    for (int i = 0; i < 6; i++) {
        left = with(left, atom(f));
        right = with(right, negation(f, left.formulas[left.count - 1]));
    }
    int last = row(f, "xini", NONE, NONE, NONE, left, with(right, x));
    int last_negated = row(f, "xini", NONE, NONE, NONE, with(left, n), right);
    for (int i = 0; i < rounds; i++) {
        x = formula(f, "and", x, c);
        last = row(f, "xandr1", x, last, NONE, left, with(right, x));
        x = formula(f, "or", x, d);
        last = row(f, "xorr", x, last, NONE, left, with(right, x));
        x = formula(f, "imp", a, x);
        last = row(f, "ximpr1", x, last, NONE, left, with(right, x));
        x = formula(f, "imp", x, c);
        last = row(f, "ximpl1", x, last, NONE, with(left, x), right);
        x = formula(f, "and", x, a);
        last = row(f, "xandl", x, last, NONE, with(left, x), right);
        x = formula(f, "or", x, c);
        last = row(f, "xorl1", x, last, NONE, with(left, x), right);
        x = formula(f, "imp", c, x);
        last = row(f, "ximpl2", x, last, NONE, with(left, x), right);
        x = formula(f, "imp", x, d);
        last = row(f, "ximpr1", x, last, NONE, left, with(right, x));

        n = negation(f, y = formula(f, "and", y, c));
        last_negated = row(f, "xnandl1", n, last_negated, NONE, with(left, n), right);
        n = negation(f, y = formula(f, "or", y, b));
        last_negated = row(f, "xnorl", n, last_negated, NONE, with(left, n), right);
        n = negation(f, y = formula(f, "imp", c, y));
        last_negated = row(f, "xnimpl", n, last_negated, NONE, with(left, n), right);
        n = negation(f, y = n);
        last_negated = row(f, "xnnr", n, last_negated, NONE, left, with(right, n));
        n = negation(f, y = formula(f, "and", y, c));
        last_negated = row(f, "xnandr", n, last_negated, NONE, left, with(right, n));
        n = negation(f, y = formula(f, "or", y, a));
        last_negated = row(f, "xnorr1", n, last_negated, NONE, left, with(right, n));
        n = negation(f, y = formula(f, "imp", a, y));
        last_negated = row(f, "xnimpr2", n, last_negated, NONE, left, with(right, n));
        n = negation(f, y = n);
        last_negated = row(f, "xnnl", n, last_negated, NONE, with(left, n), right);
    }
    close_with(f, a);
}

/* A formula and two rows each round, to 1,024 formulas and 2,048 rows. */
static void many_formulas(struct file *f, int rounds) {
    static const char *const words[] = {"and", "or", "imp"};
    int p = atom(f), newest = p;
    for (int i = 0; i < rounds; i++) {
        row(f, "same", p, NONE, NONE, one(p), one(p));
        row(f, "wr", newest, 0, NONE, one(p), two(p, newest));
        if (i + 1 < rounds)
            newest = formula(f, words[i % 3], i % 2 ? p : newest, i % 2 ? newest : p);
    }
    model(f, one(p));
}

/* Rows of xini with 64 literals on either side: of each atom one of p and ~p on the left, and the other on the right. */
static void long_initial_rows(struct file *f, int rounds) {
    int literals[2][MOST_ATOMS];
    for (int i = 0; i < MOST_ATOMS; i++)
        literals[0][i] = atom(f);
    for (int i = 0; i < MOST_ATOMS; i++)
        literals[1][i] = negation(f, literals[0][i]);
    for (int k = 0; k < rounds; k++) {
        struct side left = {0}, right = {0};
        for (int i = 0; i < MOST_ATOMS; i++) {
            int negated = (i + k) % 3 == 0;
            left = with(left, literals[negated][i]);
            right = with(right, literals[!negated][i]);
        }
        row(f, "xini", NONE, NONE, NONE, left, right);
    }
    close_with(f, literals[0][0]);
}

/* Rows of rcut alone but for their premises, with 2, 4, 8 and 16 formulas on either side by turns: half of the right side is the first
 * premise's, and half is the second's. */
static void cut_rows(struct file *f, int rounds) {
    enum { LENGTHS = 4, LONGEST = 2 << (LENGTHS - 1) };
    int p[LONGEST], first[LENGTHS], second[LENGTHS];
    for (int i = 0; i < LONGEST; i++)
        p[i] = atom(f);
    int cut = atom(f);
    struct side all[LENGTHS] = {0};
    for (int k = 0; k < LENGTHS; k++) {
        struct side halves[2] = {{0}};
        for (int i = 0; i < 2 << k; i++) {
            all[k] = with(all[k], p[i]);
            halves[i % 2] = with(halves[i % 2], p[i]);
        }
        first[k] = row(f, "same", p[0], NONE, NONE, all[k], with(halves[0], cut));
        second[k] = row(f, "same", p[1], NONE, NONE, with(all[k], cut), halves[1]);
    }
    for (int i = 0; i < rounds; i++)
        for (int k = 0; k < LENGTHS; k++)
            row(f, "rcut", cut, first[k], second[k], all[k], all[k]);
    close_with(f, p[0]);
}

/* The shortest row that there is, as often as it goes. */
static void most_rows(struct file *f, int rounds) {
    int not_p = negation(f, atom(f));
    int first = row(f, "def", not_p, NONE, NONE, empty, one(not_p));
    for (int i = 0; i < rounds; i++)
        row(f, "wr", not_p, first, NONE, empty, one(not_p));
    model(f, empty);
}

/* A sheet of one formula that rests on all others, each on the one before it, with all atoms as its model: every proper part must be
 * tried, and fails by the last formula alone, which asks for all atoms. */
static void slow_model(struct file *f, int atoms, int rounds) {
    static const char *const words[] = {"and", "or", "imp"};
    int p[MOST_IN_MODEL] = {0};
    struct side all = {0};
    for (int i = 0; i < atoms; i++)
        all = with(all, p[i] = atom(f));
    int every = joined(f, p, atoms), newest = p[0];
    for (int i = 0; i < rounds; i++)
        newest = formula(f, words[i % 3], i % 2 ? p[i % atoms] : newest, i % 2 ? newest : p[i % atoms]);
    int sheet = formula(f, "and", newest, every);
    row(f, "same", sheet, NONE, NONE, one(sheet), one(sheet));
    model(f, all);
}

/* Small formulas in the place of equal ones, over three atoms. */
static void swapped_rows(struct file *f, int rounds) {
    int p = atom(f), q = atom(f), r = atom(f);
    int bot = formula(f, "bot", NONE, NONE);
    int not_p = negation(f, p), thrice = negation(f, negation(f, not_p));
    int never = formula(f, "and", p, not_p);
    int p_or_q = formula(f, "or", p, q), q_or_p = formula(f, "or", q, p);
    int first = formula(f, "imp", formula(f, "imp", p, q), q), second = formula(f, "imp", formula(f, "imp", q, p), p);
    int implied = formula(f, "and", first, second);
    int p_and_q = formula(f, "and", p, q), p_and_r = formula(f, "and", p, r);
    int joined = formula(f, "and", p, formula(f, "or", q, r)), apart = formula(f, "or", p_and_q, p_and_r);
    struct side right = two(r, bot);
    for (int i = 0; i < rounds; i++) {
        int last = row(f, "same", r, NONE, NONE, two(r, p_or_q), right);
        last = row(f, "swap", q_or_p, last, NONE, two(r, q_or_p), right);
        last = row(f, "swap", implied, last, NONE, two(r, implied), right);
        row(f, "swap", p_or_q, last, NONE, with(two(r, implied), p_or_q), right);
        last = row(f, "same", r, NONE, NONE, with(two(r, not_p), joined), right);
        last = row(f, "swap", thrice, last, NONE, with(two(r, thrice), joined), right);
        row(f, "swap", apart, last, NONE, with(two(r, thrice), apart), right);
        last = row(f, "same", bot, NONE, NONE, one(bot), right);
        row(f, "swap", never, last, NONE, one(never), right);
    }
    close_with(f, p);
}

/* What slow rows of `swap` are made of: up to 63 formulas to choose from, all on the left of a first row; one for which the last of them
 * will do, and one for which none will. */
struct choice {
    struct side from;
    int first, fits, differs;
};

/* Each formula rests on hundreds of others. The one that fits never holds, and neither does the last to choose from; the others hold in
 * the one pair in which H has all of their atoms: the same eight, or seven and one of its own where the file has 64. */
static struct choice slow_choice(struct file *f, int atoms) {
    static const char *const words[] = {"and", "or", "imp"};
    enum { UNEQUAL = MOST_ON_SIDE - 2 };
    int p[MOST_ATOMS] = {0}, chain[MOST_FORMULAS], held[UNEQUAL], always[UNEQUAL];
    int common = atoms > IN_SWAP ? IN_SWAP - 1 : IN_SWAP, own = atoms - common;
    for (int i = 0; i < atoms; i++)
        p[i] = atom(f);
    int bot = formula(f, "bot", NONE, NONE), every = joined(f, p, common);
    for (int i = 0; i < UNEQUAL; i++)
        held[i] = own == 0 ? every : i < own ? formula(f, "and", p[common + i], every) : formula(f, "and", every, p[common + i - own]);
    int length = MOST_FORMULAS - f->formulas - 2 * UNEQUAL - 5, newest = p[0];
    for (int i = 0; i < length; i++)
        chain[i] = newest = formula(f, words[i % 3], i % 2 ? p[i % common] : newest, i % 2 ? newest : p[i % common]);
    for (int i = 0; i < UNEQUAL; i++)
        always[i] = formula(f, "imp", bot, chain[length - 1 - i]);
    struct choice c = {.fits = formula(f, "and", newest, bot)};
    c.differs = formula(f, "and", negation(f, negation(f, every)), always[0]);
    for (int i = 0; i < UNEQUAL; i++)
        c.from = with(c.from, formula(f, "and", always[i], held[i]));
    c.from = with(c.from, formula(f, "and", bot, newest));
    c.first = row(f, "same", c.from.formulas[0], NONE, NONE, c.from, one(c.from.formulas[0]));
    return c;
}

static void slow_swap(struct file *f, const struct choice *c, int a) {
    row(f, "swap", a, c->first, NONE, with(c->from, a), one(c->from.formulas[0]));
}

static void slow_rows(struct file *f, const struct choice *c, int rounds) {
    for (int i = 0; i < rounds; i++)
        slow_swap(f, c, c->fits);
}

static void accept(struct file *f, const struct choice *c, int rounds) {
    slow_rows(f, c, rounds);
    close_with(f, 0);
}

static void accepted_swaps(struct file *f, int atoms, int rounds) {
    struct choice c = slow_choice(f, atoms);
    accept(f, &c, rounds);
}

/* The same with a last row that is refused. */
static void refused_swaps(struct file *f, int atoms, int rounds) {
    struct choice c = slow_choice(f, atoms);
    slow_rows(f, &c, rounds - 1);
    slow_swap(f, &c, c.differs);
}

/* A formula that rests on so many others, each on the one before it. Their words are drawn, and do not come in turn: a processor guesses a
 * branch by those before it, and then often guesses wrong what is to be done for the next formula. */
static int irregular_chain(struct file *f, int bot, int length) {
    static const char *const words[] = {"and", "or", "imp"};
    int newest = bot;
    unsigned drawn = 1;
    for (int i = 0; i < length; i++) {
        newest = formula(f, words[drawn % 3], newest, bot);
        drawn = drawn * 75 % 65537;
    }
    return newest;
}

/* Sets of eight of sixteen atoms, against checkers that judge candidates together where their atoms can share places. By turns they are a
 * set and the rest. These two share eight places, in rising order; all later ones then have two atoms at one place, so that two at a time
 * is the most, and two can always share places. */
enum { POOL = 2 * IN_SWAP, WHOLE_POOL = (1 << POOL) - 1 };

/* The next number with as many bits. */
static unsigned next_set(unsigned set) {
    unsigned lowest = set & -set, carried = set + lowest;
    return carried | (set ^ carried) / lowest >> 2;
}

/* Whether the second set has two atoms at one place, where the first and its rest share the places. */
static bool clash(unsigned first, unsigned second) {
    bool found = false;
    for (unsigned rest = WHOLE_POOL & ~first; rest != 0; first &= first - 1, rest &= rest - 1)
        found = found || ((second & first & -first) != 0 && (second & rest & -rest) != 0);
    return found;
}

static void clashing_sets(unsigned *sets, int count) {
    unsigned set = (1u << IN_SWAP) - 1;
    for (int found = 0; found < count; set = next_set(set)) {
        bool clashes = true;
        for (int i = 0; i < found; i += 2)
            clashes = clashes && clash(sets[i], set);
        if (clashes) {
            sets[found++] = set;
            if (found < count)
                sets[found++] = WHOLE_POOL & ~set;
        }
    }
}

/* The conjunction of a set of atoms, nested to the right; sets share what they end in. */
static int joint(struct file *f, const int *atoms, unsigned set, int *known) {
    unsigned others = set & (set - 1);
    int lowest = atoms[__builtin_ctz(set)];
    if (others == 0)
        return lowest;
    if (known[set] == 0) {
        int rest = joint(f, atoms, others, known);
        known[set] = formula(f, "and", lowest, rest);
    }
    return known[set];
}

/* All formulas to choose from rest on the same hundreds of others. The last never holds, as the one that fits, which is falsum; the others
 * hold in the one pair in which H has all of their atoms. */
static struct choice clashing_choice(struct file *f, int candidates) {
    unsigned sets[MOST_ON_SIDE];
    int pool[POOL], held[MOST_ON_SIDE], known[WHOLE_POOL + 1] = {0};
    for (int i = 0; i < POOL; i++)
        pool[i] = atom(f);
    clashing_sets(sets, candidates);
    for (int i = 0; i < candidates; i++)
        held[i] = joint(f, pool, sets[i], known);
    int bot = formula(f, "bot", NONE, NONE);
    int newest = irregular_chain(f, bot, MOST_FORMULAS - f->formulas - candidates - 2);
    int always = formula(f, "imp", bot, newest), never = formula(f, "and", bot, newest);
    struct choice c = {.fits = bot};
    for (int i = 0; i < candidates; i++)
        c.from = with(c.from, formula(f, "and", i + 1 < candidates ? always : never, held[i]));
    c.first = row(f, "same", c.from.formulas[0], NONE, NONE, c.from, one(c.from.formulas[0]));
    return c;
}

static void clashing_swaps(struct file *f, int candidates, int rounds) {
    struct choice c = clashing_choice(f, candidates);
    accept(f, &c, rounds);
}

/* The same, with a claim whose model has all sixteen atoms and is tried part by part: the slowest file of all. */
static void modelled_swaps(struct file *f, int candidates, int rounds) {
    struct choice c = clashing_choice(f, candidates);
    slow_rows(f, &c, rounds);
    int a = c.from.formulas[0], b = c.from.formulas[1];
    row(f, "same", a, NONE, NONE, two(a, b), one(a));
    struct side all = {0};
    for (int i = 0; i < POOL; i++)
        all = with(all, i);
    model(f, all);
}

/* Falsum in the place of a formula that rests on all others, over eight atoms, and never holds: one to choose from, and the most rows. */
static void lone_swaps(struct file *f, int rounds) {
    int p[IN_SWAP];
    for (int i = 0; i < IN_SWAP; i++)
        p[i] = atom(f);
    int bot = formula(f, "bot", NONE, NONE), every = joined(f, p, IN_SWAP);
    int newest = irregular_chain(f, bot, MOST_FORMULAS - f->formulas - 2);
    int never = formula(f, "and", bot, formula(f, "and", newest, every));
    int first = row(f, "same", never, NONE, NONE, one(never), one(never));
    for (int i = 0; i < rounds; i++)
        row(f, "swap", bot, first, NONE, one(bot), one(never));
    close_with(f, p[0]);
}

const struct shape shapes[SHAPES] = {
    {"short rows", .write = short_rows, .told = "words, short"},
    {"sides of 64", .write = wide_sides, .told = "words, wide"},
    {"the same in runs", .write = wide_sides, .in_runs = true},
    {"deep chain", .write = deep_chain},
    {"unst, 16 atoms", .write_over = unstable_rows, .size = 16},
    {"unst, 63 atoms", .write_over = unstable_rows, .size = 63},
    {"refutations", .write = refutations, .told = "words, nested"},
    {"many formulas", .write = many_formulas},
    {"swaps", .write = swapped_rows},
    {"long xini", .write = long_initial_rows},
    {"cuts", .write = cut_rows},
    {"most rows", .write = most_rows},
};

const struct shape slow_models[SLOW_MODELS] = {
    {"model of 8", .write_over = slow_model, .size = 8},
    {"model of 10", .write_over = slow_model, .size = 10},
    {"model of 12", .write_over = slow_model, .size = 12},
    {"model of 14", .write_over = slow_model, .size = 14},
    {"model of 16", .write_over = slow_model, .size = MOST_IN_MODEL},
};

/* The fewer formulas to choose from, the more each can rest on. With 11 the left pool is still full; with fewer the text is full before. */
const struct shape slow_swaps[SLOW_SWAPS] = {
    {"accepted", .write_over = accepted_swaps, .size = IN_SWAP, .in_runs = true, .filled_in_runs = true},
    {"refused", .write_over = refused_swaps, .size = IN_SWAP, .in_runs = true, .filled_in_runs = true, .number = ELK_WRONG_STEP},
    {"own atoms", .write_over = accepted_swaps, .size = 64, .in_runs = true, .filled_in_runs = true},
    {"clashing atoms", .write_over = clashing_swaps, .size = MOST_ON_SIDE - 1, .in_runs = true, .filled_in_runs = true},
    {"clashing, 11", .write_over = clashing_swaps, .size = 11, .in_runs = true, .filled_in_runs = true},
    {"and a model", .write_over = modelled_swaps, .size = 11, .in_runs = true, .filled_in_runs = true},
    {"one candidate", .write = lone_swaps},
};

const struct long_line long_lines[LONG_LINES] = {
    {"row of runs", "N\t0\tsame\t0\t-\t", "\t-\n", ELK_FULL},
    {"claim of runs", "C\t", "\t-\n", ELK_NO_SUCH_ITEM},
    {"model of runs", "M\t", "\n", ELK_NO_SUCH_ITEM},
};

/* ---- the largest file of a shape */

/* The whole text of a derivation, with its last row as the claim. */
static void assemble(const struct file *f, struct text *t) {
    t->length = 0;
    put(t, "%s%s%s", f->atom_lines.bytes, f->formula_lines.bytes, f->row_lines.bytes);
    if (f->modelled) {
        put(t, "M");
        put_side(t, f->model, f->in_runs);
        put(t, "\n");
    }
    put(t, "C");
    put_side(t, f->last_left, f->in_runs);
    put_side(t, f->last_right, f->in_runs);
    put(t, "\n");
}

static void write_file(const struct shape *shape, int rounds, bool in_runs, struct file *f, struct text *t) {
    memset(f, 0, sizeof *f);
    f->in_runs = in_runs;
    if (shape->write_over != NULL)
        shape->write_over(f, shape->size, rounds);
    else
        shape->write(f, rounds);
    assemble(f, t);
}

/* Writes the file, and tells whether it keeps to the format's limits and to so many bytes. */
static bool fits(const struct shape *shape, int rounds, size_t bytes, struct file *f, struct text *t) {
    write_file(shape, rounds, shape->filled_in_runs, f, t);
    bool whole = f->atom_lines.length <= bytes && f->formula_lines.length <= bytes && f->row_lines.length <= bytes;
    return whole && t->length <= bytes && f->atoms <= MOST_ATOMS && f->formulas <= MOST_FORMULAS && f->rows <= MOST_ROWS
        && f->left_entries <= MOST_ENTRIES && f->right_entries <= MOST_ENTRIES;
}

bool largest(const struct shape *shape, size_t bytes, struct file *f, struct text *t) {
    int rounds = 0;
    for (int more = MOST_ROWS; more > 0; more /= 2)
        if (fits(shape, rounds + more, bytes, f, t))
            rounds += more;
    if (rounds > 0)
        write_file(shape, rounds, shape->in_runs, f, t);
    return rounds > 0;
}

void longest(const struct long_line *line, struct text *t) {
    static const char run[] = "0-99999";
    t->length = 0;
    put(t, "%s%s", line->before, run);
    while (t->length + sizeof run + strlen(line->after) <= MOST_BYTES)
        put(t, ",%s", run);
    put(t, "%s", line->after);
}
