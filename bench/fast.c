/* A checker that nothing is proved of, made for speed: what the benchmark holds the proved one against. It defines the entries of
 * govelamuth.h, for little-endian machines, with the same answers and tables.
 *
 * It goes through the text once, and reads straight into the lent tables. What rules ask of a formula is worked out when its line is
 * read: the number of its negation, its atoms, and what it can be in unst. Sides are compared with two cursors. The formulas that B of
 * swap can be are judged together, as far as they can, and what is under them is worked out for 243 pairs at once, or for 729. A model is
 * tried against one part of it after the other, with the truth of each formula that the sheet rests on worked out in the order of the
 * formulas. Tables that are handed in with a row are judged in the order of the lines that they stand for. */
#include <stdbool.h>
#include <string.h>

#include "govelamuth.h"

enum { ATOMS = 64, FORMULAS = 1024, ROWS = 2048, ON_SIDE = 64, ENTRIES = 16384, BYTES = 65536, IN_MODEL = 16, IN_SWAP = 8, ABSENT = 65535 };

enum {
    ACCEPTED, SHORT_TABLE, TOO_LONG, BAD_LINE, OUT_OF_ORDER, FULL, BAD_NAME, NO_SUCH_ITEM, FORMULA_AGAIN, BAD_SIDE, WRONG_PREMISES,
    WRONG_STEP, CLAIM_DIFFERS, NO_CLAIM, NO_ROOM, MODEL_MISSING_OR_UNWANTED, MODEL_TOO_LARGE, NOT_IN_EQUILIBRIUM,
    TOO_MANY_ATOMS
};

/* ---- the rules */

/* The forms of principal formulas, beginning with the words of F lines by their codes; then the rules that stand alone. */
enum form { BOT, ATOM, NOT, AND, OR, IMP, ANY, NOT_NOT, NOT_AND, NOT_OR, NOT_IMP, DEF, RCUT, UNST, XINI, SWAP };

/* What a rule adds to a side of a premise: parts of the principal formula, or their negations. */
enum part { NOTHING, A, B, NOT_A, NOT_B };

enum { LEFT = 1, RIGHT = 2 };

struct rule {
    char word[8];
    uint8_t form, premises;
    uint8_t principal;               /* the sides of the conclusion that it is on */
    uint8_t left[2][2], right[2][2]; /* what is added to each premise */
};

enum { RULES = 38, FIRST_REFUTATION = 14, LAST_REFUTATION = 36 };

static const struct rule rules[RULES] = {
    {"def", .form = DEF},
    {"same", ANY, 0, .principal = LEFT | RIGHT},
    {"andl", AND, 1, LEFT, .left = {{A, B}}},
    {"andr", AND, 2, RIGHT, .right = {{A}, {B}}},
    {"wr", ANY, 1, .principal = RIGHT},
    {"bot", BOT, 1, .right = {{A}}},
    {"orr", OR, 1, RIGHT, .right = {{A, B}}},
    {"orl", OR, 2, LEFT, .left = {{A}, {B}}, .right = {{NOTHING}, {A}}},
    {"notl", NOT, 1, LEFT, .right = {{A}}},
    {"impr", IMP, 1, RIGHT, .left = {{A}}, .right = {{B}}},
    {"impl", IMP, 2, LEFT, .left = {{B}, {NOTHING}}, .right = {{NOT_A}, {A}}},
    {"notr", NOT, 1, RIGHT, .left = {{A}}},
    {"rcut", RCUT, .premises = 2},
    {"unst", UNST, .premises = 2},
    {"xini", .form = XINI},
    {"xnnl", NOT_NOT, 1, LEFT, .right = {{NOT_A}}},
    {"xnnr", NOT_NOT, 1, RIGHT, .left = {{NOT_A}}},
    {"xandl", AND, 1, LEFT, .left = {{A, B}}},
    {"xandr1", AND, 1, RIGHT, .right = {{A}}},
    {"xandr2", AND, 1, RIGHT, .right = {{B}}},
    {"xorr", OR, 1, RIGHT, .right = {{A, B}}},
    {"xorl1", OR, 1, LEFT, .left = {{A}}},
    {"xorl2", OR, 1, LEFT, .left = {{B}}},
    {"ximpl1", IMP, 1, LEFT, .right = {{A, NOT_B}}},
    {"ximpl2", IMP, 1, LEFT, .left = {{B}}},
    {"ximpl3", IMP, 1, LEFT, .left = {{NOT_A}}},
    {"ximpr1", IMP, 1, RIGHT, .left = {{A}}, .right = {{B}}},
    {"ximpr2", IMP, 1, RIGHT, .left = {{NOT_B}}, .right = {{NOT_A}}},
    {"xnimpl", NOT_IMP, 1, LEFT, .left = {{NOT_B}}, .right = {{NOT_A}}},
    {"xnimpr1", NOT_IMP, 1, RIGHT, .left = {{NOT_A}}},
    {"xnimpr2", NOT_IMP, 1, RIGHT, .right = {{NOT_B}}},
    {"xnandl1", NOT_AND, 1, LEFT, .left = {{NOT_A}}},
    {"xnandl2", NOT_AND, 1, LEFT, .left = {{NOT_B}}},
    {"xnandr", NOT_AND, 1, RIGHT, .right = {{NOT_A, NOT_B}}},
    {"xnorl", NOT_OR, 1, LEFT, .left = {{NOT_A, NOT_B}}},
    {"xnorr1", NOT_OR, 1, RIGHT, .right = {{NOT_A}}},
    {"xnorr2", NOT_OR, 1, RIGHT, .right = {{NOT_B}}},
    {"swap", SWAP, .premises = 1},
};

static inline bool is_refutation(uint32_t rule) { return rule >= FIRST_REFUTATION && rule <= LAST_REFUTATION; }

/* ---- what is known of an accepted beginning */

/* Records of the lent tables. */
struct name {
    uint16_t start, length;
};
struct node {
    uint16_t word, first, second;
};
struct row {
    uint16_t rule, principal, premises[2], left_start, left_length, right_start, right_length;
};

enum literal { OTHER, FALSUM, VERUM, PLAIN, NEGATED, DOUBLED }; /* #, ~#, p, ~p, ~~p */

/* What the rules ask of a formula. A set of atoms is empty where the formula is not of the form. */
struct traits {
    uint64_t occurring;      /* all its atoms */
    uint64_t joined, chosen; /* as K of unst: its atoms, and those that stand without ~ */
    uint64_t middles;        /* as E of unst: its atoms */
    uint16_t negation;       /* the number of ~A, or ABSENT */
    uint8_t literal, atom;
};

enum { WORD_BITS = 7, WORD_SLOTS = 1 << WORD_BITS, NAME_BITS = 7, NAME_SLOTS = 1 << NAME_BITS };
enum { FORMULA_BITS = 11, FORMULA_SLOTS = 1 << FORMULA_BITS };

/* A bit for each pair (H,T) over five places of atoms. The 243 pairs are numbered to base 3, with a digit for each place: 0 if its atoms are
 * not in T, 1 if they are in T alone, 2 if they are in H as well. The first of them come again in the last 13 bits. */
typedef uint64_t pairs __attribute__((vector_size(32)));

enum { INNER = 5, IN_BLOCK = 243, BITS_OF_BLOCK = 256, BLOCKS = 3 };

/* Where something holds: in (H,T), and in (T,T). It fills a line of the cache. */
struct block {
    _Alignas(64) pairs here;
    pairs there;
};

struct checker {
    const uint8_t *text, *end;
    struct name *names;
    struct node *nodes;
    struct row *rows;
    uint16_t *left, *right;
    uint32_t line;
    uint32_t stage; /* 0 to 4: atoms, formulas, rows, modelled, claimed */
    uint32_t atoms, formulas, row_count, left_used, right_used;
    uint32_t model_line; /* 0 if there is none */
    uint64_t model;
    /* Hash tables with linear probing; 0 is a free slot. */
    uint8_t word_slots[WORD_SLOTS], name_slots[NAME_SLOTS];
    uint32_t formula_slots[FORMULA_SLOTS];
    bool places_filled;
    /* Last, since these are not cleared. */
    struct traits traits[FORMULAS];
    struct block at_place[IN_SWAP][BLOCKS];
};

/* ---- fields: each reader takes a field and the byte that must end it, and tells whether both are as they should be. Every reader
 * stops at a line feed, which the last byte before `end` is. */

static inline bool digits(const uint8_t **at, uint32_t *number) {
    const uint8_t *p = *at;
    uint32_t value = *p++ - (uint32_t)'0', digit;
    if (value > 9)
        return false;
    if (value != 0)
        for (int count = 1; (digit = *p - (uint32_t)'0') <= 9; p++) {
            if (++count > 5)
                return false;
            value = value * 10 + digit;
        }
    *number = value;
    *at = p;
    return true;
}

static inline bool read_number(const uint8_t **at, uint8_t stop, uint32_t *number) {
    return digits(at, number) && *(*at)++ == stop;
}

static inline bool read_dash(const uint8_t **at, uint8_t stop) {
    return *(*at)++ == '-' && *(*at)++ == stop;
}

/* What a list means, runs written out. A text has room for 8,191 runs of 100,000 numbers, so that no count wraps. */
struct list {
    uint32_t count, largest;
    bool rising;
};

/* The rest of a run, whose first number is read. */
static inline bool read_run(const uint8_t **at, uint32_t first, uint16_t *entries, uint32_t room, struct list *list) {
    uint32_t last;
    if (!digits(at, &last) || last <= first)
        return false;
    uint32_t count = list->count + (last - first), stored = count < room ? count : room;
    for (uint32_t i = list->count; i < stored; i++)
        entries[i] = (uint16_t)(first + 1 + (i - list->count));
    list->count = count;
    if (list->largest < last)
        list->largest = last;
    return true;
}

enum items { NUMBERS, NUMBERS_AND_RUNS };

/* The entries are stored as far as there is room. */
static inline __attribute__((always_inline)) bool read_list(const uint8_t **at, uint8_t stop, enum items items, uint16_t *entries,
                                                            uint32_t room, struct list *list) {
    *list = (struct list){0, 0, true};
    if (**at == '-')
        return read_dash(at, stop);
    for (;;) {
        uint32_t number;
        if (!digits(at, &number))
            return false;
        if (list->count < room)
            entries[list->count] = (uint16_t)number;
        if (list->count > 0 && number <= list->largest)
            list->rising = false;
        else
            list->largest = number;
        list->count++;
        uint8_t after = *(*at)++;
        if (after == '-' && items == NUMBERS_AND_RUNS) {
            if (!read_run(at, number, entries, room, list))
                return false;
            after = *(*at)++;
        }
        if (after == stop)
            return true;
        if (after != ',')
            return false;
    }
}

/* The high bits of the zero bytes, exact up to the lowest of them. */
static inline uint64_t zero_bytes(uint64_t bytes) {
    const uint64_t ones = 0x0101010101010101;
    return (bytes - ones) & ~bytes & ones << 7;
}

/* A word of up to 7 bytes as one number, the first byte lowest; 0 where no tab ends it, and for one that holds a zero byte, which
 * could pass for a shorter one. */
static inline uint64_t read_word(const struct checker *c, const uint8_t **at) {
    uint64_t bytes = 0;
    if (c->end - *at >= 8)
        memcpy(&bytes, *at, 8);
    else
        memcpy(&bytes, *at, (size_t)(c->end - *at));
    uint64_t tabs = zero_bytes(bytes ^ 0x0909090909090909);
    uint64_t below = (tabs & -tabs) - 1;
    if (tabs == 0 || (zero_bytes(bytes) & below) != 0)
        return 0;
    *at += __builtin_ctzll(tabs) / 8 + 1;
    return bytes & below >> 7;
}

static inline uint64_t word_key(const char word[8]) {
    uint64_t key;
    memcpy(&key, word, 8);
    return key;
}

static inline uint32_t hash(uint64_t key, int bits) { return (uint32_t)(key * 0x9e3779b97f4a7c15 >> (64 - bits)); }

static void enter_words(struct checker *c) {
    for (uint8_t code = 0; code < RULES; code++) {
        uint32_t slot = hash(word_key(rules[code].word), WORD_BITS);
        while (c->word_slots[slot] != 0)
            slot = (slot + 1) % WORD_SLOTS;
        c->word_slots[slot] = code + 1;
    }
}

/* The code of a rule, RULES for any other word. */
static inline uint32_t rule_of(const struct checker *c, uint64_t word) {
    for (uint32_t slot = hash(word, WORD_BITS); c->word_slots[slot] != 0; slot = (slot + 1) % WORD_SLOTS) {
        uint32_t code = c->word_slots[slot] - 1u;
        if (word_key(rules[code].word) == word)
            return code;
    }
    return RULES;
}

/* ---- A lines */

/* Whether the field is a name that is not used yet; if so, enters it. */
static bool enter_name(struct checker *c, const uint8_t *name, size_t length) {
    if (length == 0 || length > 24 || name[0] < 'a' || name[0] > 'z')
        return false;
    uint64_t sum = 0;
    for (size_t i = 0; i < length; i++) {
        uint8_t b = name[i];
        if (!((b >= 'a' && b <= 'z') || (b >= '0' && b <= '9') || b == '_'))
            return false;
        sum = sum * 31 + b;
    }
    uint32_t slot = hash(sum, NAME_BITS);
    for (; c->name_slots[slot] != 0; slot = (slot + 1) % NAME_SLOTS) {
        struct name used = c->names[c->name_slots[slot] - 1];
        if (used.length == length && memcmp(c->text + used.start, name, length) == 0)
            return false;
    }
    c->names[c->atoms] = (struct name){(uint16_t)(name - c->text), (uint16_t)length};
    c->name_slots[slot] = (uint8_t)++c->atoms;
    return true;
}

static uint32_t atom_line(struct checker *c, const uint8_t **at) {
    uint32_t number;
    if (!read_number(at, '\t', &number))
        return BAD_LINE;
    const uint8_t *name = *at, *p = name;
    while (*p != '\n' && *p != '\t')
        p++;
    *at = p + 1;
    if (*p == '\t')
        return BAD_LINE;
    if (c->stage != 0 || number != c->atoms)
        return OUT_OF_ORDER;
    if (number == ATOMS)
        return FULL;
    return enter_name(c, name, (size_t)(p - name)) ? ACCEPTED : BAD_NAME;
}

/* ---- F lines */

static const char formula_words[][8] = {"bot", "atom", "not", "and", "or", "imp"};

/* Whether an equal formula exists; if not, enters this one. */
static bool formula_exists(struct checker *c, struct node n) {
    uint32_t key = 1 + (n.word | (uint32_t)(n.first % FORMULAS) << 3 | (uint32_t)(n.second % FORMULAS) << 13);
    uint32_t slot = hash(key, FORMULA_BITS);
    for (; c->formula_slots[slot] != 0; slot = (slot + 1) % FORMULA_SLOTS)
        if (c->formula_slots[slot] == key)
            return true;
    c->formula_slots[slot] = key;
    return false;
}

/* Whether all atoms of a set, which is not empty, come after an atom. */
static bool after(uint64_t set, uint32_t atom) { return set != 0 && (set & ((2ULL << atom) - 1)) == 0; }

static struct traits traits_of(const struct checker *c, struct node n) {
    struct traits t = {.negation = ABSENT, .literal = OTHER};
    const struct traits *a = &c->traits[n.first % FORMULAS], *b = &c->traits[n.second % FORMULAS];
    if (n.word >= NOT)
        t.occurring = a->occurring;
    if (n.word >= AND)
        t.occurring |= b->occurring;
    switch (n.word) {
    case BOT:
        t.literal = FALSUM;
        break;
    case ATOM:
        t.literal = PLAIN;
        t.atom = (uint8_t)n.first;
        t.occurring = t.joined = t.chosen = 1ULL << n.first;
        break;
    case NOT:
        t.atom = a->atom;
        if (a->literal == FALSUM)
            t.literal = VERUM;
        else if (a->literal == NEGATED)
            t.literal = DOUBLED;
        else if (a->literal == PLAIN) {
            t.literal = NEGATED;
            t.joined = a->joined;
        }
        break;
    case AND:
        if ((a->literal == PLAIN || a->literal == NEGATED) && after(b->joined, a->atom)) {
            t.joined = a->joined | b->joined;
            t.chosen = a->chosen | b->chosen;
        }
        if (a->middles != 0 && c->nodes[n.first].word == OR && after(b->middles, a->atom))
            t.middles = a->middles | b->middles;
        break;
    case OR:
        if (a->literal == PLAIN && b->literal == NEGATED && a->atom == b->atom) {
            t.atom = a->atom;
            t.middles = a->occurring;
        }
        break;
    }
    return t;
}

/* Works out what is asked of the next formula, and counts it. */
static inline void learn(struct checker *c, struct node node) {
    c->traits[c->formulas] = traits_of(c, node);
    if (node.word == NOT)
        c->traits[node.first].negation = (uint16_t)c->formulas;
    c->formulas++;
}

static uint32_t formula_line(struct checker *c, const uint8_t **at) {
    uint32_t number, word = 0, first = ABSENT, second = ABSENT;
    if (!read_number(at, '\t', &number))
        return BAD_LINE;
    uint64_t key = read_word(c, at);
    while (word_key(formula_words[word]) != key)
        if (++word > IMP)
            return BAD_LINE;
    if (!(word == BOT ? read_dash(at, '\t') : read_number(at, '\t', &first)))
        return BAD_LINE;
    if (!(word <= NOT ? read_dash(at, '\n') : read_number(at, '\n', &second)))
        return BAD_LINE;
    if (c->stage > 1 || number != c->formulas)
        return OUT_OF_ORDER;
    if (number == FORMULAS)
        return FULL;
    if ((word == ATOM && first >= c->atoms) || (word >= NOT && first >= number) || (word >= AND && second >= number))
        return NO_SUCH_ITEM;
    struct node node = {(uint16_t)word, (uint16_t)first, (uint16_t)second};
    if (formula_exists(c, node))
        return FORMULA_AGAIN;
    c->nodes[number] = node;
    learn(c, node);
    c->stage = 1;
    return ACCEPTED;
}

/* ---- N lines */

struct side {
    const uint16_t *at;
    uint32_t count;
};

struct sequent {
    struct side left, right;
};

static inline struct sequent sides_of(const struct checker *c, const struct row *r) {
    return (struct sequent){{c->left + r->left_start, r->left_length}, {c->right + r->right_start, r->right_length}};
}

static inline bool contains(struct side s, uint32_t formula) {
    while (s.count > 4) {
        uint32_t half = s.count / 2;
        if (s.at[half] <= formula)
            s.at += half;
        s.count -= half;
    }
    for (uint32_t i = 0; i < s.count; i++)
        if (s.at[i] == formula)
            return true;
    return false;
}

/* Whether nothing is on one side alone but x, on a, and y and z, on b. */
static inline bool differ_only_in(struct side a, uint32_t x, struct side b, uint32_t y, uint32_t z) {
    uint32_t i = 0, j = 0;
    for (;;) {
        while (i + 4 <= a.count && j + 4 <= b.count && memcmp(a.at + i, b.at + j, 8) == 0) {
            i += 4;
            j += 4;
        }
        if (i == a.count && j == b.count)
            return true;
        if (j == b.count || (i < a.count && a.at[i] < b.at[j])) {
            if (a.at[i++] != x)
                return false;
        } else if (i == a.count || b.at[j] < a.at[i]) {
            if (b.at[j] != y && b.at[j] != z)
                return false;
            j++;
        } else {
            i++;
            j++;
        }
    }
}

static inline bool same(struct side a, struct side b) {
    return a.count == b.count && memcmp(a.at, b.at, a.count * sizeof *a.at) == 0;
}

/* The parts A and B of a principal formula. */
struct parts {
    uint32_t a, b;
};

static inline bool take_apart(const struct checker *c, enum form form, uint32_t principal, struct parts *parts) {
    struct node n = c->nodes[principal];
    *parts = (struct parts){principal, principal};
    if (form == ANY)
        return true;
    if (form > ANY) {
        if (n.word != NOT)
            return false;
        form = form - NOT_NOT + NOT;
        n = c->nodes[n.first];
    }
    if (n.word != form)
        return false;
    if (form != BOT)
        *parts = (struct parts){n.first, n.second};
    return true;
}

static inline uint32_t part_number(const struct checker *c, struct parts parts, enum part part) {
    switch (part) {
    case A:
        return parts.a;
    case B:
        return parts.b;
    case NOT_A:
        return c->traits[parts.a].negation;
    case NOT_B:
        return c->traits[parts.b].negation;
    default:
        return ABSENT;
    }
}

/* Whether one side of the conclusion and of the premises is one set, with the principal formula where `own` tells and with what
 * the rule adds to each premise. */
static inline bool side_fits(const struct checker *c, struct parts parts, uint32_t principal, bool own, struct side conclusion,
                             uint32_t premises, const struct side *sides, const uint8_t added[2][2]) {
    if (own && !contains(conclusion, principal))
        return false;
    for (uint32_t i = 0; i < premises; i++) {
        uint32_t y = part_number(c, parts, added[i][0]), z = part_number(c, parts, added[i][1]);
        if ((added[i][0] != NOTHING && !contains(sides[i], y)) || (added[i][1] != NOTHING && !contains(sides[i], z)))
            return false;
        if (!differ_only_in(conclusion, own ? principal : ABSENT, sides[i], y, z))
            return false;
    }
    /* But for what is added, each premise now has what the conclusion has, and the principal formula or not: both must, or neither. */
    return premises < 2 || contains(sides[0], principal) == contains(sides[1], principal);
}

static bool schema_step(const struct checker *c, const struct rule *rule, uint32_t principal, struct sequent conclusion,
                        const struct sequent *premises) {
    struct parts parts;
    if (!take_apart(c, rule->form, principal, &parts))
        return false;
    struct side left[2] = {premises[0].left, premises[1].left}, right[2] = {premises[0].right, premises[1].right};
    return side_fits(c, parts, principal, rule->principal & LEFT, conclusion.left, rule->premises, left, rule->left)
        && side_fits(c, parts, principal, rule->principal & RIGHT, conclusion.right, rule->premises, right, rule->right);
}

/* L => R,~p with only atoms in L, and p not among them. */
static bool def_step(const struct checker *c, uint32_t principal, struct sequent conclusion) {
    if (c->traits[principal].literal != NEGATED)
        return false;
    uint32_t p = c->nodes[principal].first;
    for (uint32_t i = 0; i < conclusion.left.count; i++) {
        uint32_t x = conclusion.left.at[i];
        if (c->traits[x].literal != PLAIN || x == p)
            return false;
    }
    return contains(conclusion.right, principal);
}

/* L => R,A and L,A => Q give L => R,Q. */
static bool rcut_step(uint32_t a, struct sequent conclusion, const struct sequent *premises) {
    struct side r = premises[0].right, q = premises[1].right;
    if (!same(conclusion.left, premises[0].left) || !contains(premises[1].left, a) || !contains(r, a)
        || !differ_only_in(conclusion.left, ABSENT, premises[1].left, a, a))
        return false;
    uint32_t i = 0, j = 0;
    for (uint32_t n = 0; n < conclusion.right.count; n++) {
        uint32_t x = conclusion.right.at[n];
        if (i < r.count && r.at[i] == a && a < x)
            i++;
        bool in_r = i < r.count && r.at[i] == x, in_q = j < q.count && q.at[j] == x;
        if (!in_r && !in_q)
            return false;
        i += in_r;
        j += in_q;
    }
    if (i < r.count && r.at[i] == a)
        i++;
    return i == r.count && j == q.count;
}

/* L => K and the refutation of (L,~~S,~S' ; E) give L => R. */
static bool unst_step(const struct checker *c, struct sequent conclusion, const struct sequent *premises) {
    struct side l = conclusion.left, fixed = premises[1].left;
    if (!same(l, premises[0].left) || premises[0].right.count != 1 || premises[1].right.count != 1)
        return false;
    uint64_t v = 0;
    for (uint32_t i = 0; i < l.count; i++)
        v |= c->traits[l.at[i]].occurring;
    const struct traits *k = &c->traits[premises[0].right.at[0]], *e = &c->traits[premises[1].right.at[0]];
    uint64_t s = k->chosen, doubled = 0, negated = 0;
    if (k->joined != v || s == 0 || e->middles != s)
        return false;
    uint32_t j = 0;
    for (uint32_t i = 0; i < fixed.count; i++) {
        const struct traits *t = &c->traits[fixed.at[i]];
        uint64_t p = 1ULL << t->atom;
        bool in_l = j < l.count && l.at[j] == fixed.at[i];
        j += in_l;
        if (t->literal == DOUBLED && (in_l || (s & p)))
            doubled |= p;
        else if (t->literal == NEGATED && (in_l || (~s & v & p)))
            negated |= p;
        else if (!in_l)
            return false;
    }
    return j == l.count && (s & ~doubled) == 0 && (v & ~s & ~negated) == 0;
}

/* Literals that do not meet. */
static bool xini_step(const struct checker *c, struct sequent conclusion) {
    uint64_t plain[2] = {0}, negated[2] = {0};
    for (int right = 0; right < 2; right++) {
        struct side s = right ? conclusion.right : conclusion.left;
        for (uint32_t i = 0; i < s.count; i++) {
            const struct traits *t = &c->traits[s.at[i]];
            if (t->literal == PLAIN)
                plain[right] |= 1ULL << t->atom;
            else if (t->literal == NEGATED)
                negated[right] |= 1ULL << t->atom;
            else if (t->literal != (right ? FALSUM : VERUM))
                return false;
        }
    }
    return ((plain[0] & plain[1]) | (negated[0] & negated[1]) | (plain[0] & negated[0])) == 0;
}

/* Candidates for B of swap, to be judged together with A. Atoms have places 0 to 7. Those of A and of any one candidate have places of their
 * own, so that the pairs over the places are all pairs of theirs; atoms of several candidates may share one. */
struct group {
    uint32_t count;
    uint16_t candidates[ON_SIDE];
    uint8_t places[ON_SIDE]; /* of the atoms of A and of each candidate, as a set */
    uint8_t all_places;
    uint64_t seated;         /* the atoms that have a place */
    uint8_t place[ATOMS];
};

/* Whether atoms, 8 at most, can have places of their own, where some of them have one already. If so, each of the others takes the lowest
 * that is free. */
static bool seat(struct group *g, uint64_t atoms, uint8_t *places) {
    uint32_t taken = 0;
    for (uint64_t rest = atoms & g->seated; rest != 0; rest &= rest - 1) {
        uint32_t place = 1u << g->place[__builtin_ctzll(rest)];
        if ((taken & place) != 0)
            return false;
        taken |= place;
    }
    for (uint64_t rest = atoms & ~g->seated; rest != 0; rest &= rest - 1) {
        g->place[__builtin_ctzll(rest)] = (uint8_t)__builtin_ctz(~taken);
        taken |= taken + 1;
    }
    g->seated |= atoms;
    *places = (uint8_t)taken;
    return true;
}

/* Moves waiting candidates into a group, as far as they can share places; the others still wait, and are counted. The atoms of A have the
 * first places, so that candidates with few others are done early. */
static uint32_t gather(const struct checker *c, uint32_t a, uint16_t *waiting, uint32_t count, struct group *g) {
    uint64_t own = c->traits[a].occurring;
    uint32_t left = 0;
    g->count = 0;
    g->all_places = 0;
    g->seated = 0;
    seat(g, own, &g->places[0]);
    for (uint32_t i = 0; i < count; i++) {
        uint16_t b = waiting[i];
        if (seat(g, own | c->traits[b].occurring, &g->places[g->count])) {
            g->all_places |= g->places[g->count];
            g->candidates[g->count++] = b;
        } else
            waiting[left++] = b;
    }
    return left;
}

/* A formula to be judged, with its parts; or an atom, with its place. */
struct step {
    uint16_t formula, word, first, second;
};

/* Lists what A and the candidates rest on, parts before wholes, up to the end of the table, and gives the first. Parts have smaller
 * numbers than wholes, so that one pass down finds them all. */
static const struct step *list_steps(const struct checker *c, uint32_t a, const struct group *g, struct step steps[FORMULAS]) {
    uint32_t last = a;
    for (uint32_t i = 0; i < g->count; i++)
        last = g->candidates[i] > last ? g->candidates[i] : last;
    bool needed[FORMULAS];
    memset(needed, false, last + 1);
    needed[a] = true;
    for (uint32_t i = 0; i < g->count; i++)
        needed[g->candidates[i]] = true;
    struct step *first = steps + FORMULAS;
    for (uint32_t f = last + 1; f-- > 0;)
        if (needed[f]) {
            struct node n = c->nodes[f];
            if (n.word >= NOT)
                needed[n.first] = true;
            if (n.word >= AND)
                needed[n.second] = true;
            *--first = (struct step){(uint16_t)f, n.word, n.word == ATOM ? g->place[n.first] : n.first % FORMULAS, n.second % FORMULAS};
        }
    return first;
}

/* A place that has one digit in all pairs of a block. */
static struct block constant(uint32_t digit) {
    return (struct block){.here = (pairs){0} - (uint64_t)(digit == 2), .there = (pairs){0} - (uint64_t)(digit != 0)};
}

/* Fills the first six places, which stay as they are. */
static void fill_places(struct checker *c) {
    uint64_t here[INNER][BITS_OF_BLOCK / 64] = {0}, there[INNER][BITS_OF_BLOCK / 64] = {0};
    for (uint32_t i = 0; i < BITS_OF_BLOCK; i++)
        for (uint32_t p = 0, digits = i % IN_BLOCK; p < INNER; p++, digits /= 3) {
            here[p][i / 64] |= (uint64_t)(digits % 3 == 2) << i % 64;
            there[p][i / 64] |= (uint64_t)(digits % 3 != 0) << i % 64;
        }
    for (uint32_t b = 0; b < BLOCKS; b++) {
        for (uint32_t p = 0; p < INNER; p++) {
            memcpy(&c->at_place[p][b].here, here[p], sizeof here[p]);
            memcpy(&c->at_place[p][b].there, there[p], sizeof there[p]);
        }
        c->at_place[INNER][b] = constant(b);
    }
    c->places_filled = true;
}

/* The other places have one digit throughout a round. */
static void set_outer_places(struct checker *c, uint32_t round) {
    for (uint32_t p = INNER + 1; p < IN_SWAP; p++, round /= 3)
        for (uint32_t b = 0; b < BLOCKS; b++)
            c->at_place[p][b] = constant(round % 3);
}

/* Works out the truth of each formula, in so many blocks: one over five places; three over more, for the digits of the sixth. These do
 * not wait for each other, as a formula does for its part just before it. */
static inline __attribute__((always_inline)) void judge_steps(const struct step *step, const struct step *end, uint32_t blocks,
                                                              const struct block (*at_place)[BLOCKS], struct block *truth) {
    for (; step < end; step++) {
        const struct block *x = truth + step->first * blocks, *y = truth + step->second * blocks;
        struct block *whole = truth + step->formula * blocks;
        switch (step->word) {
        case BOT:
            for (uint32_t b = 0; b < blocks; b++)
                whole[b] = constant(0);
            break;
        case ATOM:
            for (uint32_t b = 0; b < blocks; b++)
                whole[b] = at_place[step->first][b];
            break;
        case NOT:
            for (uint32_t b = 0; b < blocks; b++)
                whole[b].here = whole[b].there = ~x[b].there;
            break;
        case AND:
            for (uint32_t b = 0; b < blocks; b++) {
                whole[b].here = x[b].here & y[b].here;
                whole[b].there = x[b].there & y[b].there;
            }
            break;
        case OR:
            for (uint32_t b = 0; b < blocks; b++) {
                whole[b].here = x[b].here | y[b].here;
                whole[b].there = x[b].there | y[b].there;
            }
            break;
        case IMP:
            for (uint32_t b = 0; b < blocks; b++) {
                whole[b].there = ~x[b].there | y[b].there;
                whole[b].here = whole[b].there & (~x[b].here | y[b].here);
            }
            break;
        }
    }
}

static inline bool differ(const struct block *x, const struct block *y, uint32_t blocks) {
    pairs in = {0};
    for (uint32_t b = 0; b < blocks; b++)
        in |= x[b].here ^ y[b].here;
    return (in[0] | in[1] | in[2] | in[3]) != 0;
}

/* Drops the candidates that differ from A. */
static inline void drop_different(struct group *g, uint32_t a, uint32_t blocks, const struct block *truth) {
    uint32_t alive = 0;
    for (uint32_t i = 0; i < g->count; i++)
        if (!differ(truth + a * blocks, truth + g->candidates[i] * blocks, blocks)) {
            g->candidates[alive] = g->candidates[i];
            g->places[alive++] = g->places[i];
        }
    g->count = alive;
}

/* Whether a candidate has none but the first places. */
static bool any_within(const struct group *g, uint32_t width) {
    for (uint32_t i = 0; i < g->count; i++)
        if (g->places[i] >> width == 0)
            return true;
    return false;
}

/* Whether a candidate of the group holds in the same pairs as A. The first round goes through all pairs over six places, three rounds over
 * seven and nine over eight; a candidate that is left when its places are through is equal. What is under the candidates is listed again
 * when half of them are gone. */
static bool any_equal(struct checker *c, uint32_t a, struct group *g) {
    struct step steps[FORMULAS];
    struct block truth[FORMULAS * BLOCKS];
    const struct step *first = NULL, *end = steps + FORMULAS;
    uint32_t listed = 2 * ON_SIDE, width = INNER + 1, rounds_of_width = 1;
    bool narrow = g->all_places >> INNER == 0;
    if (!c->places_filled)
        fill_places(c);
    for (uint32_t round = 0; g->count > 0; round++) {
        if (g->count <= listed / 2) {
            first = list_steps(c, a, g, steps);
            listed = g->count;
        }
        if (narrow) {
            judge_steps(first, end, 1, c->at_place, truth);
            drop_different(g, a, 1, truth);
        } else {
            set_outer_places(c, round);
            judge_steps(first, end, BLOCKS, c->at_place, truth);
            drop_different(g, a, BLOCKS, truth);
        }
        if (round + 1 == rounds_of_width) {
            if (any_within(g, width))
                return true;
            width++;
            rounds_of_width *= 3;
        }
    }
    return false;
}

/* The number of a row, by the candidates for B that leave its sides right. */
static uint32_t judge_candidates(struct checker *c, uint32_t a, struct side candidates) {
    uint16_t waiting[ON_SIDE];
    uint32_t count = 0;
    for (uint32_t i = 0; i < candidates.count; i++)
        if (__builtin_popcountll(c->traits[a].occurring | c->traits[candidates.at[i]].occurring) <= IN_SWAP) {
            if (candidates.at[i] == a)
                return ACCEPTED;
            waiting[count++] = candidates.at[i];
        }
    uint32_t refusal = count < candidates.count ? TOO_MANY_ATOMS : WRONG_STEP;
    while (count > 0) {
        struct group g;
        count = gather(c, a, waiting, count, &g);
        if (any_equal(c, a, &g))
            return ACCEPTED;
    }
    return refusal;
}

/* L,B => R gives L,A => R, where A and B hold in the same pairs. B is what the premise's left has more than the conclusion's; if there is
 * nothing, it is any formula there. */
static uint32_t swap_step(struct checker *c, uint32_t a, struct sequent conclusion, struct sequent premise) {
    struct side new = conclusion.left, old = premise.left, candidates = old;
    if (!contains(new, a) || !same(conclusion.right, premise.right))
        return WRONG_STEP;
    for (uint32_t i = 0, j = 0, gone = 0; i < new.count || j < old.count;) {
        if (j == old.count || (i < new.count && new.at[i] < old.at[j])) {
            if (new.at[i++] != a)
                return WRONG_STEP;
        } else if (i == new.count || old.at[j] < new.at[i]) {
            if (gone++ > 0)
                return WRONG_STEP;
            candidates = (struct side){old.at + j++, 1};
        } else {
            i++;
            j++;
        }
    }
    return judge_candidates(c, a, candidates);
}

static uint32_t judge_row(struct checker *c, const struct row *r, uint32_t premises, struct sequent conclusion) {
    const struct rule *rule = &rules[r->rule];
    bool refutation = is_refutation(r->rule);
    bool named = r->principal != ABSENT;
    if (named != (rule->form != UNST && rule->form != XINI) || premises != rule->premises)
        return WRONG_PREMISES;
    struct sequent above[2] = {0};
    for (uint32_t i = 0; i < premises; i++) {
        const struct row *premise = &c->rows[r->premises[i]];
        if (is_refutation(premise->rule) != (refutation || (rule->form == UNST && i == 1)))
            return WRONG_PREMISES;
        above[i] = sides_of(c, premise);
    }
    bool step;
    switch (rule->form) {
    case DEF:
        step = def_step(c, r->principal, conclusion);
        break;
    case RCUT:
        step = rcut_step(r->principal, conclusion, above);
        break;
    case UNST:
        step = unst_step(c, conclusion, above);
        break;
    case XINI:
        step = xini_step(c, conclusion);
        break;
    case SWAP:
        return swap_step(c, r->principal, conclusion, above[0]);
    default:
        step = schema_step(c, rule, r->principal, conclusion, above);
    }
    return step ? ACCEPTED : WRONG_STEP;
}

/* Whether a number of the list is not below `held`. */
static inline bool ahead(struct list list, uint32_t held) { return list.count > 0 && list.largest >= held; }

static inline bool bad_side(struct list list) { return !list.rising || list.count > ON_SIDE; }

/* A row as its line has it. */
struct draft {
    uint32_t number, rule, principal;
    bool named;
    uint16_t above[2];
    struct list premises, left, right;
};

/* The sides are stored as far as there is room. */
static inline __attribute__((always_inline)) bool read_row(const struct checker *c, const uint8_t **at, uint16_t *left, uint32_t left_room,
                                                           uint16_t *right, uint32_t right_room, struct draft *d) {
    if (!read_number(at, '\t', &d->number))
        return false;
    d->rule = rule_of(c, read_word(c, at));
    if (d->rule == RULES)
        return false;
    d->principal = d->above[0] = d->above[1] = ABSENT;
    d->named = **at != '-';
    return (d->named ? read_number(at, '\t', &d->principal) : read_dash(at, '\t'))
        && read_list(at, '\t', NUMBERS, d->above, 2, &d->premises)
        && read_list(at, '\t', NUMBERS_AND_RUNS, left, left_room, &d->left)
        && read_list(at, '\n', NUMBERS_AND_RUNS, right, right_room, &d->right);
}

/* The numbers that come before the rule's. */
static inline uint32_t early_number(const struct checker *c, const struct draft *d) {
    if (d->number != c->row_count)
        return OUT_OF_ORDER;
    if (d->number == ROWS || d->left.count > ENTRIES - c->left_used || d->right.count > ENTRIES - c->right_used)
        return FULL;
    if ((d->named && d->principal >= c->formulas) || ahead(d->premises, d->number) || ahead(d->left, c->formulas)
        || ahead(d->right, c->formulas))
        return NO_SUCH_ITEM;
    return bad_side(d->left) || bad_side(d->right) ? BAD_SIDE : ACCEPTED;
}

static inline struct row stored(const struct checker *c, const struct draft *d) {
    return (struct row){
        .rule = (uint16_t)d->rule,
        .principal = (uint16_t)d->principal,
        .premises = {d->above[0], d->above[1]},
        .left_start = (uint16_t)c->left_used,
        .left_length = (uint16_t)d->left.count,
        .right_start = (uint16_t)c->right_used,
        .right_length = (uint16_t)d->right.count,
    };
}

static inline void count_row(struct checker *c, const struct row *row) {
    c->left_used += row->left_length;
    c->right_used += row->right_length;
    c->row_count++;
}

static uint32_t row_line(struct checker *c, const uint8_t **at) {
    struct draft d;
    if (!read_row(c, at, c->left + c->left_used, ENTRIES - c->left_used, c->right + c->right_used, ENTRIES - c->right_used, &d))
        return BAD_LINE;
    if (c->stage > 2)
        return OUT_OF_ORDER;
    uint32_t early = early_number(c, &d);
    if (early != ACCEPTED)
        return early;
    struct row *row = &c->rows[d.number];
    *row = stored(c, &d);
    count_row(c, row);
    c->stage = 2;
    return judge_row(c, row, d.premises.count, sides_of(c, row));
}

/* ---- the M line */

static uint32_t model_line(struct checker *c, const uint8_t **at) {
    uint16_t atoms[ATOMS];
    struct list list;
    if (!read_list(at, '\n', NUMBERS_AND_RUNS, atoms, ATOMS, &list))
        return BAD_LINE;
    if (c->stage > 2)
        return OUT_OF_ORDER;
    if (ahead(list, c->atoms))
        return NO_SUCH_ITEM;
    if (bad_side(list))
        return BAD_SIDE;
    for (uint32_t i = 0; i < list.count; i++)
        c->model |= 1ULL << atoms[i];
    c->model_line = c->line;
    c->stage = 3;
    return ACCEPTED;
}

/* Formulas whose truth differs from part to part, those of the sheet marked: an atom; and A&B, A|B or A->B, without a branch as
 * ((A^x)&(B^y))^z. */
struct varying_atom {
    uint16_t formula;
    uint8_t atom;
};
struct varying_pair {
    uint16_t formula, a, b;
    uint8_t x, y, z, on_sheet;
};

/* Whether T is an equilibrium model of the sheet. What fails in (T,T) fails in every (H,T), and a negation that holds in the one holds
 * in the others, so that neither is looked at again. */
static bool in_equilibrium(const struct checker *c, uint64_t model, struct side sheet) {
    uint8_t truth[FORMULAS], needed[FORMULAS];
    uint32_t count = sheet.count > 0 ? sheet.at[sheet.count - 1] + 1u : 0;
    for (uint32_t f = 0; f < count; f++) {
        struct node n = c->nodes[f];
        switch (n.word) {
        case BOT:
            truth[f] = 0;
            break;
        case ATOM:
            truth[f] = model >> n.first & 1;
            break;
        case NOT:
            truth[f] = !truth[n.first];
            break;
        case AND:
            truth[f] = truth[n.first] & truth[n.second];
            break;
        case OR:
            truth[f] = truth[n.first] | truth[n.second];
            break;
        case IMP:
            truth[f] = (truth[n.first] ^ 1) | truth[n.second];
            break;
        }
    }
    enum { FOR_ANOTHER = 1, ON_SHEET = 2 };
    memset(needed, 0, count);
    for (uint32_t i = 0; i < sheet.count; i++) {
        if (!truth[sheet.at[i]])
            return false;
        needed[sheet.at[i]] = ON_SHEET;
    }
    for (uint32_t f = count; f-- > 0;)
        if (needed[f] && truth[f] && c->nodes[f].word >= AND) {
            needed[c->nodes[f].first] |= FOR_ANOTHER;
            needed[c->nodes[f].second] |= FOR_ANOTHER;
        }

    struct varying_atom atoms[ATOMS];
    struct varying_pair pairs[FORMULAS];
    uint32_t atom_count = 0, pair_count = 0;
    uint64_t facts = 0;
    for (uint32_t f = 0; f < count; f++) {
        struct node n = c->nodes[f];
        bool on_sheet = needed[f] & ON_SHEET;
        if (!needed[f] || !truth[f])
            continue;
        if (n.word == ATOM) {
            atoms[atom_count++] = (struct varying_atom){(uint16_t)f, (uint8_t)n.first};
            facts |= (uint64_t)on_sheet << n.first;
        } else if (n.word >= AND)
            pairs[pair_count++] = (struct varying_pair){(uint16_t)f, n.first, n.second, n.word == OR, n.word != AND, n.word != AND, on_sheet};
    }

    for (uint64_t part = 0; part != model; part = (part - model) & model) {
        if ((facts & ~part) != 0)
            continue;
        for (uint32_t i = 0; i < atom_count; i++)
            truth[atoms[i].formula] = part >> atoms[i].atom & 1;
        const struct varying_pair *p = pairs, *end = pairs + pair_count;
        for (; p < end; p++) {
            uint8_t holds = ((truth[p->a] ^ p->x) & (truth[p->b] ^ p->y)) ^ p->z;
            truth[p->formula] = holds;
            if (holds < p->on_sheet)
                break;
        }
        if (p == end)
            return false;
    }
    return true;
}

/* Whether the claim has the model that it wants, or shows a contradiction without one. */
static uint32_t judge_model(const struct checker *c, struct side left, struct side right) {
    bool wanted = right.count > 1 || (right.count == 1 && c->traits[right.at[0]].literal != FALSUM);
    if (wanted != (c->model_line != 0))
        return MODEL_MISSING_OR_UNWANTED;
    if (!wanted)
        return ACCEPTED;
    if (__builtin_popcountll(c->model) > IN_MODEL)
        return MODEL_TOO_LARGE;
    return in_equilibrium(c, c->model, left) ? ACCEPTED : NOT_IN_EQUILIBRIUM;
}

/* ---- the C line */

static uint32_t claim_line(struct checker *c, const uint8_t **at) {
    uint16_t left_entries[ON_SIDE], right_entries[ON_SIDE];
    struct list left, right;
    if (!read_list(at, '\t', NUMBERS_AND_RUNS, left_entries, ON_SIDE, &left)
        || !read_list(at, '\n', NUMBERS_AND_RUNS, right_entries, ON_SIDE, &right))
        return BAD_LINE;
    if (c->stage > 3)
        return OUT_OF_ORDER;
    if (ahead(left, c->formulas) || ahead(right, c->formulas))
        return NO_SUCH_ITEM;
    if (bad_side(left) || bad_side(right))
        return BAD_SIDE;
    if (c->row_count == 0 || is_refutation(c->rows[c->row_count - 1].rule))
        return CLAIM_DIFFERS;
    struct sequent last = sides_of(c, &c->rows[c->row_count - 1]);
    if (!same(last.left, (struct side){left_entries, left.count}) || !same(last.right, (struct side){right_entries, right.count}))
        return CLAIM_DIFFERS;
    c->stage = 4;
    return judge_model(c, last.left, last.right);
}

/* ---- the text */

static uint32_t judge_line(struct checker *c, const uint8_t **at) {
    uint8_t kind = *(*at)++;
    if (kind == '\n' || *(*at)++ != '\t')
        return BAD_LINE;
    switch (kind) {
    case 'N':
        return row_line(c, at);
    case 'F':
        return formula_line(c, at);
    case 'A':
        return atom_line(c, at);
    case 'M':
        return model_line(c, at);
    case 'C':
        return claim_line(c, at);
    default:
        return BAD_LINE;
    }
}

enum extent { WHOLE, BEGINNING };

static struct elk_answer judge_lines(struct checker *c, size_t text_length, enum extent extent) {
    const uint8_t *at = c->text, *text_end = c->text + text_length;
    uint32_t number = ACCEPTED;
    while (at < c->end && number == ACCEPTED) {
        c->line++;
        number = judge_line(c, &at);
    }
    if (number >= MODEL_MISSING_OR_UNWANTED && c->model_line != 0)
        return (struct elk_answer){number, c->model_line};
    if (number != ACCEPTED)
        return (struct elk_answer){number, c->line};
    if (c->end != text_end)
        return (struct elk_answer){BAD_LINE, c->line + 1};
    if (c->stage != 4 && extent == WHOLE)
        return (struct elk_answer){NO_CLAIM, c->line + 1};
    return (struct elk_answer){ACCEPTED, c->line};
}

enum { TABLES = 5 };

struct table {
    uint16_t *at;
    size_t length;
};

static void clear(const struct table lent[TABLES]) {
    for (int i = 0; i < TABLES; i++)
        memset(lent[i].at, 0, lent[i].length * sizeof *lent[i].at);
}

/* Judges a text in the lent tables, and counts what they hold. */
static struct elk_opened judged(const uint8_t *text, size_t text_length, const struct table lent[TABLES], enum extent extent) {
    clear(lent);
    if (lent[0].length < 2 * ATOMS || lent[1].length < 3 * FORMULAS || lent[2].length < 8 * ROWS || lent[3].length < ENTRIES
        || lent[4].length < ENTRIES)
        return (struct elk_opened){{SHORT_TABLE, 0}, {0}};
    if (text_length > BYTES)
        return (struct elk_opened){{TOO_LONG, 0}, {0}};

    struct checker c;
    memset(&c, 0, offsetof(struct checker, traits));
    c.text = text;
    c.end = text + text_length;
    while (c.end > text && c.end[-1] != '\n')
        c.end--;
    c.names = (struct name *)lent[0].at;
    c.nodes = (struct node *)lent[1].at;
    c.rows = (struct row *)lent[2].at;
    c.left = lent[3].at;
    c.right = lent[4].at;
    enter_words(&c);
    struct elk_answer answer = judge_lines(&c, text_length, extent);
    if (answer.number != ACCEPTED) {
        clear(lent);
        return (struct elk_opened){answer, {0}};
    }
    return (struct elk_opened){answer, {c.atoms, c.formulas, c.row_count, c.left_used, c.right_used}};
}

struct elk_answer elk_judge(const uint8_t *text, size_t text_length,
                            uint16_t *names, size_t names_length,
                            uint16_t *formulas, size_t formulas_length,
                            uint16_t *rows, size_t rows_length,
                            uint16_t *left, size_t left_length,
                            uint16_t *right, size_t right_length) {
    struct table lent[TABLES] = {
        {names, names_length}, {formulas, formulas_length}, {rows, rows_length}, {left, left_length}, {right, right_length},
    };
    return judged(text, text_length, lent, WHOLE).answer;
}

struct elk_opened elk_open(const uint8_t *text, size_t text_length,
                           uint16_t *names, size_t names_length,
                           uint16_t *formulas, size_t formulas_length,
                           uint16_t *rows, size_t rows_length,
                           uint16_t *left, size_t left_length,
                           uint16_t *right, size_t right_length) {
    struct table lent[TABLES] = {
        {names, names_length}, {formulas, formulas_length}, {rows, rows_length}, {left, left_length}, {right, right_length},
    };
    return judged(text, text_length, lent, BEGINNING);
}

struct elk_answer elk_check(const uint8_t *text, size_t text_length) {
    uint16_t names[2 * ATOMS], formulas[3 * FORMULAS], rows[8 * ROWS], left[ENTRIES], right[ENTRIES];
    return elk_judge(text, text_length, names, 2 * ATOMS, formulas, 3 * FORMULAS, rows, 8 * ROWS, left, ENTRIES, right, ENTRIES);
}

/* ---- a row after tables that were handed in. A row is read into room of its own, so that a refusal leaves nothing to take back. */

/* Where an open file is read; where it is written is the caller's affair. */
struct handed {
    const uint16_t *formulas, *rows, *left, *right;
    size_t formulas_length, rows_length, left_length, right_length;
};

struct tried {
    struct elk_answer answer;
    struct row row;
    uint16_t left[ON_SIDE], right[ON_SIDE];
};

static bool zero_from(const uint16_t *table, size_t used, size_t length) {
    uint16_t seen = 0;
    for (size_t i = used; i < length; i++)
        seen |= table[i];
    return seen == 0;
}

static bool formulas_stand(struct checker *c, size_t count) {
    for (size_t i = 0; i < count; i++) {
        struct node n = c->nodes[i];
        bool parts;
        switch (n.word) {
        case BOT:
            parts = n.first == ABSENT && n.second == ABSENT;
            break;
        case ATOM:
            parts = n.first < c->atoms && n.second == ABSENT;
            break;
        case NOT:
            parts = n.first < i && n.second == ABSENT;
            break;
        default:
            parts = n.word <= IMP && n.first < i && n.second < i;
        }
        if (!parts || formula_exists(c, n))
            return false;
        learn(c, n);
    }
    return true;
}

static bool side_stands(struct side s, size_t formulas) {
    for (uint32_t i = 1; i < s.count; i++)
        if (s.at[i - 1] >= s.at[i])
            return false;
    return s.count == 0 || s.at[s.count - 1] < formulas;
}

static bool rows_stand(struct checker *c, struct elk_counts counts) {
    while (c->row_count < counts.rows) {
        const struct row *r = &c->rows[c->row_count];
        uint32_t premises = (r->premises[0] != ABSENT) + (r->premises[1] != ABSENT);
        if (r->rule >= RULES || (r->principal != ABSENT && r->principal >= counts.formulas)
            || (premises > 0 && r->premises[0] >= c->row_count) || (premises > 1 && r->premises[1] >= c->row_count))
            return false;
        if (r->left_start != c->left_used || r->left_length > ON_SIDE || r->left_length > counts.left - c->left_used
            || r->right_start != c->right_used || r->right_length > ON_SIDE || r->right_length > counts.right - c->right_used)
            return false;
        struct sequent conclusion = sides_of(c, r);
        if (!side_stands(conclusion.left, counts.formulas) || !side_stands(conclusion.right, counts.formulas)
            || judge_row(c, r, premises, conclusion) != ACCEPTED)
            return false;
        count_row(c, r);
    }
    return c->left_used == counts.left && c->right_used == counts.right;
}

static bool within_limits(struct elk_counts counts) {
    return counts.atoms <= ATOMS && counts.formulas <= FORMULAS && counts.rows <= ROWS && counts.left <= ENTRIES && counts.right <= ENTRIES;
}

/* The number of a row's text, and the row if that is 0. Apart, so that the lines of whole texts are compiled as if alone. */
static __attribute__((noinline)) uint32_t try_text(struct checker *c, const uint8_t *text, size_t text_length, struct tried *tried) {
    const uint8_t *at = text;
    struct draft d;
    c->end = text + text_length;
    if (text_length == 0 || memchr(text, '\n', text_length) != c->end - 1 || *at++ != 'N' || *at++ != '\t'
        || !read_row(c, &at, tried->left, ON_SIDE, tried->right, ON_SIDE, &d))
        return BAD_LINE;
    uint32_t early = early_number(c, &d);
    if (early != ACCEPTED)
        return early;
    tried->row = stored(c, &d);
    return judge_row(c, &tried->row, d.premises.count, (struct sequent){{tried->left, d.left.count}, {tried->right, d.right.count}});
}

static void try_row(const uint8_t *text, size_t text_length, const struct handed *file, struct elk_counts counts, struct tried *tried) {
    tried->answer = (struct elk_answer){SHORT_TABLE, 0};
    if (file->formulas_length < 3 * FORMULAS || file->rows_length < 8 * ROWS || file->left_length < ENTRIES || file->right_length < ENTRIES)
        return;
    tried->answer.number = OUT_OF_ORDER;
    if (!within_limits(counts) || !zero_from(file->formulas, 3 * counts.formulas, file->formulas_length)
        || !zero_from(file->rows, 8 * counts.rows, file->rows_length) || !zero_from(file->left, counts.left, file->left_length)
        || !zero_from(file->right, counts.right, file->right_length))
        return;
    struct checker c;
    memset(&c, 0, offsetof(struct checker, traits));
    c.nodes = (struct node *)file->formulas;
    c.rows = (struct row *)file->rows;
    c.left = (uint16_t *)file->left;
    c.right = (uint16_t *)file->right;
    c.atoms = (uint32_t)counts.atoms;
    if (!formulas_stand(&c, counts.formulas) || !rows_stand(&c, counts))
        return;
    tried->answer.number = TOO_LONG;
    if (text_length > BYTES)
        return;
    enter_words(&c);
    tried->answer = (struct elk_answer){try_text(&c, text, text_length, tried), 1};
}

struct elk_opened elk_add(const uint8_t *text, size_t text_length,
                          const uint16_t *formulas, size_t formulas_length,
                          uint16_t *rows, size_t rows_length,
                          uint16_t *left, size_t left_length,
                          uint16_t *right, size_t right_length,
                          struct elk_counts counts) {
    struct handed file = {formulas, rows, left, right, formulas_length, rows_length, left_length, right_length};
    struct tried tried;
    try_row(text, text_length, &file, counts, &tried);
    if (tried.answer.number == ACCEPTED) {
        memcpy(rows + 8 * counts.rows++, &tried.row, sizeof tried.row);
        memcpy(left + counts.left, tried.left, tried.row.left_length * sizeof *left);
        memcpy(right + counts.right, tried.right, tried.row.right_length * sizeof *right);
        counts.left += tried.row.left_length;
        counts.right += tried.row.right_length;
    }
    return (struct elk_opened){tried.answer, counts};
}

struct elk_answer elk_preview(const uint8_t *text, size_t text_length,
                              const uint16_t *formulas, size_t formulas_length,
                              const uint16_t *rows, size_t rows_length,
                              const uint16_t *left, size_t left_length,
                              const uint16_t *right, size_t right_length,
                              struct elk_counts counts) {
    struct handed file = {formulas, rows, left, right, formulas_length, rows_length, left_length, right_length};
    struct tried tried;
    try_row(text, text_length, &file, counts, &tried);
    return tried.answer;
}

/* ---- rows in words: written straight from the filled tables */

struct phrase {
    const char *words;
    size_t length;
};
#define PHRASE(words) {words, sizeof words - 1}

static const struct phrase meanings[RULES] = {
    PHRASE("only atoms are given, so the negation of an atom that is not given holds by default"), /* def */
    PHRASE("a given formula is itself one of the alternatives"), /* same */
    PHRASE("two given parts are given together as their conjunction"), /* andl */
    PHRASE("each of two parts is shown as an alternative, so their conjunction is one"), /* andr */
    PHRASE("one more alternative is added to those already shown"), /* wr */
    PHRASE("contradiction is dropped from the alternatives, as it never holds"), /* bot */
    PHRASE("two alternatives are put together as their disjunction"), /* orr */
    PHRASE("each part of a given disjunction is taken in turn, the second with the first as one more alternative"), /* orl */
    PHRASE("an alternative is dropped, as its negation is given"), /* notl */
    PHRASE("an implication takes the place of its second part among the alternatives, and its first part is no longer given"), /* impr */
    PHRASE("an implication is given, as the first row has its second part given and shows its first part negated, the second its first part"), /* impl */
    PHRASE("a formula is no longer given, and its negation is one more alternative"), /* notr */
    PHRASE("a formula that the first row has as an alternative and the second row as given is cut out, and the rest is joined"), /* rcut */
    PHRASE("the one set of atoms that is left as a model is not stable, as the second row shows, so any alternatives may stand"), /* unst */
    PHRASE("the counter-case can be read off, as there are only atoms, contradiction and negations of these"), /* xini */
    PHRASE("a double negation holds in the counter-case, as the single negation does not"), /* xnnl */
    PHRASE("a double negation does not hold in the counter-case, as the single negation does"), /* xnnr */
    PHRASE("a conjunction holds in the counter-case, as both its parts do"), /* xandl */
    PHRASE("a conjunction does not hold in the counter-case, as its first part does not"), /* xandr1 */
    PHRASE("a conjunction does not hold in the counter-case, as its second part does not"), /* xandr2 */
    PHRASE("a disjunction does not hold in the counter-case, as neither of its parts does"), /* xorr */
    PHRASE("a disjunction holds in the counter-case, as its first part does"), /* xorl1 */
    PHRASE("a disjunction holds in the counter-case, as its second part does"), /* xorl2 */
    PHRASE("an implication holds in the counter-case, as neither its first part nor the negation of its second part does"), /* ximpl1 */
    PHRASE("an implication holds in the counter-case, as its second part does"), /* ximpl2 */
    PHRASE("an implication holds in the counter-case, as the negation of its first part does"), /* ximpl3 */
    PHRASE("an implication does not hold in the counter-case, as its first part does and its second part does not"), /* ximpr1 */
    PHRASE("an implication does not hold in the counter-case, as the negation of its second part does and that of its first part does not"), /* ximpr2 */
    PHRASE("a negated implication holds in the counter-case, as the negation of its second part does and that of its first part does not"), /* xnimpl */
    PHRASE("a negated implication does not hold in the counter-case, as the negation of its first part does"), /* xnimpr1 */
    PHRASE("a negated implication does not hold in the counter-case, as the negation of its second part does not"), /* xnimpr2 */
    PHRASE("a negated conjunction holds in the counter-case, as the negation of its first part does"), /* xnandl1 */
    PHRASE("a negated conjunction holds in the counter-case, as the negation of its second part does"), /* xnandl2 */
    PHRASE("a negated conjunction does not hold in the counter-case, as the negation of neither part does"), /* xnandr */
    PHRASE("a negated disjunction holds in the counter-case, as the negations of both its parts do"), /* xnorl */
    PHRASE("a negated disjunction does not hold in the counter-case, as the negation of its first part does not"), /* xnorr1 */
    PHRASE("a negated disjunction does not hold in the counter-case, as the negation of its second part does not"), /* xnorr2 */
    PHRASE("a formula takes the place of a given one that holds in the same cases of here-and-there"), /* swap */
};

/* The words of a list: before it, between its items, and in its place if it is empty. */
struct listing {
    struct phrase opening, between, empty;
};

static const struct listing premise_words = {PHRASE("from row "), PHRASE(" and row "), PHRASE("from no other row")};

/* Left and right, of sequents and of refutations. */
static const struct listing side_words[2][2] = {
    {{PHRASE("if these are all that is given: "), PHRASE(", "), PHRASE("if nothing is given")},
     {PHRASE("then in every equilibrium model at least one of these alternatives holds: "), PHRASE(", "),
      PHRASE("then there is no equilibrium model")}},
    {{PHRASE("there is a counter-case in here-and-there where all of these hold: "), PHRASE(", "),
      PHRASE("there is a counter-case in here-and-there where nothing need hold")},
     {PHRASE("and none of these holds: "), PHRASE(", "), PHRASE("and nothing need fail")}},
};

struct writer {
    uint8_t *at, *end;
    const uint8_t *text;
    const struct name *names;
    const struct node *nodes;
};

/* Each writer tells whether there was room. */
static inline bool put(struct writer *w, const void *bytes, size_t length) {
    if ((size_t)(w->end - w->at) < length)
        return false;
    memcpy(w->at, bytes, length);
    w->at += length;
    return true;
}

#define PUT(w, words) put(w, words, sizeof words - 1)

static inline bool put_phrase(struct writer *w, struct phrase p) { return put(w, p.words, p.length); }

static bool put_number(struct writer *w, uint32_t number) {
    uint8_t digits[5], *first = digits + sizeof digits;
    do
        *--first = (uint8_t)('0' + number % 10);
    while (number /= 10);
    return put(w, first, (size_t)(digits + sizeof digits - first));
}

static bool put_formula(struct writer *w, uint16_t number) {
    const struct node *n = &w->nodes[number];
    switch (n->word) {
    case BOT:
        return PUT(w, "contradiction");
    case ATOM:
        return PUT(w, "\"") && put(w, w->text + w->names[n->first].start, w->names[n->first].length) && PUT(w, "\"");
    case NOT:
        return PUT(w, "not ") && put_formula(w, n->first);
    case AND:
        return PUT(w, "(") && put_formula(w, n->first) && PUT(w, " and ") && put_formula(w, n->second) && PUT(w, ")");
    case OR:
        return PUT(w, "(") && put_formula(w, n->first) && PUT(w, " or ") && put_formula(w, n->second) && PUT(w, ")");
    default:
        return PUT(w, "(if ") && put_formula(w, n->first) && PUT(w, " then ") && put_formula(w, n->second) && PUT(w, ")");
    }
}

static bool put_side(struct writer *w, const struct listing *words, const uint16_t *side, size_t count) {
    if (count == 0)
        return put_phrase(w, words->empty);
    for (size_t i = 0; i < count; i++)
        if (!put_phrase(w, i == 0 ? words->opening : words->between) || !put_formula(w, side[i]))
            return false;
    return true;
}

static bool put_premises(struct writer *w, const uint16_t premises[2]) {
    if (premises[0] == ABSENT)
        return put_phrase(w, premise_words.empty);
    return put_phrase(w, premise_words.opening) && put_number(w, premises[0])
        && (premises[1] == ABSENT || (put_phrase(w, premise_words.between) && put_number(w, premises[1])));
}

static bool put_sentence(struct writer *w, uint32_t number, const struct row *r, const uint16_t *left, const uint16_t *right) {
    const struct listing *words = side_words[is_refutation(r->rule)];
    return PUT(w, "Row ") && put_number(w, number) && PUT(w, ": ") && put_phrase(w, meanings[r->rule]) && PUT(w, "; ")
        && (r->principal == ABSENT ? PUT(w, "about no single formula") : PUT(w, "about the formula ") && put_formula(w, r->principal))
        && PUT(w, "; ") && put_premises(w, r->premises) && PUT(w, "; ")
        && put_side(w, &words[0], left + r->left_start, r->left_length) && PUT(w, "; ")
        && put_side(w, &words[1], right + r->right_start, r->right_length) && PUT(w, ".\n");
}

struct elk_answer elk_words(const uint8_t *text, size_t text_length,
                            uint16_t *names, size_t names_length,
                            uint16_t *formulas, size_t formulas_length,
                            uint16_t *rows, size_t rows_length,
                            uint16_t *left, size_t left_length,
                            uint16_t *right, size_t right_length,
                            uint8_t *words, size_t words_length) {
    struct table lent[TABLES] = {
        {names, names_length}, {formulas, formulas_length}, {rows, rows_length}, {left, left_length}, {right, right_length},
    };
    struct elk_opened file = judged(text, text_length, lent, WHOLE);
    struct elk_answer answer = file.answer;
    struct writer w = {words, words + words_length, text, (struct name *)names, (struct node *)formulas};
    for (uint32_t i = 0; answer.number == ACCEPTED && i < file.counts.rows; i++)
        if (!put_sentence(&w, i, (struct row *)rows + i, left, right)) {
            clear(lent);
            w.at = words;
            answer = (struct elk_answer){NO_ROOM, 0};
        }
    memset(w.at, 0, (size_t)(w.end - w.at));
    return answer;
}
