/* Files written line by line. */
#ifndef WRITING_H
#define WRITING_H

#include "shapes.h"

enum { NONE = -1 };

extern const struct side empty;

struct side with(struct side s, int formula);
struct side without(struct side s, int formula);
struct side one(int a);
struct side two(int a, int b);

/* What does not fit into the text only counts for its length. */
void put(struct text *t, const char *format, ...);
void put_side(struct text *t, struct side s, bool in_runs);

int formula(struct file *f, const char *word, int first, int second);
int negation(struct file *f, int a);

/* The formula of a new atom. */
int atom(struct file *f);

/* The conjunction of formulas, nested to the right. */
int joined(struct file *f, const int *formulas, int count);

int row(struct file *f, const char *rule, int principal, int first, int second, struct side left, struct side right);

/* A model beside the claim. In all shapes that have one its atoms are made first, and so have the numbers of their formulas. */
void model(struct file *f, struct side atoms);

/* A row to claim, and its model, where a shape ends in what no small model confirms. */
void close_with(struct file *f, int p);

/* What rows of unst over some atoms rest on. L is ~~q, ~(~q&Z), where Z joins all other atoms, and S is all atoms. L has no equilibrium
 * model, so that any right side follows. */
enum { IN_UNST = 63 };

struct unstable {
    int atoms, p[IN_UNST], not_p[IN_UNST], doubled[IN_UNST], middle[IN_UNST]; /* p, ~p, ~~p and p|~p of each atom */
    struct side l;
    int k, choice, refutation; /* K, and the premises */
    int lacking;               /* the refutation without a formula of L */
};

/* Makes the premises, where atoms and their formulas have been made. */
void unstable_premises(struct file *f, struct unstable *u);

#endif
