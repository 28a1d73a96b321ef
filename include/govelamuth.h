/* Govelamuth: the judging of a whole derivation file, and of one row after the other in an open file, for C.
 *
 * All calls are proved to answer, for any bytes, what the specification says. elk_check, elk_judge and elk_words judge a whole text:
 * number 0 with the line of the claim if it is accepted, else the number of a refusal with the line that it belongs to, 0 for numbers
 * 1, 2 and 14. If the number is 0, the text's claim does not fail: every equilibrium model of its left side satisfies a formula of its
 * right side. And either the claim is confirmed, since its left side has an equilibrium model, the one on the text's M line; or a
 * contradiction is shown: the text has no M line, the claim's right side is empty or holds only falsum, and its left side has no
 * equilibrium model. When a constraint, ~A or A-># for any formula A, joins the left side, the claim is still entailed; a contradiction is
 * still shown, and a claim still confirmed exactly if the model on the M line does not satisfy A: if it does, another model has to be named,
 * and there may be none. When a fact joins, nothing of the kind is promised.
 *
 * elk_open, elk_add and elk_preview judge a text that is still being written. Their number 0 says that each line so far passes; by
 * itself it confirms no claim, since there need be none. They are in libgovelamuth_open.a, the others in libgovelamuth.a; neither
 * library needs the other.
 *
 * All calls need no initialisation, keep no pointer, touch nothing but what is lent, use no heap and no global state, and so are
 * reentrant. A pointer that comes with length 0 is never followed, but must not be null: pass the address of anything.
 * The lent memory must not overlap.
 */
#ifndef GOVELAMUTH_H
#define GOVELAMUTH_H

#include <stddef.h>
#include <stdint.h>

/* What a number means. 0 is told of a whole text; of a beginning or a row see elk_open and elk_add. */
enum elk_number {
    ELK_ACCEPTED = 0, /* confirmed, or a contradiction shown */
    ELK_SHORT_TABLE = 1, /* a lent table is too short */
    ELK_TOO_LONG = 2, /* text over 65,536 bytes */
    ELK_BAD_LINE = 3, /* no LF, unknown kind or word, wrong fields, number or list badly written */
    ELK_OUT_OF_ORDER = 4, /* kind out of order, a line after C, not the next number, or no open file */
    ELK_FULL = 5, /* a stored atom, formula, row or pool passes its most */
    ELK_BAD_NAME = 6, /* wrong form, or used before */
    ELK_NO_SUCH_ITEM = 7, /* a referred atom, formula or row is not earlier in the text */
    ELK_FORMULA_AGAIN = 8, /* an equal formula exists */
    ELK_BAD_SIDE = 9, /* not strictly rising, or over 64 */
    ELK_WRONG_PREMISES = 10, /* wrong number or kind of premises, or principal present or absent against the rule */
    ELK_WRONG_STEP = 11, /* no sets make the row an instance of its rule */
    ELK_CLAIM_DIFFERS = 12, /* the last row is not an ELK row with exactly these sides, or there is no row */
    ELK_NO_CLAIM = 13, /* the text ends with no C line */
    ELK_NO_ROOM = 14, /* the lent text is too short for what is to be written */
    ELK_MODEL_MISSING_OR_UNWANTED = 15, /* no M line though the claim wants a model, or an M line though it wants none */
    ELK_MODEL_TOO_LARGE = 16, /* the model has over 16 atoms */
    ELK_NOT_IN_EQUILIBRIUM = 17, /* the model is not an equilibrium model of the claim's left side */
    ELK_TOO_MANY_ATOMS = 18, /* no formula fits the swap, and one that leaves the sides right has over 8 atoms together with the principal */
};

struct elk_answer {
    uint32_t number; /* of enum elk_number */
    uint32_t line;
};

/* The answer to a text. It takes about 238 KiB of stack, most of it for tables of its own. */
struct elk_answer elk_check(const uint8_t *text, size_t text_length);

/* The same, with the accepted file in the lent tables: what it holds and then zeros to the end of each, or zeros alone if it is
 * refused. Sides are stored written out: all ways to write a set, with runs or without, leave the same numbers.
 * The least lengths are 128, 3,072, 16,384, 16,384 and 16,384 numbers; with a shorter table the answer is number 1.
 * What the tables held before does not matter. It takes about 135 KiB of stack. */
struct elk_answer elk_judge(const uint8_t *text, size_t text_length,
                            uint16_t *names, size_t names_length,
                            uint16_t *formulas, size_t formulas_length,
                            uint16_t *rows, size_t rows_length,
                            uint16_t *left, size_t left_length,
                            uint16_t *right, size_t right_length);

/* The same, with the rows of the accepted file in words as well: one sentence for each row, in their order, each ended by a line
 * feed, and then zeros to the end of the lent text. docs/FORMAT.md has the wording. Two accepted texts with equal words have the
 * same rows, formula for formula, and no byte of the words is zero.
 * If the text is accepted but its words are longer than the lent text, the answer is number 14 with line 0; room for exactly the
 * words is enough. After any refusal, number 14 too, the lent text and the five tables are zeros alone. The lent text may have
 * any length, 0 too; what it held before does not matter. It takes about 273 KiB of stack, most of it
 * for formulas as deep as a file allows: each part is written by a call of its own. */
struct elk_answer elk_words(const uint8_t *text, size_t text_length,
                            uint16_t *names, size_t names_length,
                            uint16_t *formulas, size_t formulas_length,
                            uint16_t *rows, size_t rows_length,
                            uint16_t *left, size_t left_length,
                            uint16_t *right, size_t right_length,
                            uint8_t *words, size_t words_length);

/* How much an open file holds. These counts and the tables of formulas, rows, left and right are all that an open file is: the caller
 * keeps them, and hands them in and takes them back with each row. */
struct elk_counts {
    size_t atoms;
    size_t formulas;
    size_t rows;
    size_t left;  /* entries of the left pool: of all left sides together */
    size_t right; /* entries of the right pool */
};

struct elk_opened {
    struct elk_answer answer;
    struct elk_counts counts;
};

/* Opens the beginning of a file. Tables, text and lines are judged as elk_judge judges them, but the text may stop after any line, or
 * be empty: number 13 is never given. Bytes after the last line feed earn number 3, on the line after the complete ones.
 * If every line passes, the answer is number 0 with the count of lines, and tables and counts hold the beginning. M and C lines are
 * judged as always and leave nothing in them: rows may be added all the same. After a refusal the tables are zeros alone, and so are
 * the counts. What the tables held before does not matter. It takes about 136 KiB of stack. */
struct elk_opened elk_open(const uint8_t *text, size_t text_length,
                           uint16_t *names, size_t names_length,
                           uint16_t *formulas, size_t formulas_length,
                           uint16_t *rows, size_t rows_length,
                           uint16_t *left, size_t left_length,
                           uint16_t *right, size_t right_length);

/* Adds a row to an open file. The text is one N line with its line feed and nothing else; any other text earns number 3. The names are
 * neither lent nor read.
 * The first of these that applies is the answer:
 * - number 1 with line 0 if a table is shorter than 3,072, 16,384, 16,384 or 16,384 numbers;
 * - number 4 with line 0 if counts and tables are no open file: a count passes its limit, or one of entries is not that of the rows'
 *   sides; a formula, row or pool breaks the rules of the text form; or some number after what the counts say, up to the end of the
 *   table, is not zero. Every row is judged again at each call, so that nothing rests on where the tables were meanwhile. Any count of
 *   atoms up to 64 is good that has all atoms in use;
 * - number 2 with line 0 if the text, this row alone, has over 65,536 bytes;
 * - with line 1, number 3, number 4 if the row's number is not the count of rows, and 5, 7, 9, 10, 18 and 11 as on an N line of a file;
 * - number 0 with line 1: the row stands behind the others in rows, left and right, as elk_open would put it there, and the counts that
 *   come back have it.
 * After any refusal, numbers 1, 2 and 4 too, the tables are as they were, and the counts that come back are those handed in. It takes
 * about 134 KiB of stack. */
struct elk_opened elk_add(const uint8_t *text, size_t text_length,
                          const uint16_t *formulas, size_t formulas_length,
                          uint16_t *rows, size_t rows_length,
                          uint16_t *left, size_t left_length,
                          uint16_t *right, size_t right_length,
                          struct elk_counts counts);

/* The answer that elk_add would give on a copy of the tables. Nothing is written. It takes about 134 KiB of stack. */
struct elk_answer elk_preview(const uint8_t *text, size_t text_length,
                              const uint16_t *formulas, size_t formulas_length,
                              const uint16_t *rows, size_t rows_length,
                              const uint16_t *left, size_t left_length,
                              const uint16_t *right, size_t right_length,
                              struct elk_counts counts);

#endif
