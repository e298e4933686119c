/* The seven calls of Curdfuture for C: link target/staticlib/libcurdfuture.a, which `tools/build curdfuture` writes.
 *
 * From files alone, curdfuture_write_formula writes a table's formula and curdfuture_list_answer lists the procedure that a solver's
 * answer gives. The calls behind them leave the tree of places and the values in the caller's hands.
 *
 * Each call takes any contents and any lengths. It returns the number of the first question of document 01 that is not met, or 0 where all
 * that it puts are met; no question has the number 0. Beside each call stand all the numbers that it may return. At 0 the numbers behind
 * the last pointers hold the call's values; otherwise nothing that was lent has changed.
 *
 * Of the caller C wants what Rattle's types say: a pointer is aligned and never NULL, also where the length beside it is 0; it leads to
 * as many elements as that length says; what is lent for writing overlaps nothing else that is lent. Lengths and counts are in elements:
 * bytes of files, texts and listings, records of a tree, values. A call uses up to some 360 KB of stack. */
#ifndef CURDFUTURE_H
#define CURDFUTURE_H

#include <stddef.h>
#include <stdint.h>

/* How much a call wants to be lent (question 1). */
#define CURDFUTURE_TREE_RECORDS 1024
#define CURDFUTURE_TEXT_BYTES 1024
#define CURDFUTURE_VALUES 8191
#define CURDFUTURE_LISTING_BYTES 24576

#ifdef __cplusplus
extern "C" {
#endif

/* A record of the tree of places. A set has bit i for number i. */
struct curdfuture_node {
    uint64_t depth;    /* the node's depth */
    uint64_t parent;   /* its parent's number, 0 at the root */
    uint64_t children; /* its child count */
    uint64_t steps;    /* the set of steps it may hold */
    uint64_t jobs;     /* the set of jobs it may hold */
};

/* Checks a table: how many nodes, variables and clauses there are.
 * Returns 0, or 2 to 9. */
size_t curdfuture_check(const uint8_t *file, size_t file_length, size_t *nodes, size_t *variables, size_t *clauses);

/* Writes the formula's text from a line on, as many whole lines as fit; line 0 is the header, line k clause k. How many bytes were used,
 * and the next line: one more than there are clauses at the end. Bytes behind those used stay as they were.
 * Returns 0, 1 to 9, or 11: there is no such line. */
size_t curdfuture_write_formula(const uint8_t *file, size_t file_length, size_t line, uint8_t *text, size_t text_length, size_t *used,
                                size_t *next);

/* Lists the procedure that a solver's answer gives: how many bytes were used. Bytes behind them stay as they were.
 * Returns 0, 1 to 9, or 12 to 15. */
size_t curdfuture_list_answer(const uint8_t *file, size_t file_length, const uint8_t *answer, size_t answer_length, uint8_t *listing,
                              size_t listing_length, size_t *used);

/* Builds the tree of places, one record a node: how many nodes there are. Records behind theirs stay as they were.
 * Returns 0, or 1 to 9. */
size_t curdfuture_build(const uint8_t *file, size_t file_length, struct curdfuture_node *tree, size_t tree_length, size_t *nodes);

/* Writes what curdfuture_write_formula writes, where the tree that is lent is this table's.
 * Returns 0, or 1 to 11. */
size_t curdfuture_write_text(const uint8_t *file, size_t file_length, const struct curdfuture_node *tree, size_t tree_length, size_t line,
                             uint8_t *text, size_t text_length, size_t *used, size_t *next);

/* Takes a solver's answer: how many values were written; variable j's is element j - 1, 1 if it is true and 0 if not. Values behind them
 * stay as they were.
 * Returns 0, 1 to 10, or 12 to 15. */
size_t curdfuture_take_answer(const uint8_t *file, size_t file_length, const struct curdfuture_node *tree, size_t tree_length,
                              const uint8_t *answer, size_t answer_length, uint8_t *values, size_t values_length, size_t *count);

/* Lists the procedure that values give: how many bytes were used. Bytes behind them stay as they were.
 * Returns 0, 1 to 10, 14 or 15. */
size_t curdfuture_list_procedure(const uint8_t *file, size_t file_length, const struct curdfuture_node *tree, size_t tree_length,
                                 const uint8_t *values, size_t values_length, uint8_t *listing, size_t listing_length, size_t *used);

#ifdef __cplusplus
}
#endif

#endif
