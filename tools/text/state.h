/* States: a value for each variable and cell, as text (`v0=4,a1=1 2 3,a2[0]=77`) or as a file of text or words. */
#ifndef STATE_H
#define STATE_H

#include <stdbool.h>
#include <stdio.h>

#include "library/runs.h"
#include "text/names.h"

#define STATE_USAGE \
    "  STATE is text, as v0=4,a1=1 2 3,a2[0]=77 (what is not given is 0), or @FILE: of text, or of words of 4 bytes,\n" \
    "  variables, then cells.\n" \
    "  With --flag, f is no part of a state and starts at 0.\n"

/*
 * Reads the operand, which is called so in messages, into an empty state of the table's first variables, so many, and all its
 * cells.  Whatever a text does not give is 0.  False, with a message: a file cannot be read, its words are not as many as the
 * state's, or a text is no state.
 */
bool read_state(const char *argument, const char *called, const struct table *table, const struct names *names,
                unsigned variables, struct state *state);
void state_free(struct state *state);

/* Prints a blank and the state's text, without the zeros at an array's end; nothing where there is neither variable nor array. */
void print_state(FILE *to, const struct names *names, const struct table *table, unsigned variables,
                 const uint8_t *variable_words, const uint8_t *cell_words);

/*
 * The first saves of the save words, so many, a line each: the state and the pending list.  A pending list goes up to its last
 * entry that is not node 0: the zeros behind it are most often no entries.
 */
void print_saves(FILE *to, const char *indent, const struct names *names, const struct table *table, const struct buffer *saves,
                 unsigned open_saves);

/* The first variable or array that the table labels public and in which the states differ; NULL: they agree in public. */
const char *public_difference(const struct state states[2], const struct table *table, const struct names *names);

#endif
