/* Records in words: kinds, observations and directives; and lists of names. */
#ifndef WORDS_H
#define WORDS_H

#include <stddef.h>
#include <stdint.h>
#include <stdio.h>

#include "records/table.h"
#include "text/names.h"

/* What a noun ends in behind this number. */
const char *plural(size_t count);

/* The kind of a record of a table, by its name in document 01. */
const char *kind_in_words(unsigned kind);

/* step, force, load, store or rollback; of any other number, that it is none. */
const char *directive_in_words(unsigned kind);

/* For messages: which variables (the first so many) or arrays there are, as "v0 to v3", "i, j, x" or "no variable". */
struct names_words {
    char words[FLOW_MAX_VARIABLES * (NAME_BYTES + 2)];
};
struct names_words variables_in_words(const struct names *names, unsigned variables);
struct names_words arrays_in_words(const struct names *names);

/*
 * Observations that a machine has written: the one that begins here, and of a list a line each, at most so many.  An array is a
 * number, as in document 01, unless a source has declared names.
 */
void print_observation(FILE *to, const struct names *names, const uint8_t *record);
void print_observations(FILE *to, const char *indent, const struct names *names, const struct buffer *observations, size_t most);

/* Directives that the library has accepted, as in a script: the one that begins here; of a list, on one line, so many. */
void print_directive(FILE *to, const struct names *names, const uint8_t *record);
void print_directives(FILE *to, const struct names *names, const struct buffer *directives, size_t most);

#endif
