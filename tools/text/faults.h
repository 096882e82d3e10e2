/*
 * Why a table is refused, in words.  Number and place are the library's; the words are found by looking at the bytes, and where
 * they do not agree with number and place, they say so.  Safe for any bytes with any number and place.
 */
#ifndef FAULTS_H
#define FAULTS_H

#include <stdbool.h>
#include <stdio.h>

#include "library/calls.h"

/*
 * Prints a line for each fault, behind the indent.  Refusals 1 to 5: all faults of this number in the record at the place, in the
 * order of its fields.  6: every node that breaks the rule, by rising number.  8: what hardening would refuse by 9 as well.
 * From 10 up the fault is not in the table, which may then be NULL, and the line says what the refusal means.
 */
void print_faults(FILE *to, const char *indent, const struct buffer *table, struct answer answer);

/* Is it text, and so most likely a source that was taken for a table? */
bool is_text(const struct buffer *bytes);

/*
 * One line, for messages: "NAME: refused by 6 at byte 724: node 118 (skip, byte 724) is a child of no node", and how many faults
 * there are more.  From 8 up there is no place to name.  Of "-", the name is "standard input".
 */
void print_refusal(FILE *to, const char *name, const struct buffer *table, struct answer answer);

#endif
