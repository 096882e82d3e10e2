/* A table written out as a program in document 01's notation, which reads back as the table. */
#ifndef PROGRAM_H
#define PROGRAM_H

#include <stdio.h>

#include "text/names.h"

/*
 * Declarations, then the command, with the labels of its sheet at the right and those of the end below.  The version stands first
 * where it is not the lowest that declares so many variables, which is what `flow assemble` writes of itself.
 */
void print_program(FILE *to, const struct table *table, const struct names *names, const struct buffer *sheet);

#endif
