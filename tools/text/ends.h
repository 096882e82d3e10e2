/* How a run ended, in words. */
#ifndef ENDS_H
#define ENDS_H

#include <stdio.h>

#include "library/stuck.h"
#include "text/names.h"

/*
 * The words of the end; of a run that is stuck these are "stuck: " and why.  `whose` stands behind the number of a node: "", or
 * which table's it is.
 */
void print_end(FILE *to, const struct names *names, const struct table *table, const struct run *run,
               const struct stuck *stuck, const char *whose);

#endif
