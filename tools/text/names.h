/* The names of a table's variables and arrays.  A table holds none: they are v0, v1, .. and a0, a1, .., or those of a source. */
#ifndef NAMES_H
#define NAMES_H

#include <stdbool.h>

#include "records/table.h"

enum { NAME_BYTES = 64 }; /* with the zero at its end */

struct names {
    unsigned variables, arrays; /* how many have a name */
    bool declared;              /* by a source */
    char variable[FLOW_MAX_VARIABLES][NAME_BYTES];
    char array[FLOW_MAX_ARRAYS][NAME_BYTES];
};

/* v0, v1, .. and a0, a1, .. for a table; with `flag` its last variable is named by name_flag. */
void number_names(struct names *names, const struct table *table, bool flag);

/* Calls the last variable, if there is one, f, or where another name is this f', f'' and so on; behind the longest comes g. */
void name_flag(struct names *names);

/* The number of a variable or array; -1: none has this name. */
int variable_named(const struct names *names, const char *name, size_t length);
int array_named(const struct names *names, const char *name, size_t length);

#endif
