/* Values of expressions: it is the library that evaluates them. */
#ifndef VALUES_H
#define VALUES_H

#include <stdbool.h>

#include "records/table.h"

/* The value that a numeric of a table has where its variables are these words.  False: the library gives none. */
bool value_of(const struct table *table, unsigned numeric, const struct buffer *variables, uint32_t *value);

#endif
