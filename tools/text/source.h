/* A program's text, put together into a table: parts first, left to right, then the parent. */
#ifndef SOURCE_H
#define SOURCE_H

#include <stdbool.h>
#include <stdio.h>

#include "text/names.h"

struct source {
    struct names names; /* as declared */
    struct buffer table;
};

/*
 * `name` is the source's, for messages: NAME:LINE:COLUMN: message on `errors`, the first error alone.  False: there was one, and
 * the table is not whole.  The table has the version that stands first in the text, or the lowest that declares its variables.  It
 * keeps to the limits; whether it is in order is the library's to judge.
 */
bool assemble_source(struct source *source, const char *name, const struct buffer *text, FILE *errors);
void source_free(struct source *source);

#endif
