/* A table written out record by record. */
#ifndef LISTING_H
#define LISTING_H

#include <stdio.h>

#include "text/names.h"

/*
 * A line for each record that begins before the byte `until`: the byte at which it begins, the node's number, its kind and its
 * fields.  Up to there the library must have found the records in order; `names` has a name for whatever they hold.
 */
void print_records(FILE *to, const struct buffer *bytes, const struct names *names, uint64_t until);

#endif
