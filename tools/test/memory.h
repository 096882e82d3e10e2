/* What the command prints, taken into memory. */
#ifndef MEMORY_H
#define MEMORY_H

#include <stdbool.h>
#include <stdio.h>

#include "records/buffer.h"

struct printed {
    FILE *to; /* print to this */
    char *bytes;
    size_t length;
};

void print_open(struct printed *printed);

/* Hands over what was printed. */
struct buffer print_close(struct printed *printed);

/* The listing of a table; false: the library refuses it, and the listing is empty. */
bool listing_of(const struct buffer *table, bool flag, struct buffer *listing);

bool same_bytes(const struct buffer *one, const struct buffer *other);

#endif
