/* An operand that is a script or state as text or, behind an @, the name of a file that holds one. */
#ifndef OPERAND_H
#define OPERAND_H

#include <stdbool.h>

#include "records/buffer.h"

struct operand {
    const char *name; /* for messages: the file's, or what the operand is called in the usage */
    const char *hint; /* for the end of a message: how a file is given, where the text looks like the name of one; else "" */
    bool file;
    struct buffer bytes;
};

/* False, with a message: the file cannot be read, or the operand is its name without an @. */
bool operand_open(struct operand *operand, const char *argument, const char *called);
void operand_free(struct operand *operand);

/* Does it hold a zero byte?  No text does. */
bool operand_holds_zero(const struct operand *operand);

#endif
