/* Scripts: lists of directives, as text (`force; load 2 0; step`) or as a file of text or records. */
#ifndef SCRIPT_H
#define SCRIPT_H

#include <stdbool.h>

#include "text/names.h"

struct script {
    const char *name; /* for messages */
    bool records;     /* it was given as records, and so has bytes that messages can name */
    struct buffer directives;
};

/*
 * Reads the operand into an empty script.  Records are taken as they are: the library judges them.  False, with a message: a file
 * cannot be read, or a text is no script.
 */
bool read_script(const char *argument, const struct names *names, struct script *script);
void script_free(struct script *script);

#endif
