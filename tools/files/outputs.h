/* What an output must not be. */
#ifndef OUTPUTS_H
#define OUTPUTS_H

#include <stdbool.h>

/* False, with a message: what is written would change what is read. */
bool spares_input(const char *output, const char *input);

/* For bytes that are no text.  False, with a message: it is standard output, by whatever name, and that is a terminal. */
bool takes_bytes(const char *output);

#endif
