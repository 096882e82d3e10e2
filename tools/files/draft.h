/* Text that is put together in memory, to be written at once. */
#ifndef DRAFT_H
#define DRAFT_H

#include <stdbool.h>
#include <stdio.h>

struct draft {
    FILE *to; /* where it is printed to */
    char *text; /* all of it, once that is closed */
    size_t length;
};

/* False, with a message that names the path: there is no memory for it, and nothing to write. */
bool draft_open(struct draft *draft, const char *path);

/* Makes it the contents of the file, by write_file, and frees it.  False: it could not be written, and there was a message. */
bool draft_write(struct draft *draft, const char *path);

#endif
