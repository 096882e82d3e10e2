/* The files of one call of flow harden: the tables that are read, where each goes, and the report; and that these do not meet. */
#ifndef BATCH_H
#define BATCH_H

#include <stdbool.h>
#include <stddef.h>

#include "records/buffer.h"

struct batch {
    char *const *files;
    size_t count;
    const char *into;   /* the folder that all go to, or NULL: then there is one file, which goes to `out` */
    const char *out;
    const char *report; /* or NULL */
};

/* Where hardened table number i goes.  To be freed. */
char *batch_out(const struct batch *batch, size_t i);

/*
 * Before anything is written: the folder is there, every name is one of a file, no two tables would get one name or file in the
 * folder, no file that is read would be written, nor standard error's, no link that would be written through leads nowhere,
 * report and standard output are files of their own, the report has a folder to go to, and standard output is no terminal where
 * a table would go there.  False: there was a message.
 */
bool batch_is_in_order(const struct batch *batch);

/*
 * Appends a byte for each table: 1 where it is a link that leads nowhere, before anything is written.  Later the link may lead
 * to what was written, which is none of the tables.
 */
void batch_note_dangling(const struct batch *batch, struct buffer *dangling);

#endif
