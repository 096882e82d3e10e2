/* Files read and written whole, with every step checked.  What goes wrong is said on standard error, with the file's name. */
#ifndef FILES_H
#define FILES_H

#include <stdbool.h>

#include "records/buffer.h"

/* Far more than the longest table, sheet, script or state takes; a file that is longer is an error. */
enum { LONGEST_FILE = 16 << 20 };

/*
 * Appends what the file holds; "-" is standard input.  False: it cannot be read to its end, or is too long; or it was broken off
 * by a signal (was_broken_off of interrupts.h), of which nothing is said.
 */
bool read_file(const char *path, struct buffer *contents);

enum written {
    NOT_WRITTEN,      /* the file is as it was; was_broken_off says whether a signal is the reason */
    WRITTEN_UNSYNCED, /* it holds all of the new, but its folder failed to be synced, and the message says so */
    WRITTEN
};

/*
 * Makes the file hold just these bytes: through a temporary file beside it, fsync and rename, so that at every moment it holds
 * either what it held before or all of the new; signals wait while the temporary file is there.  A link is kept, and what it
 * leads to is replaced.  "-" is standard output, and what is no regular file (a device, a fifo) is written into and never
 * replaced.
 */
enum written write_file(const char *path, const uint8_t *bytes, size_t length);

#endif
