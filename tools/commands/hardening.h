/* One table hardened: what its file holds, what comes of it, and how that ended. */
#ifndef HARDENING_H
#define HARDENING_H

#include <stdbool.h>

#include "library/calls.h"

enum ending {
    ENDED_HARDENED,
    ENDED_REFUSED,     /* by the library */
    ENDED_FAILED,      /* it could not be read, or what came of it not be written */
    ENDED_INTERRUPTED, /* a signal came before it was begun, or broke off the reading or writing */
    ENDINGS
};

struct hardening {
    const char *name; /* the file's, as given */
    enum ending ending;
    bool read;        /* if it could not be, nothing below is known */
    bool unsynced;    /* it is written, but its folder is not synced */
    struct answer answer;
    struct buffer table, hardened;
    unsigned nodes_in, nodes_out; /* 0: not known, as every table that reads has a node */
    unsigned version_in, version_out; /* likewise */
};

/* From one file to another.  One that cannot be read or written gives a message.  The caller frees, whatever came of it. */
void harden_file(struct hardening *hardening, const char *name, const char *out);
void hardening_free(struct hardening *hardening);

#endif
