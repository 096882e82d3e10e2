/* What a refusal is about. */
#ifndef REFUSALS_H
#define REFUSALS_H

#include <stdint.h>

enum concern {
    CONCERN_TABLE,     /* no entry takes it; the place is a byte of it */
    CONCERN_HARDENING, /* the table is labelled and run, but not hardened */
    CONCERN_SCRIPT,    /* the list of directives */
    CONCERN_QUESTIONS, /* the list of questions */
    CONCERN_MEMORY     /* lent memory; or a number that this release does not know */
};

enum concern concern_of(uint64_t refusal);

#endif
