/*
 * Why a run is stuck.  That it is, and where, is the library's to say; the reason is looked for in what the run left.  Where
 * none is found, that is the answer.
 */
#ifndef STUCK_H
#define STUCK_H

#include "library/runs.h"

enum stuck_why {
    STUCK_NOT,           /* the run ended in another way */
    STUCK_UNKNOWN,       /* no reason is found */
    STUCK_OUT_OF_BOUNDS, /* the program's own index, which nothing leads elsewhere */
    /* the directive that is next does not fit: */
    STUCK_WRONG_STEP,    /* it is for another sort of step */
    STUCK_FLAG_CLEAR,    /* a load or store, out of bounds, while no wrong guess is open */
    STUCK_NO_ARRAY,      /* one that names an array that is not declared, */
    STUCK_NO_CELL,       /* or a cell that its array does not have */
    STUCK_ALL_SAVES,     /* a force where as many saves are open as can be */
    STUCK_NO_SAVE        /* a rollback where none is */
};

struct stuck {
    enum stuck_why why;
    unsigned node;            /* that is next */
    uint64_t number;          /* of the directive that is next, from 1, */
    const uint8_t *directive; /* and its record, in the script; NULL on a machine that does not guess */
    uint32_t array, index;    /* out of bounds: the program's own */
};

/* `script` is not looked at where the machine does not guess.  Else it must be the run's, and stay as long as what is found. */
struct stuck find_stuck(const struct table *table, enum machine machine, const struct buffer *script, const struct run *run);

/* Does the script not fit?  A run whose reason is not known counts: it is no end that a verdict may rest on. */
bool is_unfit(const struct stuck *stuck);

#endif
