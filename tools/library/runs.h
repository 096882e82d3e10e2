/* Runs of a table on the machines of the library, in buffers of their own. */
#ifndef RUNS_H
#define RUNS_H

#include <stdbool.h>

#include "library/calls.h"
#include "records/table.h"

enum machine {
    MACHINE_PLAIN,    /* does not guess and takes no script */
    MACHINE_GUESSING,
    MACHINE_ROLLBACK  /* guesses, and undoes wrong guesses */
};

/* Where a run starts: words of 4 bytes, so many variables, then all cells.  A further variable, the flag, starts at 0. */
struct state {
    struct buffer words;
    unsigned variables;
};

struct run {
    uint64_t end, steps, directives, flag, next; /* the answer's numbers: directives used, and the next node */
    bool pending;                                /* is there a next node?  Its number is 0 where there is none, too */
    struct buffer variables, cells;              /* as the run left them */
    struct buffer observations;
    struct buffer saves; /* of MACHINE_ROLLBACK: the save words, and how many of their places hold a save that is open */
    unsigned open_saves;
};

/*
 * Runs a table from a state for at most so many steps.  Refused, the run says nothing.  A run of very many steps may end
 * FLOW_FULL: it may show at most 64 MiB.  The caller frees the run by run_free, whatever the answer.
 */
struct answer run_table(const struct table *table, enum machine machine, const struct buffer *script, const struct state *state,
                        uint32_t budget, struct run *run);
void run_free(struct run *run);

/*
 * Was the run cut before the rules ended it, so that a longer one might show more?  By its budget or buffer, or since a script
 * was over before its first directive was used.  To be stuck, or out of directives after some, is an end of the rules.
 */
bool run_was_cut(const struct run *run);

#endif
