/* What two runs say together of the states that they started from. */
#ifndef VERDICT_H
#define VERDICT_H

#include "library/stuck.h"

/* Lists that differ are a verdict, however the runs ended: a longer run only adds to a list. */
enum verdict_kind {
    VERDICT_ALIKE,      /* one list of observations begins the other */
    VERDICT_TOLD_APART, /* the lists differ */
    VERDICT_CUT,        /* none: the lists agree as far as they go, and a run was cut */
    VERDICT_UNFIT       /* none: they do, and a directive of the script does not fit */
};

struct verdict {
    enum verdict_kind kind;
    size_t observation; /* told apart: the number, from 1, of the first observation that differs, */
    size_t at;          /* and the byte where it begins, in both lists */
    unsigned run;       /* none: the run that is the cause, 0 or 1 */
};

/* `stuck` is why each of the runs is stuck. */
struct verdict compare_runs(const struct run runs[2], const struct stuck stuck[2]);

#endif
