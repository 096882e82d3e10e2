/* How long calls take. */
#ifndef TIMING_H
#define TIMING_H

#include "call.h"

enum { MOST_GROUPS = 3 };

/* The library, and what it is timed beside: the reference, or another library. */
struct performers {
    performer *library, *other;
};

struct timing {
    double library, other; /* seconds a call */
};

/* Times the same calls on both, in turn, and takes each one's best round, which other processes disturb least. */
struct timing time_calls(struct performers both, struct call *calls, unsigned count);

/* Times up to MOST_GROUPS groups of so many calls, each on both, all in turn: for ratios of one group to another, or differences. */
void time_groups(struct performers both, struct call *const *groups, unsigned group_count, unsigned count,
                 struct timing *timings);

/*
 * Times the same calls on both, in turn, cold: before each single call caches and branch predictors are thrown away (chill.h).  Of
 * each call's times it takes the median, which an interrupt does not move, and of these the mean.
 */
struct timing time_cold_calls(struct performers both, struct call *calls, unsigned count);

/* The middle one of an odd number of figures, which it sorts. */
double median_of(double *figures, unsigned count);

#endif
