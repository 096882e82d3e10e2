/* One program in tables of either version, with any variables beside its own. */
#ifndef WIDEN_H
#define WIDEN_H

#include "../../bench/generate.h"
#include "records/table.h"

/* How a table is to declare its variables: the program's own are those from number `shift` on, which is 0 where it has none. */
struct front {
    unsigned version, variables, shift;
    uint64_t secret; /* those marked secret that are not the program's own */
};

/* Any version and number of variables that hold the table's own, mostly at the limits. */
struct front random_front(struct random *r, const struct table *table);

/* Puts the program of a table: its variables keep their labels, and have the numbers from `shift` on. */
void widen_table(const struct table *table, struct front front, struct buffer *wide);

/* In the place of a table that the library accepts, the same program behind any front. */
void widen_by_chance(struct random *r, struct buffer *table);

#endif
