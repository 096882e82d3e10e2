/* Programs by chance that decide what sizing a hardened table costs: how often hardening copies most of their expressions. */
#ifndef COPIES_H
#define COPIES_H

#include "generate.h"

enum copies {
    COPIES_FEW, /* most nodes stand in values of assignments, which hardening copies once */
    COPIES_MANY /* most nodes stand in conditions, which it copies three times */
};

enum { COPIES_LEAST_NODES = 8, COPIES_LEAST_LEVEL = 5 };

/*
 * Puts a valid table of exactly the planned size, at least COPIES_LEAST_NODES, with a variable at least: a skip, and loops and
 * ifs around and behind it, or assignments behind it.  Each of these levels takes `level` nodes, at least COPIES_LEAST_LEVEL, most
 * of them in one expression; what remains makes the last level.
 */
void copies_table(struct random *r, const struct plan *plan, enum copies copies, unsigned level, struct buffer *table);

#endif
