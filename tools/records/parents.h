/* Who is whose child, also in tables in which a node is a child never or of several nodes. */
#ifndef PARENTS_H
#define PARENTS_H

#include "records/table.h"

enum { MOST_FIELDS = 3, MOST_NAMED = 8 };

/* The parents of each node, by rising number, each as often as the node is its child: a list of links, which ends with link 0. */
struct family {
    unsigned links;
    uint16_t first[FLOW_MAX_NODES];
    struct {
        uint16_t parent, next;
    } link[1 + MOST_FIELDS * FLOW_MAX_NODES];
};

/* The children of a table's nodes may be any numbers. */
void find_parents(struct family *family, const struct table *table);

/* The nodes that have a node as a child: how many, and the first of them with how often each has it. */
struct parents {
    unsigned count;
    struct {
        unsigned node, times;
    } named[MOST_NAMED];
};

struct parents parents_of(const struct family *family, unsigned node);

#endif
