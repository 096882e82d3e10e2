/* A table that the library has accepted, taken apart. */
#ifndef TABLE_H
#define TABLE_H

#include "records/buffer.h"
#include "records/labelling.h"
#include "flow.h"

struct table {
    const uint8_t *bytes;
    size_t length;
    unsigned version, variables, arrays, nodes;
    struct labelling secret;
    uint32_t counts[FLOW_MAX_ARRAYS];
    size_t cells;
    size_t places[FLOW_MAX_NODES]; /* the byte at which each node's record begins */
};

/* `bytes` must be a table that an entry accepts or `flow assemble` made, and stay as long as the table is used. */
void table_open(struct table *table, const struct buffer *bytes);

unsigned table_kind(const struct table *table, unsigned node);

/* Field number `field` of a node, a child's number among them (see fields_of in kinds.h). */
uint32_t table_field(const struct table *table, unsigned node, unsigned field);

#endif
