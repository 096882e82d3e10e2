#include "records/table.h"

#include "records/kinds.h"
#include "records/little_endian.h"
#include "records/walk.h"

void table_open(struct table *table, const struct buffer *bytes)
{
    struct walk walk;
    walk_open(&walk, bytes);
    walk_to(&walk, UINT64_MAX);
    *table = walk.table;
}

unsigned table_kind(const struct table *table, unsigned node)
{
    return get16(table->bytes + table->places[node] + 2);
}

uint32_t table_field(const struct table *table, unsigned node, unsigned field)
{
    const uint8_t *fields = table->bytes + table->places[node] + RECORD_HEAD;
    return table_kind(table, node) == FLOW_NUMBER ? get32(fields) : get16(fields + 2 * field);
}
