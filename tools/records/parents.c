#include "records/parents.h"

#include <string.h>

#include "records/kinds.h"

static void link_children(struct family *family, const struct table *table, unsigned parent)
{
    const char *fields = fields_of(table_kind(table, parent));
    for (unsigned field = 0; fields[field]; field++) {
        uint32_t child = table_field(table, parent, field);
        if (!is_child(fields[field]) || child >= table->nodes)
            continue;
        unsigned link = ++family->links;
        family->link[link].parent = (uint16_t)parent;
        family->link[link].next = family->first[child];
        family->first[child] = (uint16_t)link;
    }
}

/* Links are put in front, so the highest parent comes first. */
void find_parents(struct family *family, const struct table *table)
{
    memset(family, 0, sizeof *family);
    for (unsigned parent = table->nodes; parent-- > 0;)
        link_children(family, table, parent);
}

struct parents parents_of(const struct family *family, unsigned node)
{
    struct parents parents = {0};
    unsigned last = FLOW_MAX_NODES; /* no node's number */
    for (unsigned link = family->first[node]; link != 0; link = family->link[link].next) {
        parents.count += family->link[link].parent != last;
        last = family->link[link].parent;
        if (parents.count <= MOST_NAMED) {
            parents.named[parents.count - 1].node = last;
            parents.named[parents.count - 1].times++;
        }
    }
    return parents;
}
