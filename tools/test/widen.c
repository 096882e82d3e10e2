#include "widen.h"

#include "records/kinds.h"
#include "records/parents.h"

/* As many bits as there are variables. */
static uint64_t all_of(unsigned variables)
{
    return variables == 64 ? UINT64_MAX : ((uint64_t)1 << variables) - 1;
}

static uint64_t random_mask(struct random *r)
{
    return random_percent(r, 50) ? 0 : (uint64_t)random_below(r, UINT32_MAX) << 32 | random_below(r, UINT32_MAX);
}

struct front random_front(struct random *r, const struct table *table)
{
    static const unsigned limits[] = {0, 1, 31, 32, 32, 33, 62, 63, 64};
    unsigned count = sizeof limits / sizeof *limits, chosen = random_below(r, count + 2);
    struct front front = {.variables = chosen < count ? limits[chosen] : random_below(r, FLOW_MAX_VARIABLES + 1)};
    if (front.variables < table->variables)
        front.variables = table->variables;
    bool fits_version_1 = front.variables <= FLOW_MAX_VARIABLES_1;
    front.version = fits_version_1 && random_percent(r, 50) ? FLOW_VERSION : FLOW_VERSION_2;
    unsigned beside = table->variables == 0 ? 0 : front.variables - table->variables;
    front.shift = random_percent(r, 50) ? beside : random_below(r, beside + 1);
    front.secret = random_mask(r) & all_of(front.variables) & ~(all_of(table->variables) << front.shift);
    return front;
}

static void put_node(const struct table *table, unsigned node, unsigned shift, struct buffer *wide)
{
    uint32_t fields[MOST_FIELDS];
    const char *letters = fields_of(table_kind(table, node));
    for (unsigned i = 0; letters[i]; i++)
        fields[i] = table_field(table, node, i) + (letters[i] == 'x' ? shift : 0);
    assemble_node(wide, table_kind(table, node), fields);
}

static void put_front(const struct table *table, struct front front, struct buffer *wide)
{
    uint16_t counts[FLOW_MAX_ARRAYS];
    for (unsigned array = 0; array < table->arrays; array++)
        counts[array] = (uint16_t)table->counts[array];
    assemble_version(wide, front.version, front.variables, table->arrays, counts,
                     front.secret | table->secret.variables << front.shift, table->secret.arrays);
}

void widen_table(const struct table *table, struct front front, struct buffer *wide)
{
    put_front(table, front, wide);
    for (unsigned node = 0; node < table->nodes; node++)
        put_node(table, node, front.shift, wide);
}

void widen_by_chance(struct random *r, struct buffer *table)
{
    struct table opened;
    struct buffer wide = {0};
    table_open(&opened, table);
    widen_table(&opened, random_front(r, &opened), &wide);
    buffer_free(table);
    *table = wide;
}
