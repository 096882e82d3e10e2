#include "factors.h"

#include <stdbool.h>
#include <string.h>

#include "call.h"
#include "declarations.h"
#include "flow.h"
#include "records/kinds.h"
#include "records/little_endian.h"
#include "reference.h"

static bool is_number(const uint8_t *node, uint32_t value)
{
    return get16(node + 2) == FLOW_NUMBER && get32(node + RECORD_HEAD) == value;
}

/* Puts where the factors of this value begin, and answers how many there are.  Operands stand below their product. */
static unsigned find_factors(const uint8_t *table, size_t length, uint32_t value, size_t *found)
{
    size_t nodes[FLOW_MAX_NODES];
    unsigned node = 0, count = 0;
    for (size_t at = nodes_at(table); at < length; at += get16(table + at)) {
        nodes[node++] = at;
        bool product = get16(table + at + 2) == FLOW_MULTIPLY;
        for (unsigned side = 0; product && side < 2; side++) {
            size_t operand = nodes[get16(table + at + RECORD_HEAD + 2 * side)];
            if (is_number(table + operand, value))
                found[count++] = operand;
        }
    }
    return count;
}

unsigned exchange_factors(uint8_t *table, size_t length, uint32_t from, uint32_t to)
{
    size_t found[FLOW_MAX_NODES];
    unsigned count = find_factors(table, length, from, found);
    for (unsigned i = 0; i < count; i++)
        put32(table + found[i] + RECORD_HEAD, to);
    return count;
}

/* Labels depend on no number but a factor 0, so those of the table with 1 in its place are the ones without P6's rule. */
static bool is_lowered(const uint8_t *table, size_t length)
{
    static uint8_t with[FLOW_SHEET_BYTES], without[FLOW_SHEET_BYTES];
    uint8_t answer[16];
    struct slice other;
    slice_from(&other, table, length);
    exchange_factors(other.bytes, length, 0, 1);
    reference_sheet(table, length, with, sizeof with, answer, sizeof answer);
    reference_sheet(other.bytes, length, without, sizeof without, answer, sizeof answer);
    slice_free(&other);
    return memcmp(with, without, (size_t)get64(answer + 8)) != 0;
}

void count_factored(const uint8_t *table, size_t length, struct factored *sum)
{
    size_t found[FLOW_MAX_NODES];
    bool nought = find_factors(table, length, 0, found) > 0;
    sum->nought += nought;
    sum->lowered += nought && is_lowered(table, length);
    sum->one += find_factors(table, length, 1, found) > 0;
}
