/* What a table declares and where its records stand, by its version.  Tables are ones that the reader accepts. */
#ifndef DECLARATIONS_H
#define DECLARATIONS_H

#include <stddef.h>
#include <stdint.h>

#include "flow.h"
#include "records/kinds.h"
#include "records/little_endian.h"

enum { LABELS_AT = 10, MASK_AT = LABELS_AT + RECORD_HEAD }; /* behind the header, in both versions */

static inline unsigned version_of(const uint8_t *table)
{
    return get16(table + 4);
}

static inline unsigned variables_of(const uint8_t *table)
{
    return table[6];
}

static inline unsigned arrays_of(const uint8_t *table)
{
    return table[7];
}

static inline unsigned nodes_of(const uint8_t *table)
{
    return get16(table + 8);
}

/* The length of the labels record of a version. */
static inline size_t labels_length(unsigned version)
{
    return RECORD_HEAD + flow_mask_bytes(version) + 2;
}

static inline uint64_t secret_variables_of(const uint8_t *table)
{
    return version_of(table) == FLOW_VERSION ? get32(table + MASK_AT) : get64(table + MASK_AT);
}

static inline uint32_t secret_arrays_of(const uint8_t *table)
{
    return get16(table + MASK_AT + flow_mask_bytes(version_of(table)));
}

/* Where the record of an array begins; of the number A, where the first node's does. */
static inline size_t array_at(const uint8_t *table, unsigned array)
{
    return LABELS_AT + labels_length(version_of(table)) + 6 * (size_t)array;
}

static inline size_t nodes_at(const uint8_t *table)
{
    return array_at(table, arrays_of(table));
}

/* The cells of an array. */
static inline uint32_t count_of(const uint8_t *table, unsigned array)
{
    return get16(table + array_at(table, array) + RECORD_HEAD);
}

/* The cells of all arrays. */
static inline size_t cells_of(const uint8_t *table)
{
    size_t cells = 0;
    for (unsigned array = 0; array < arrays_of(table); array++)
        cells += count_of(table, array);
    return cells;
}

#endif
