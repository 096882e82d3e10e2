/*
 * A labelling as the records of tables and sheets hold it: a mask of variables, as wide as the version of the table or sheet has
 * it, then one of arrays.  A bit set means secret.
 */
#ifndef LABELLING_H
#define LABELLING_H

#include "flow.h"
#include "records/little_endian.h"

struct labelling {
    uint64_t variables;
    uint32_t arrays;
};

static inline struct labelling get_labelling(const uint8_t *at, unsigned version)
{
    size_t bytes = flow_mask_bytes(version);
    return (struct labelling){bytes == 8 ? get64(at) : get32(at), get16(at + bytes)};
}

#endif
