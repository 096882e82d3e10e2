/* Calls of the library that label and harden, with buffers that always suffice. */
#ifndef CALLS_H
#define CALLS_H

#include "records/buffer.h"
#include "flow.h"

/* What an entry answered: its refusal, 0 if it accepted, and then the bytes it wrote or the place of the refusal. */
struct answer {
    uint64_t refusal, second;
};

/* Each appends what the entry wrote; on a refusal, nothing. */
struct answer label_table(const struct buffer *table, struct buffer *sheet);
struct answer harden_table(const struct buffer *table, struct buffer *hardened);

#endif
