/* Numbers that are operands of products, factors here: P6's rule depends on them.  Tables are ones that the reader accepts. */
#ifndef FACTORS_H
#define FACTORS_H

#include <stddef.h>
#include <stdint.h>

/* Each factor of value `from` becomes `to`.  Answers how many there are. */
unsigned exchange_factors(uint8_t *table, size_t length, uint32_t from, uint32_t to);

/* Tables by their factors. */
struct factored {
    uint64_t nought;  /* with a factor 0 */
    uint64_t lowered; /* of these: those whose sheet has a label that is public by P6's rule alone */
    uint64_t one;     /* with a factor 1 */
};

/* Counts a table, on top of what is there. */
void count_factored(const uint8_t *table, size_t length, struct factored *sum);

#endif
