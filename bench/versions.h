/* Tables by their version and how many variables they declare, which P7's rules look at. */
#ifndef VERSIONS_H
#define VERSIONS_H

#include <stdbool.h>
#include <stddef.h>
#include <stdint.h>

/* Tables that the reader accepts. */
struct versions {
    uint64_t second;  /* of version 2 */
    uint64_t full;    /* of version 1 with 32 variables: hardened, they become version 2 */
    uint64_t wide;    /* with 33 to 63 variables */
    uint64_t widest;  /* with 64 */
    uint64_t secret;  /* with a secret variable from 32 up */
    uint64_t flag_32, flag_63; /* those whose flag, where they are hardened, has this number */
    uint64_t flag_high;        /* or any from 32 up */
};

/* Counts a table, on top of what is there. */
void count_version(const uint8_t *table, struct versions *sum);

/*
 * Any table: is there, behind a header of known version, a labels record as long as that of the other one?  Where the header is good
 * it is refused by 2, at 10; else not by 2.
 */
bool has_other_labels(const uint8_t *table, size_t length);

#endif
