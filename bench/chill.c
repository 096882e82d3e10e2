#include "chill.h"

#include <stddef.h>
#include <stdint.h>

enum { WALKED_BYTES = 64 << 20, LINE_BYTES = 64, BRANCH_TURNS = 16 };

/* Volatile: else the compiler may leave the walk out, and make of a branch a conditional move. */
static volatile uint8_t walked[WALKED_BYTES]; /* more than the last cache of many machines */
static volatile unsigned last_taken;

/* Writes to each line, so that every cache is full of these. */
static void walk_memory(void)
{
    for (size_t at = 0; at < WALKED_BYTES; at += LINE_BYTES)
        walked[at]++;
}

/* A branch on a bit that cannot be foreseen, and many of them, each at an address of its own. */
#define BRANCH                                                 \
    bits = bits * 6364136223846793005u + 1442695040888963407u; \
    if (bits >> 63)                                            \
        last_taken = (unsigned)bits;
#define EIGHT(this) this this this this this this this this

/* 1,024 branches, whose code alone is as long as a first cache of instructions. */
static uint64_t take_branches(uint64_t bits)
{
    EIGHT(EIGHT(EIGHT(BRANCH)))
    EIGHT(EIGHT(EIGHT(BRANCH)))
    return bits;
}

void chill(void)
{
    static uint64_t bits = 1;
    walk_memory();
    for (unsigned turn = 0; turn < BRANCH_TURNS; turn++)
        bits = take_branches(bits);
}
