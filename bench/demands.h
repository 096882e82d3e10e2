/*
 * Demands 2 and 3, played: a hardened program runs as the original without guessing; and it shows the same from two states that
 * agree on what is public, whatever an attacker's script does.
 */
#ifndef DEMANDS_H
#define DEMANDS_H

#include <stdbool.h>
#include <stdint.h>

#include "call.h"
#include "factors.h"
#include "generate.h"
#include "versions.h"

/* Demand 3, played on one of the machines that guess. */
struct attack {
    uint64_t scripts;        /* scripts played to the hardened program from a pair of states */
    struct led led;          /* directives by which these runs were led */
    uint64_t leaks_before;   /* scripts that tell the two states apart on the program before hardening: demand 3 bites */
    uint64_t leaks_high;     /* of these: those on programs whose flag, hardened, has a number from 32 up */
};

struct plays {
    uint64_t pairs;          /* programs, each with a pair of states */
    uint64_t same_runs;      /* runs without guessing compared with the original's */
    uint64_t related;        /* pairs whose plain runs are related, so that demand 3 speaks of them */
    struct factored factored; /* the programs of these */
    struct versions versions; /* and again */
    struct attack guessing, rolling; /* on flow_guess and on flow_rollback */
};

/* Plays a generated program.  False: a demand does not hold; all bytes have been printed. */
bool play_demands(struct random *r, struct plays *plays);

#endif
