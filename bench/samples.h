/* The tables and calls that are timed: the same in every program, for every library. */
#ifndef SAMPLES_H
#define SAMPLES_H

#include "records/assemble.h"
#include "call.h"

enum { SAMPLES = 8 }; /* tables of each size */

/*
 * What is timed: node counts (for all entries, for questions, for sizing and version 2, for loops that settle slowly), depths of
 * nested loops, cells saved.  Each ends with 0.
 */
extern const unsigned sample_sizes[], asked_sizes[], copied_sizes[], settling_sizes[], nested_depths[], saved_cells[];

/* Puts one of the tables of a size. */
typedef void sample_table(unsigned nodes, unsigned sample, struct buffer *table);
sample_table mixed_table;       /* mostly commands */
sample_table wide_table;        /* the same nodes in version 2, but for the numbers of the variables, which are spread over 63 */
sample_table many_copies_table; /* mostly conditions, each copied three times by hardening */
sample_table few_copies_table;  /* mostly values of assignments, each copied once */

struct call writing_call(enum entry entry, const struct buffer *table, size_t room);

/* As many pairs as a list may have, spread over all commands of a valid table and all its variables. */
struct call asking_call(const struct buffer *table);

/* A run from all zeros.  The guessing machine gets a step for every observation that there is room for. */
struct call running_call(enum entry entry, const struct buffer *table, uint32_t budget, size_t observations);

/* So many steps of while x<2^32-1 do (x:=x+1; y:=x*3-y) on a machine: 4 steps a turn, one of them shown. */
enum { MACHINE_STEPS = 40000 };
struct call machine_call(enum entry entry);

/*
 * So many steps of while true do (x:=a0[i]; a1[i]:=x): 4 steps a turn, three of them shown.  Each run leaves all zeros, so that
 * the next is the same.  In bounds under loads and stores a library of before P4 is stuck.
 */
enum accesses { ACCESSES_PLAIN, ACCESSES_STEPS, ACCESSES_OUT_OF_BOUNDS, ACCESSES_IN_BOUNDS, ACCESSES };
enum { ACCESS_CELLS = 16 };
extern const char *const accesses_names[ACCESSES];
struct call access_call(enum accesses accesses);

/* The guessing call, which is taken over, on the machine that rolls back. */
struct call rolling_call(struct call guess);

/* So many guesses in while true do skip, each undone at once, with so many cells to save: 3 steps a turn, two of them shown. */
enum { UNDONE_GUESSES = 500 };
struct call undoing_call(unsigned cells);

/* Hardens loops nested this deep. */
struct call nested_call(unsigned depth);

/*
 * A call on each table of a size: ENTRY_SHEET labels, ENTRY_QUESTIONS asks, ENTRY_HARDEN hardens into a buffer that always
 * suffices, and ENTRY_RUN reads, since it is refused by 20.
 */
void sample_calls(enum entry entry, sample_table *make, unsigned nodes, struct call calls[SAMPLES]);
void free_calls(struct call *calls, unsigned count);

/* Tables that are refused at their first bytes: by 1 at 0, 2 at 0, 3 at 0 and 1 at 10.  For every entry but flow_questions. */
enum refused { REFUSED_EMPTY, REFUSED_KIND, REFUSED_VERSION, REFUSED_CUT, REFUSED };
extern const char *const refused_names[REFUSED];
struct call refused_call(enum entry entry, enum refused refused);

/* The length of the table that a hardening call with a large buffer writes. */
size_t hardened_length(struct call *call);

/* The buffers that a table is hardened into. */
enum room { ROOM_LARGE, ROOM_EXACT, ROOM_SHORT, ROOMS };
extern const char *const room_names[ROOMS];

/* Each table of a size hardened into each of these.  They are one block, lent whole or in part: blocks differ in speed too. */
struct hardenings {
    struct call calls[ROOMS][SAMPLES];
};

void hardenings_new(struct hardenings *h, sample_table *make, unsigned nodes);
void hardenings_free(struct hardenings *h);

#endif
