/* A call of an entry: which one, and every slice that it lends. */
#ifndef CALL_H
#define CALL_H

#include <stdbool.h>
#include <stddef.h>
#include <stdint.h>
#include <stdio.h>

enum entry { ENTRY_SHEET, ENTRY_QUESTIONS, ENTRY_HARDEN, ENTRY_RUN, ENTRY_GUESS, ENTRY_ROLLBACK, ENTRIES };

enum slice_name {
    SLICE_TABLE,
    SLICE_QUESTIONS,
    SLICE_DIRECTIVES,
    SLICE_VARIABLES,
    SLICE_CELLS,
    SLICE_PENDING,
    SLICE_SAVES,
    SLICE_OBSERVATIONS,
    SLICE_OUTPUT, /* the sheet, the labels asked for or the hardened table */
    SLICE_ANSWER,
    SLICES
};

/* Each slice has a block of its own of exactly its length, so that valgrind sees an access beside it.  An empty one may be NULL. */
struct slice {
    uint8_t *bytes;
    size_t length;
};

struct call {
    enum entry entry;
    uint32_t budget;
    struct slice slices[SLICES]; /* those that the entry does not take are (NULL, 0) */
};

extern const char *const entry_names[ENTRIES];
extern const char *const slice_names[SLICES];

void slice_new(struct slice *s, size_t length);
void slice_from(struct slice *s, const uint8_t *bytes, size_t length);
void slice_free(struct slice *s);
bool slice_equal(const struct slice *one, const struct slice *other);

struct call call_copy(const struct call *call);
void call_free(struct call *call);

/* Makes a call: the entry of a library, or of what stands in for one. */
typedef uint64_t performer(struct call *call);
performer call_library, call_reference;

/* A copy of a call, made, and by whom. */
struct made {
    const char *by;
    uint64_t result;
    struct call after;
};

struct made make_call(const struct call *call, const char *by, performer *perform);

/* The same result, and the same bytes in every slice? */
bool made_alike(const struct made *one, const struct made *other);
void print_call(const struct call *call);
void print_difference(const struct call *before, const struct made *one, const struct made *other);

/* A number of the answer slice; 0 if the slice does not hold it whole. */
uint64_t call_answer(const struct call *call, unsigned number);

/* Which directives led the runs of guessing calls, and at which they ended.  The last four are flow_rollback's alone. */
struct led {
    uint64_t forces;
    uint64_t out_of_bounds; /* loads and stores that led to the cell that they name */
    uint64_t in_bounds[2];  /* those that met an index in bounds, with the flag clear and with it set */
    uint64_t rollbacks;
    uint64_t deepest;       /* the most saves that were open at once */
    uint64_t at_rollback[6]; /* runs whose next directive was a rollback, by their end */
    uint64_t beyond;        /* runs stuck at a force with all saves open */
};

/* Counts, on top of what is there, what led an accepted call, by what its slices hold after; nothing where its answer is cut. */
void call_led(const struct call *call, struct led *led);
void add_led(const struct led *led, struct led *sum);

void print_hex(FILE *to, const uint8_t *bytes, size_t length);

#endif
