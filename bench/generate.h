/* Tables, states, lists of directives or questions and whole calls by chance, the same for the same seed. */
#ifndef GENERATE_H
#define GENERATE_H

#include <stdbool.h>
#include <stddef.h>
#include <stdint.h>

#include "records/assemble.h"
#include "call.h"
#include "flow.h"

struct random {
    uint64_t state;
};

/* Every number of a seed gives a sequence of its own, so that one call can be made again without those before it. */
struct random random_from(uint64_t seed, uint64_t number);
uint32_t random_below(struct random *r, uint32_t bound);
bool random_percent(struct random *r, unsigned percent);
void random_fill(struct random *r, uint8_t *bytes, size_t length);

/* How the nodes of a command or expression are shared out among its parts. */
enum shape { SHAPE_BUSHY, SHAPE_DEEP, SHAPE_BALANCED, SHAPES };

/* Which of the nodes whose children all have numbers gets the next number. */
enum order { ORDER_SHUFFLED, ORDER_NEWEST_FIRST, ORDER_OLDEST_FIRST, ORDERS };

enum { MOST_CHOSEN = 8 };

/* What a table is to be like. */
struct plan {
    unsigned version;   /* where it does not hold the variables: the lowest that does */
    unsigned variables, arrays, nodes;
    uint16_t counts[FLOW_MAX_ARRAYS];
    uint64_t secret_variables;
    uint32_t secret_arrays;
    unsigned chosen_count; /* 0: the program uses any variables; else these alone, each of them the more often */
    uint8_t chosen[MOST_CHOSEN];
    enum shape shape;
    enum order order;
    unsigned loops;     /* percent of the larger commands that are loops */
    unsigned accesses;  /* percent of the smaller commands that read or write an array */
    unsigned long_expressions; /* percent of commands whose expressions may take all their nodes */
    unsigned factors;   /* percent of sums, differences and products that become products with the number 0 or 1, where they can */
};

struct plan plan_few(struct random *r, unsigned most_nodes); /* few variables, version 1; tables that are timed begin with it */
struct plan plan_small(struct random *r, unsigned most_nodes); /* few nodes and arrays; either version, any number of variables */
struct plan plan_boundary(struct random *r); /* sizes at and beside the limits */
struct plan plan_any(struct random *r);

/* Makes a plan one of so many variables in this version, with labels and a choice of variables by chance. */
void plan_variables(struct random *r, struct plan *plan, unsigned version, unsigned variables);

/* A variable that the program may use; there must be one. */
unsigned planned_variable(struct random *r, const struct plan *plan);

/* Puts header, labels and arrays, as planned. */
void start_table(const struct plan *plan, struct buffer *table);

/*
 * Puts nodes for one subtree into a table that was started, exactly as many as planned, and returns the number of its top, which
 * is the last.  `sort` is a letter of kinds.h.  (Where no subtree of this sort has 2 nodes, they are made 3.)
 */
unsigned generate_part(struct random *r, const struct plan *plan, char sort, struct buffer *table);

/* Puts a valid table of exactly plan->nodes nodes.  (Without variables, 2 nodes are made 3.) */
void generate_table(struct random *r, const struct plan *plan, struct buffer *table);

/*
 * Puts loops nested this deep: while 1 do (x:=0; (inner; x:=s)), s secret.  Each level takes at least two passes, which a careless
 * analysis multiplies.
 */
void nested_loops_table(unsigned depth, struct buffer *table);

/*
 * Puts while 1 do (a:=b; (b:=c; (.. skip))) through all variables, at least 2, in an order by chance, the last one secret: each pass
 * makes one more secret.
 */
void shuffled_chain_table(struct random *r, unsigned version, unsigned variables, struct buffer *table);

/* Spoils a valid table: one cause of refusal or several, seldom none. */
void damage_table(struct random *r, struct buffer *table);

/* Words that programs compare and use as indices: mostly small. */
void generate_words(struct random *r, uint8_t *words, size_t count);

/* How a script is to be. */
struct manner {
    unsigned most;      /* directives */
    unsigned forces;    /* percent of branches that are guessed wrong */
    unsigned redirects; /* percent of reads and writes in bounds that get a load or store; out of bounds all do */
    unsigned rollbacks; /* on the machine that rolls back: percent of directives that undo a guess while one is open */
};

/* Puts a list that fits, step by step, a run of the guessing call (whose own list is ignored). */
void generate_script(struct random *r, const struct call *call, const struct manner *manner, struct buffer *list);

/* Puts a list of directives by chance, such as the entry's machine knows. */
void generate_directives(struct random *r, enum entry entry, unsigned most, struct buffer *list);

/* The length of the sheet or table that the call writes into a buffer that suffices; where it is refused, some length. */
size_t output_length(const struct call *call);

/* Makes any call of any entry.  With `small`, tables stay small. */
void generate_call(struct random *r, bool small, struct call *call);

#endif
