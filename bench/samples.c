#include "samples.h"

#include <stdio.h>
#include <stdlib.h>
#include <string.h>

#include "copies.h"
#include "declarations.h"
#include "flow.h"
#include "generate.h"
#include "records/kinds.h"
#include "records/little_endian.h"

const unsigned sample_sizes[] = {8, 16, 32, 64, 128, 256, 512, 1024, 2048, 4096, 0};
const unsigned asked_sizes[] = {8, 16, 32, 64, 512, 4096, 0};
const unsigned copied_sizes[] = {8, 16, 32, 64, 512, 0};
const unsigned settling_sizes[] = {512, 4096, 0};
const unsigned nested_depths[] = {1, 2, 5, 10, 20, 30, 40, 50, 60, 0};
const unsigned saved_cells[] = {1, 256, FLOW_MAX_CELLS, 0};

const char *const accesses_names[ACCESSES] = {
    "plain machine, reads and writes", "guessing machine, reads and writes under steps",
    "guessing machine, reads and writes out of bounds under loads and stores",
    "guessing machine, reads and writes in bounds under loads and stores"};

const char *const refused_names[REFUSED] = {"no byte at all", "a first record of another kind", "version 3",
                                            "a header of 4,096 nodes alone"};

const char *const room_names[ROOMS] = {"large buffer", "exact buffer", "one byte short, refused by 23"};

/* ---- Tables ------------------------------------------------------------------------------------------------------------- */

static struct plan sample_plan(struct random *r, unsigned nodes)
{
    struct plan plan = plan_few(r, nodes);
    plan.nodes = nodes;
    plan.variables = 8;
    plan.arrays = 2;
    plan.counts[0] = plan.counts[1] = 16;
    plan.secret_variables = 1u << random_below(r, 8);
    plan.secret_arrays = 1;
    plan.shape = SHAPE_BUSHY;
    plan.loops = 0;
    plan.long_expressions = 0;
    plan.factors = 0;
    return plan;
}

void mixed_table(unsigned nodes, unsigned sample, struct buffer *table)
{
    struct random r = random_from(nodes, sample);
    struct plan plan = sample_plan(&r, nodes);
    generate_table(&r, &plan, table);
}

void wide_table(unsigned nodes, unsigned sample, struct buffer *table)
{
    struct random r = random_from(nodes, sample);
    struct plan plan = sample_plan(&r, nodes);
    uint64_t secret = plan.secret_variables;
    plan.secret_variables = 0;
    for (unsigned v = 0; v < plan.variables; v++) {
        plan.chosen[v] = (uint8_t)(8 * v + v / 2);
        plan.secret_variables |= (secret >> v & 1) << plan.chosen[v];
    }
    plan.chosen_count = plan.variables;
    plan.version = FLOW_VERSION_2;
    plan.variables = FLOW_MAX_VARIABLES - 1;
    generate_table(&r, &plan, table);
}

static void table_of_copies(enum copies copies, unsigned nodes, unsigned sample, struct buffer *table)
{
    enum { LEVEL = 64 }; /* conditions and values of about 60 nodes, or of as many as a smaller table has */
    struct random r = random_from(nodes, sample);
    struct plan plan = sample_plan(&r, nodes);
    copies_table(&r, &plan, copies, LEVEL, table);
}

void many_copies_table(unsigned nodes, unsigned sample, struct buffer *table)
{
    table_of_copies(COPIES_MANY, nodes, sample, table);
}

void few_copies_table(unsigned nodes, unsigned sample, struct buffer *table)
{
    table_of_copies(COPIES_FEW, nodes, sample, table);
}

static void tight_loop_table(struct buffer *t)
{
    assemble_table(t, 2, 0, NULL, 0, 0);
    unsigned x = assemble_node1(t, FLOW_VARIABLE, 0);
    unsigned condition = assemble_node2(t, FLOW_LESS, x, assemble_node1(t, FLOW_NUMBER, UINT32_MAX));
    x = assemble_node1(t, FLOW_VARIABLE, 0);
    unsigned first = assemble_node2(t, FLOW_ADD, x, assemble_node1(t, FLOW_NUMBER, 1));
    first = assemble_node2(t, FLOW_ASSIGN, 0, first);
    x = assemble_node1(t, FLOW_VARIABLE, 0);
    unsigned second = assemble_node2(t, FLOW_MULTIPLY, x, assemble_node1(t, FLOW_NUMBER, 3));
    second = assemble_node2(t, FLOW_SUBTRACT, second, assemble_node1(t, FLOW_VARIABLE, 1));
    second = assemble_node2(t, FLOW_ASSIGN, 1, second);
    assemble_node2(t, FLOW_WHILE, condition, assemble_node2(t, FLOW_SEQUENCE, first, second));
}

/* if the constant then skip else while true do (x:=a0[i]; a1[i]:=x), with 16 cells in each array; i is variable 0 */
static void access_table(struct buffer *t, unsigned constant)
{
    const uint16_t counts[] = {ACCESS_CELLS, ACCESS_CELLS};
    assemble_table(t, 2, 2, counts, 0, 0);
    unsigned condition = assemble_node1(t, FLOW_CONSTANT, constant);
    unsigned skip = assemble_node0(t, FLOW_SKIP);
    unsigned endless = assemble_node1(t, FLOW_CONSTANT, 1);
    unsigned read = assemble_node3(t, FLOW_READ, 1, 0, assemble_node1(t, FLOW_VARIABLE, 0));
    unsigned index = assemble_node1(t, FLOW_VARIABLE, 0);
    unsigned write = assemble_node3(t, FLOW_WRITE, 1, index, assemble_node1(t, FLOW_VARIABLE, 1));
    unsigned loop = assemble_node2(t, FLOW_WHILE, endless, assemble_node2(t, FLOW_SEQUENCE, read, write));
    assemble_node3(t, FLOW_IF, condition, skip, loop);
}

/* while true do skip, with an array of so many cells */
static void endless_table(struct buffer *t, unsigned cells)
{
    const uint16_t count = (uint16_t)cells;
    assemble_table(t, 1, 1, &count, 0, 0);
    unsigned condition = assemble_node1(t, FLOW_CONSTANT, 1);
    assemble_node2(t, FLOW_WHILE, condition, assemble_node0(t, FLOW_SKIP));
}

/* ---- Calls -------------------------------------------------------------------------------------------------------------- */

struct call writing_call(enum entry entry, const struct buffer *table, size_t room)
{
    struct call call = {.entry = entry};
    slice_from(&call.slices[SLICE_TABLE], table->bytes, table->length);
    slice_new(&call.slices[SLICE_OUTPUT], room);
    slice_new(&call.slices[SLICE_ANSWER], FLOW_ANSWER_BYTES);
    return call;
}

static void spread_questions(const struct buffer *table, struct buffer *list)
{
    unsigned commands[FLOW_MAX_NODES], count = 0, node = 0;
    for (size_t at = nodes_at(table->bytes); at < table->length; at += get16(table->bytes + at), node++)
        if (sort_of(get16(table->bytes + at + 2)) == 'C')
            commands[count++] = node;
    for (unsigned i = 0; i < FLOW_MAX_QUESTIONS; i++) {
        buffer_append16(list, commands[i * count / FLOW_MAX_QUESTIONS]);
        buffer_append16(list, i % variables_of(table->bytes));
    }
}

struct call asking_call(const struct buffer *table)
{
    struct call call = writing_call(ENTRY_QUESTIONS, table, FLOW_MAX_QUESTIONS);
    struct buffer list = {0};
    spread_questions(table, &list);
    slice_from(&call.slices[SLICE_QUESTIONS], list.bytes, list.length);
    buffer_free(&list);
    return call;
}

static void zero_slice(struct slice *s, size_t length)
{
    slice_new(s, length);
    if (length > 0)
        memset(s->bytes, 0, length);
}

/* A run from all zeros, with room for so many bytes of observations. */
static struct call zeros_call(enum entry entry, const struct buffer *table, uint32_t budget, size_t room)
{
    struct call call = {.entry = entry, .budget = budget};
    slice_from(&call.slices[SLICE_TABLE], table->bytes, table->length);
    zero_slice(&call.slices[SLICE_VARIABLES], 4 * (size_t)variables_of(table->bytes));
    zero_slice(&call.slices[SLICE_CELLS], 4 * cells_of(table->bytes));
    zero_slice(&call.slices[SLICE_PENDING], 4 * (size_t)nodes_of(table->bytes));
    zero_slice(&call.slices[SLICE_OBSERVATIONS], room);
    zero_slice(&call.slices[SLICE_ANSWER], FLOW_ANSWER_BYTES);
    return call;
}

struct call running_call(enum entry entry, const struct buffer *table, uint32_t budget, size_t observations)
{
    struct call call = zeros_call(entry, table, budget, 6 * observations);
    if (entry == ENTRY_GUESS) {
        struct buffer steps = {0};
        for (size_t i = 0; i < observations; i++)
            assemble_directive(&steps, FLOW_STEP);
        slice_from(&call.slices[SLICE_DIRECTIVES], steps.bytes, steps.length);
        buffer_free(&steps);
    }
    return call;
}

struct call machine_call(enum entry entry)
{
    struct buffer table = {0};
    tight_loop_table(&table);
    struct call call = running_call(entry, &table, MACHINE_STEPS, MACHINE_STEPS / 4 + 1);
    buffer_free(&table);
    return call;
}

/* A step or a force for the branch, then for each turn a step for the loop, and for its read and write as the accesses have it. */
static void access_script(enum accesses accesses, struct buffer *list)
{
    bool redirected = accesses == ACCESSES_OUT_OF_BOUNDS || accesses == ACCESSES_IN_BOUNDS;
    assemble_directive(list, redirected ? FLOW_FORCE : FLOW_STEP);
    for (unsigned turn = 0; turn < MACHINE_STEPS / 4; turn++) {
        assemble_directive(list, FLOW_STEP);
        if (redirected) {
            assemble_redirect(list, FLOW_LOAD, 1, 3);
            assemble_redirect(list, FLOW_STORE, 0, 3);
        } else {
            assemble_directive(list, FLOW_STEP);
            assemble_directive(list, FLOW_STEP);
        }
    }
}

struct call access_call(enum accesses accesses)
{
    struct buffer table = {0}, list = {0};
    access_script(accesses, &list);
    access_table(&table, get16(list.bytes + 2) == FLOW_FORCE); /* the branch leads to the loop, by a force or a step */
    enum entry entry = accesses == ACCESSES_PLAIN ? ENTRY_RUN : ENTRY_GUESS;
    struct call call = zeros_call(entry, &table, MACHINE_STEPS, 6 + 26 * (MACHINE_STEPS / 4));
    if (accesses == ACCESSES_OUT_OF_BOUNDS)
        put32(call.slices[SLICE_VARIABLES].bytes, ACCESS_CELLS);
    if (entry == ENTRY_GUESS)
        slice_from(&call.slices[SLICE_DIRECTIVES], list.bytes, list.length);
    buffer_free(&table);
    buffer_free(&list);
    return call;
}

struct call rolling_call(struct call guess)
{
    const uint8_t *table = guess.slices[SLICE_TABLE].bytes;
    guess.entry = ENTRY_ROLLBACK;
    zero_slice(&guess.slices[SLICE_SAVES], flow_saves_bytes(variables_of(table), cells_of(table), nodes_of(table)));
    return guess;
}

struct call undoing_call(unsigned cells)
{
    struct buffer table = {0}, list = {0};
    endless_table(&table, cells);
    for (unsigned i = 0; i < UNDONE_GUESSES; i++) {
        assemble_directive(&list, FLOW_FORCE);
        assemble_directive(&list, FLOW_ROLLBACK);
    }
    struct call call = rolling_call(zeros_call(ENTRY_GUESS, &table, 3 * UNDONE_GUESSES, 10 * UNDONE_GUESSES));
    slice_from(&call.slices[SLICE_DIRECTIVES], list.bytes, list.length);
    buffer_free(&table);
    buffer_free(&list);
    return call;
}

struct call nested_call(unsigned depth)
{
    struct buffer table = {0};
    nested_loops_table(depth, &table);
    struct call call = writing_call(ENTRY_HARDEN, &table, FLOW_TABLE_BYTES);
    buffer_free(&table);
    return call;
}

static struct call sample_call(enum entry entry, const struct buffer *table)
{
    switch (entry) {
    case ENTRY_QUESTIONS: return asking_call(table);
    case ENTRY_SHEET: return writing_call(entry, table, FLOW_SHEET_BYTES);
    case ENTRY_HARDEN: return writing_call(entry, table, FLOW_TABLE_BYTES);
    default: return writing_call(entry, table, 0);
    }
}

void sample_calls(enum entry entry, sample_table *make, unsigned nodes, struct call calls[SAMPLES])
{
    for (unsigned sample = 0; sample < SAMPLES; sample++) {
        struct buffer table = {0};
        make(nodes, sample, &table);
        calls[sample] = sample_call(entry, &table);
        buffer_free(&table);
    }
}

/* The header is the first ten bytes; its second number is its kind, the third its version, and the last its nodes. */
static void refused_table(enum refused refused, struct buffer *t)
{
    if (refused == REFUSED_EMPTY)
        return;
    mixed_table(32, 0, t);
    if (refused == REFUSED_KIND)
        put16(t->bytes + 2, FLOW_LABELS);
    if (refused == REFUSED_VERSION)
        put16(t->bytes + 4, FLOW_VERSION_2 + 1);
    if (refused == REFUSED_CUT) {
        put16(t->bytes + 8, FLOW_MAX_NODES);
        t->length = LABELS_AT;
    }
}

struct call refused_call(enum entry entry, enum refused refused)
{
    struct buffer table = {0};
    refused_table(refused, &table);
    struct call call = sample_call(entry, &table);
    buffer_free(&table);
    return call;
}

void free_calls(struct call *calls, unsigned count)
{
    for (unsigned i = 0; i < count; i++)
        call_free(&calls[i]);
}

/* ---- Hardening ---------------------------------------------------------------------------------------------------------- */

/* By the reference: what is timed is not asked about itself. */
size_t hardened_length(struct call *call)
{
    if (call_reference(call) != FLOW_ACCEPTED) {
        printf("a table that was to be timed does not harden\n");
        exit(1);
    }
    return call_answer(call, 1);
}

void hardenings_new(struct hardenings *h, sample_table *make, unsigned nodes)
{
    sample_calls(ENTRY_HARDEN, make, nodes, h->calls[ROOM_LARGE]);
    for (unsigned sample = 0; sample < SAMPLES; sample++) {
        struct call *large = &h->calls[ROOM_LARGE][sample];
        size_t length = hardened_length(large);
        h->calls[ROOM_EXACT][sample] = h->calls[ROOM_SHORT][sample] = *large;
        h->calls[ROOM_EXACT][sample].slices[SLICE_OUTPUT].length = length;
        h->calls[ROOM_SHORT][sample].slices[SLICE_OUTPUT].length = length - 1;
    }
}

void hardenings_free(struct hardenings *h)
{
    free_calls(h->calls[ROOM_LARGE], SAMPLES);
}
