/* Speed and stack of libflow.a beside the reference, as Markdown tables.  Both are timed in the same run, on the same calls. */
#include <stdio.h>

#include "records/assemble.h"
#include "call.h"
#include "flow.h"
#include "gateway.h"
#include "records/little_endian.h"
#include "samples.h"
#include "settling.h"
#include "stack.h"
#include "timing.h"

static const struct performers both = {call_library, call_reference};

/* ---- Reading, labelling, hardening -------------------------------------------------------------------------------------- */

static struct timing time_samples(enum entry entry, sample_table *make, unsigned nodes)
{
    struct call calls[SAMPLES];
    sample_calls(entry, make, nodes, calls);
    struct timing timing = time_calls(both, calls, SAMPLES);
    free_calls(calls, SAMPLES);
    return timing;
}

static void print_timing(const char *what, unsigned size, struct timing timing)
{
    printf("| %s | %u | %.3f | %.3f | %.2f |\n", what, size, 1e6 * timing.library, 1e6 * timing.other,
           timing.library / timing.other);
}

static void print_timing_head(const char *title, const char *text, const char *size)
{
    printf("\n## %s\n\n%s| what | %s | library, µs | reference, µs | ratio |\n|---|---|---|---|---|\n", title, text, size);
}

static void figures_of_sizes(void)
{
    print_timing_head("Time against the number of nodes (8 generated tables of each size)", "", "N");
    for (const unsigned *nodes = sample_sizes; *nodes != 0; nodes++)
        print_timing("reading (a run refused by 20)", *nodes, time_samples(ENTRY_RUN, mixed_table, *nodes));
    for (const unsigned *nodes = sample_sizes; *nodes != 0; nodes++)
        print_timing("labelling", *nodes, time_samples(ENTRY_SHEET, mixed_table, *nodes));
    for (const unsigned *nodes = sample_sizes; *nodes != 0 && *nodes <= FLOW_MAX_HARDENED_NODES; nodes++)
        print_timing("hardening", *nodes, time_samples(ENTRY_HARDEN, mixed_table, *nodes));
}

/* ---- Gateway programs --------------------------------------------------------------------------------------------------- */

static void figures_of_gateway(enum entry entry, const char *warm, const char *cold)
{
    struct call calls[SAMPLES];
    sample_calls(entry, gateway_table, 0, calls);
    print_timing(warm, gateway_mean_nodes(), time_calls(both, calls, SAMPLES));
    print_timing(cold, gateway_mean_nodes(), time_cold_calls(both, calls, SAMPLES));
    free_calls(calls, SAMPLES);
}

static void figures_of_gateways(void)
{
    static const char text[] =
        "Warm: all of them in turn, again and again. Cold: before each single call 64 MiB are written to, a byte in each 64, and 16,384\n"
        "branches taken that cannot be foreseen; of each program's times the median, and of these the mean.\n\n";
    print_timing_head("Gateway programs (8 small programs of 10 to 50 nodes)", text, "mean N");
    figures_of_gateway(ENTRY_RUN, "reading (a run refused by 20), warm", "reading, cold");
    figures_of_gateway(ENTRY_SHEET, "labelling, warm", "labelling, cold");
    figures_of_gateway(ENTRY_HARDEN, "hardening, warm", "hardening, cold");
}

/* ---- Refusals ----------------------------------------------------------------------------------------------------------- */

static void figures_of_refusal(enum entry entry, enum refused refused)
{
    struct call call = refused_call(entry, refused);
    struct timing timing = time_calls(both, &call, 1);
    printf("| %s | %s | %.3f | %.3f | %.2f |\n", refused_names[refused], entry_names[entry], 1e6 * timing.library,
           1e6 * timing.other, timing.library / timing.other);
    call_free(&call);
}

static void figures_of_refusals(void)
{
    printf("\n## Tables refused at their first bytes\n\n"
           "| table | entry | library, µs | reference, µs | ratio |\n|---|---|---|---|---|\n");
    for (enum refused refused = 0; refused < REFUSED; refused++) {
        figures_of_refusal(ENTRY_SHEET, refused);
        figures_of_refusal(ENTRY_HARDEN, refused);
        figures_of_refusal(ENTRY_RUN, refused);
    }
}

/* ---- Versions ----------------------------------------------------------------------------------------------------------- */

static void figures_of_versions(void)
{
    print_timing_head("Version 2: the same tables with their variables spread over 63", "", "N");
    for (const unsigned *nodes = copied_sizes; *nodes != 0; nodes++) {
        print_timing("labelling, version 1", *nodes, time_samples(ENTRY_SHEET, mixed_table, *nodes));
        print_timing("labelling, version 2", *nodes, time_samples(ENTRY_SHEET, wide_table, *nodes));
        print_timing("hardening, version 1", *nodes, time_samples(ENTRY_HARDEN, mixed_table, *nodes));
        print_timing("hardening, version 2", *nodes, time_samples(ENTRY_HARDEN, wide_table, *nodes));
    }
}

/* ---- Sizing ------------------------------------------------------------------------------------------------------------- */

static void figures_of_rooms(const char *copies, sample_table *make, unsigned nodes)
{
    struct hardenings h;
    struct timing timings[ROOMS];
    hardenings_new(&h, make, nodes);
    time_groups(both, (struct call *const[ROOMS]){h.calls[0], h.calls[1], h.calls[2]}, ROOMS, SAMPLES, timings);
    for (unsigned room = 0; room < ROOMS; room++) {
        char what[80];
        snprintf(what, sizeof what, "hardening, %s, %s", copies, room_names[room]);
        print_timing(what, nodes, timings[room]);
    }
    printf("| sizing alone, %s | %u | %.3f | | |\n", copies, nodes,
           1e6 * (timings[ROOM_EXACT].library - timings[ROOM_LARGE].library));
    hardenings_free(&h);
}

static void figures_of_sizing(void)
{
    static const char text[] =
        "Many copies: nearly all nodes stand in conditions, of which hardening makes three copies; few: in values, of which it makes\n"
        "one. Into a buffer of 20 + 6 A + 80 N bytes flow_harden writes these, of version 1, at once, into a shorter one only when it has\n"
        "sized the result. Sizing alone is the time with the exact buffer less that with the large one. As the difference of two\n"
        "measured times it is noisier than they are: runs differ by a tenth of it, at N = 8 by a fifth. The reference never sizes.\n\n";
    print_timing_head("Sizing (8 generated tables of each kind and size, each hardened into three buffers)", text, "N");
    for (const unsigned *nodes = copied_sizes; *nodes != 0; nodes++)
        figures_of_rooms("many copies", many_copies_table, *nodes);
    for (const unsigned *nodes = copied_sizes; *nodes != 0; nodes++)
        figures_of_rooms("few copies", few_copies_table, *nodes);
}

/* ---- Questions ---------------------------------------------------------------------------------------------------------- */

static void print_questions(unsigned nodes, struct timing asking, struct timing labelling)
{
    printf("| 256 questions | %u | %.3f | %.3f | %.2f | %.3f | %.2f |\n", nodes, 1e6 * asking.library, 1e6 * asking.other,
           asking.library / asking.other, 1e6 * labelling.library, asking.library / labelling.library);
}

/* Beside a sheet of the same tables: all answers come from one analysis. */
static void figures_of_question_size(unsigned nodes)
{
    struct call asking[SAMPLES], labelling[SAMPLES];
    struct timing timings[2];
    sample_calls(ENTRY_QUESTIONS, mixed_table, nodes, asking);
    sample_calls(ENTRY_SHEET, mixed_table, nodes, labelling);
    time_groups(both, (struct call *const[2]){asking, labelling}, 2, SAMPLES, timings);
    print_questions(nodes, timings[0], timings[1]);
    free_calls(asking, SAMPLES);
    free_calls(labelling, SAMPLES);
}

static void figures_of_questions(void)
{
    printf("\n## Time of 256 questions beside one sheet of the same table (the same 8 tables of each size)\n\n"
           "| what | N | library, µs | reference, µs | ratio | library's flow_sheet, µs | ratio to it |\n"
           "|---|---|---|---|---|---|---|\n");
    for (const unsigned *nodes = asked_sizes; *nodes != 0; nodes++)
        figures_of_question_size(*nodes);
}

/* ---- Nesting ------------------------------------------------------------------------------------------------------------ */

static void figures_of_nesting(void)
{
    print_timing_head("Time against the nesting of loops: while 1 do (x:=0; (inner; x:=s))", "", "depth");
    for (const unsigned *depth = nested_depths; *depth != 0; depth++) {
        struct call call = nested_call(*depth);
        print_timing("hardening", *depth, time_calls(both, &call, 1));
        call_free(&call);
    }
}

/* ---- Settling ----------------------------------------------------------------------------------------------------------- */

static void figures_of_settling(void)
{
    print_timing_head("A loop that settles slowly: while y<100 do (x0:=x1; x1:=x2; ..; x28:=x29; a long body), 30 passes", "", "N");
    for (const unsigned *nodes = settling_sizes; *nodes != 0; nodes++) {
        print_timing("labelling, a body of mixed commands", *nodes, time_samples(ENTRY_SHEET, settling_table, *nodes));
        print_timing("labelling, a body of skips", *nodes, time_samples(ENTRY_SHEET, settling_skips_table, *nodes));
    }
}

/* ---- Machines ----------------------------------------------------------------------------------------------------------- */

static void figures_of_machine(const char *name, struct call call)
{
    struct timing timing = time_calls(both, &call, 1);
    printf("| %s | %.1f | %.1f | %.2f |\n", name, 1e-6 * MACHINE_STEPS / timing.library, 1e-6 * MACHINE_STEPS / timing.other,
           timing.library / timing.other);
    call_free(&call);
}

static void figures_of_machines(void)
{
    printf("\n## Steps a second, on while x<2^32-1 do (x:=x+1; y:=x*3-y) and on while 1 do (x:=a0[i]; a1[i]:=x)\n\n"
           "| machine | library, million steps/s | reference, million steps/s | ratio of times |\n|---|---|---|---|\n");
    figures_of_machine("plain machine", machine_call(ENTRY_RUN));
    figures_of_machine("guessing machine", machine_call(ENTRY_GUESS));
    for (enum accesses accesses = 0; accesses < ACCESSES; accesses++)
        figures_of_machine(accesses_names[accesses], access_call(accesses));
}

/* ---- Rolling back ------------------------------------------------------------------------------------------------------- */

/* Steps without a force, beside flow_guess on the same call. */
static void figures_of_rolling(const char *name, struct call call)
{
    struct call rolling = rolling_call(call_copy(&call));
    struct timing timings[2];
    time_groups(both, (struct call *const[2]){&rolling, &call}, 2, 1, timings);
    printf("| %s | %.1f | %.1f | %.2f | %.1f | %.2f |\n", name, 1e-6 * MACHINE_STEPS / timings[0].library,
           1e-6 * MACHINE_STEPS / timings[0].other, timings[0].library / timings[0].other, 1e-6 * MACHINE_STEPS / timings[1].library,
           timings[0].library / timings[1].library);
    call_free(&rolling);
    call_free(&call);
}

/* A force and the rollback that undoes it, each with a share of the call around them. */
static struct timing time_undoing(unsigned cells)
{
    struct call call = undoing_call(cells);
    struct timing timing = time_calls(both, &call, 1);
    call_free(&call);
    return (struct timing){timing.library / UNDONE_GUESSES, timing.other / UNDONE_GUESSES};
}

static void figures_of_rollback(void)
{
    printf("\n## The machine that rolls back, beside the guessing machine: steps a second on the same calls, without a force\n\n"
           "| what | library, million steps/s | reference, million steps/s | ratio of times | library's flow_guess, million steps/s | "
           "ratio of times to it |\n|---|---|---|---|---|---|\n");
    figures_of_rolling("small steps", machine_call(ENTRY_GUESS));
    figures_of_rolling("reads and writes under steps", access_call(ACCESSES_STEPS));
    print_timing_head("Time of a force and the rollback that undoes it (a call's time by the 500 pairs in it)", "", "cells");
    for (const unsigned *cells = saved_cells; *cells != 0; cells++)
        print_timing("a force and a rollback", *cells, time_undoing(*cells));
}

/* ---- Stack -------------------------------------------------------------------------------------------------------------- */

/* Nests one level more around a node.  Each adds at most 5 nodes. */
typedef unsigned nesting(struct buffer *t, unsigned inner);

static unsigned nest_add(struct buffer *t, unsigned inner)
{
    return assemble_node2(t, FLOW_ADD, inner, assemble_node1(t, FLOW_VARIABLE, 0));
}

static unsigned nest_not(struct buffer *t, unsigned inner)
{
    return assemble_node1(t, FLOW_NOT, inner);
}

static unsigned nest_choice(struct buffer *t, unsigned inner)
{
    unsigned test = assemble_node2(t, FLOW_EQUAL, inner, assemble_node1(t, FLOW_NUMBER, 1));
    unsigned one = assemble_node1(t, FLOW_NUMBER, 0);
    return assemble_node3(t, FLOW_CHOICE, test, one, assemble_node1(t, FLOW_VARIABLE, 0));
}

static unsigned nest_first(struct buffer *t, unsigned inner)
{
    return assemble_node2(t, FLOW_SEQUENCE, inner, assemble_node0(t, FLOW_SKIP));
}

static unsigned nest_second(struct buffer *t, unsigned inner)
{
    return assemble_node2(t, FLOW_SEQUENCE, assemble_node0(t, FLOW_SKIP), inner);
}

static unsigned nest_if(struct buffer *t, unsigned inner)
{
    unsigned condition = assemble_node1(t, FLOW_CONSTANT, 1);
    return assemble_node3(t, FLOW_IF, condition, inner, assemble_node0(t, FLOW_SKIP));
}

static unsigned nest_while(struct buffer *t, unsigned inner)
{
    return assemble_node2(t, FLOW_WHILE, assemble_node1(t, FLOW_CONSTANT, 1), inner);
}

struct nest {
    const char *name;
    nesting *level;
    unsigned innermost; /* kind of the node inside all levels */
    unsigned outermost; /* kind of the command around an expression, or 0 */
};

static const struct nest nests[] = {
    {"numerics: add", nest_add, FLOW_VARIABLE, FLOW_ASSIGN},
    {"truths: not", nest_not, FLOW_CONSTANT, FLOW_WHILE},
    {"numerics and truths: choice, equal", nest_choice, FLOW_VARIABLE, FLOW_ASSIGN},
    {"sequences, first part", nest_first, FLOW_SKIP, 0},
    {"sequences, second part", nest_second, FLOW_SKIP, 0},
    {"ifs", nest_if, FLOW_SKIP, 0},
    {"loops", nest_while, FLOW_SKIP, 0},
};

static unsigned close_nest(const struct nest *nest, struct buffer *t, unsigned inner)
{
    if (nest->outermost == FLOW_ASSIGN)
        return assemble_node2(t, FLOW_ASSIGN, 0, inner);
    if (nest->outermost == FLOW_WHILE)
        return assemble_node2(t, FLOW_WHILE, inner, assemble_node0(t, FLOW_SKIP));
    return inner;
}

/* As many levels as this many nodes allow. */
static void nested_table(const struct nest *nest, unsigned nodes, struct buffer *t)
{
    assemble_table(t, 1, 0, NULL, 1, 0);
    unsigned inner = nest->innermost == FLOW_SKIP ? assemble_node0(t, FLOW_SKIP) : assemble_node1(t, nest->innermost, 0);
    unsigned before, level_nodes = 0;
    do {
        before = get16(t->bytes + 8);
        inner = nest->level(t, inner);
        level_nodes = get16(t->bytes + 8) - before;
    } while (get16(t->bytes + 8) + level_nodes + 2 <= nodes);
    close_nest(nest, t, inner);
}

static void print_stack(const char *name, const char *entry, unsigned nodes, struct call *call)
{
    size_t library = stack_of_call(call_library, call);
    size_t reference = stack_of_call(call_reference, call);
    printf("| %s | %s | %u | %.0f | %.0f |\n", name, entry, nodes, (double)library / 1024, (double)reference / 1024);
    call_free(call);
}

/* The first branch of a list of steps is guessed wrong, and that undone: saving takes stack too. */
static void guess_and_undo(struct call *call)
{
    uint8_t *list = call->slices[SLICE_DIRECTIVES].bytes;
    put16(list + 2, FLOW_FORCE);
    put16(list + 6, FLOW_ROLLBACK);
}

/* Of all entries; flow_harden takes a table of its own. */
static void figures_of_stacks(const char *name, const struct buffer *table, const struct buffer *hardened)
{
    unsigned nodes = get16(table->bytes + 8), hardened_nodes = get16(hardened->bytes + 8);
    struct call sheet = writing_call(ENTRY_SHEET, table, FLOW_SHEET_BYTES);
    struct call questions = asking_call(table);
    struct call harden = writing_call(ENTRY_HARDEN, hardened, FLOW_TABLE_BYTES);
    harden.slices[SLICE_OUTPUT].length = hardened_length(&harden); /* sizing takes stack too */
    struct call run = running_call(ENTRY_RUN, table, 5000, 2000);
    struct call guess = running_call(ENTRY_GUESS, table, 5000, 2000);
    struct call rollback = rolling_call(running_call(ENTRY_GUESS, table, 5000, 2000));
    guess_and_undo(&rollback);
    print_stack(name, "flow_sheet", nodes, &sheet);
    print_stack(name, "flow_questions", nodes, &questions);
    print_stack(name, "flow_harden", hardened_nodes, &harden);
    print_stack(name, "flow_run", nodes, &run);
    print_stack(name, "flow_guess", nodes, &guess);
    print_stack(name, "flow_rollback", nodes, &rollback);
}

static void figures_of_nest(const struct nest *nest)
{
    struct buffer table = {0}, small = {0};
    nested_table(nest, FLOW_MAX_NODES, &table);
    nested_table(nest, FLOW_MAX_HARDENED_NODES, &small);
    figures_of_stacks(nest->name, &table, &small);
    buffer_free(&table);
    buffer_free(&small);
}

/* A table of usual size and shape. */
static void figures_of_small_stack(void)
{
    enum { LITTLE_NODES = 43 };
    struct buffer table = {0};
    mixed_table(LITTLE_NODES, 0, &table);
    figures_of_stacks("a generated table", &table, &table);
    buffer_free(&table);
}

static void figures_of_stack(void)
{
    static const char columns[] = "entry | N | library, KiB | reference, KiB |\n|---|---|---|---|---|\n";
    printf("\n## Peak stack, on the deepest tables\n\n| nested | %s", columns);
    for (unsigned i = 0; i < sizeof nests / sizeof *nests; i++)
        figures_of_nest(&nests[i]);
    printf("\n## Peak stack, on a small table\n\n| table | %s", columns);
    figures_of_small_stack();
}

int main(void)
{
    setvbuf(stdout, NULL, _IOLBF, 0);
    printf("# Figures\n\nTimes are the best of several rounds, library and reference in turn.\n");
    figures_of_sizes();
    figures_of_gateways();
    figures_of_refusals();
    figures_of_versions();
    figures_of_sizing();
    figures_of_questions();
    figures_of_nesting();
    figures_of_settling();
    figures_of_machines();
    figures_of_rollback();
    figures_of_stack();
    return 0;
}
