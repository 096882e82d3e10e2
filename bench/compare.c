/*
 * The library before a change beside the library now, as a Markdown table: both are linked into this program and timed in turn,
 * on the same calls.  Every figure is the median of five runs, as "not slower" is judged by.  The same code is up to a fifth
 * slower at one address than at another, so each run has copies of both libraries at addresses of its own, alike in their low bits.
 */
#include <stdio.h>
#include <stdlib.h>

#include "absent.h"
#include "call.h"
#include "factors.h"
#include "flow.h"
#include "gateway.h"
#include "samples.h"
#include "settling.h"
#include "timing.h"

enum { RUNS = 5 };

/* call_library, linked with a copy of the one library and of the other (Makefile) */
performer call_before_1, call_before_2, call_before_3, call_before_4, call_before_5;
performer call_after_1, call_after_2, call_after_3, call_after_4, call_after_5;

static const struct performers copies[RUNS] = {
    {call_after_1, call_before_1}, {call_after_2, call_before_2}, {call_after_3, call_before_3},
    {call_after_4, call_before_4}, {call_after_5, call_before_5},
};

/* Seconds a call, in each run. */
struct row {
    double before[RUNS], after[RUNS];
};

/* ---- Tables ------------------------------------------------------------------------------------------------------------- */

/*
 * The tables that are timed have products with the number 0, by chance: there labels, and hardened tables in length, are others
 * since P6.  With 1 in its place a library of before P6 does the same as one of after it.
 */
static void same_mixed_table(unsigned nodes, unsigned sample, struct buffer *table)
{
    mixed_table(nodes, sample, table);
    exchange_factors(table->bytes, table->length, 0, 1);
}

static void same_many_copies_table(unsigned nodes, unsigned sample, struct buffer *table)
{
    many_copies_table(nodes, sample, table);
    exchange_factors(table->bytes, table->length, 0, 1);
}

static void same_few_copies_table(unsigned nodes, unsigned sample, struct buffer *table)
{
    few_copies_table(nodes, sample, table);
    exchange_factors(table->bytes, table->length, 0, 1);
}

/* ---- Rows --------------------------------------------------------------------------------------------------------------- */

static void print_row(const char *what, unsigned size, const struct row *row)
{
    double before[RUNS], after[RUNS], ratios[RUNS];
    for (unsigned run = 0; run < RUNS; run++) {
        before[run] = row->before[run];
        after[run] = row->after[run];
        ratios[run] = after[run] / before[run];
    }
    double median_before = median_of(before, RUNS), median_after = median_of(after, RUNS);
    median_of(ratios, RUNS); /* sorted by it */
    printf("| %s | %u | %.3f | %.3f | %.2f (%.2f to %.2f) |\n", what, size, 1e6 * median_before, 1e6 * median_after,
           median_after / median_before, ratios[0], ratios[RUNS - 1]);
}

/* ---- Timing ------------------------------------------------------------------------------------------------------------- */

/* Times say nothing of libraries that do not do the same. */
static void require_same_answers(struct call *calls, unsigned count)
{
    for (unsigned i = 0; i < count; i++) {
        uint64_t before = copies[0].other(&calls[i]), number_before = call_answer(&calls[i], 1);
        if (copies[0].library(&calls[i]) != before || call_answer(&calls[i], 1) != number_before) {
            printf("the two libraries answer a call of %s differently\n", entry_names[calls[i].entry]);
            exit(1);
        }
    }
}

static void time_runs(struct call *const *groups, unsigned group_count, unsigned count, struct row *rows)
{
    for (unsigned i = 0; i < group_count; i++)
        require_same_answers(groups[i], count);
    for (unsigned run = 0; run < RUNS; run++) {
        struct timing timings[MOST_GROUPS];
        time_groups(copies[run], groups, group_count, count, timings);
        for (unsigned i = 0; i < group_count; i++) {
            rows[i].before[run] = timings[i].other;
            rows[i].after[run] = timings[i].library;
        }
    }
}

static void compare_calls(const char *what, unsigned size, struct call *calls, unsigned count)
{
    struct row row;
    time_runs((struct call *const[]){calls}, 1, count, &row);
    print_row(what, size, &row);
    free_calls(calls, count);
}

static void compare_samples(const char *what, enum entry entry, sample_table *make, const unsigned *sizes)
{
    for (; *sizes != 0; sizes++) {
        struct call calls[SAMPLES];
        sample_calls(entry, make, *sizes, calls);
        compare_calls(what, *sizes, calls, SAMPLES);
    }
}

/* ---- Small tables ------------------------------------------------------------------------------------------------------- */

/* As compare_calls, but cold. */
static void compare_cold_calls(const char *what, unsigned size, struct call *calls, unsigned count)
{
    struct row row;
    require_same_answers(calls, count);
    for (unsigned run = 0; run < RUNS; run++) {
        struct timing timing = time_cold_calls(copies[run], calls, count);
        row.before[run] = timing.other;
        row.after[run] = timing.library;
    }
    print_row(what, size, &row);
    free_calls(calls, count);
}

static void compare_gateway(enum entry entry, const char *warm, const char *cold)
{
    struct call calls[SAMPLES];
    sample_calls(entry, gateway_table, 0, calls);
    compare_calls(warm, gateway_mean_nodes(), calls, SAMPLES);
    sample_calls(entry, gateway_table, 0, calls);
    compare_cold_calls(cold, gateway_mean_nodes(), calls, SAMPLES);
}

static void compare_refusals(enum entry entry)
{
    for (enum refused refused = 0; refused < REFUSED; refused++) {
        struct call call = refused_call(entry, refused);
        char what[80];
        snprintf(what, sizeof what, "%s refused, %s", entry_names[entry], refused_names[refused]);
        compare_calls(what, call.slices[SLICE_TABLE].length, &call, 1);
    }
}

/* ---- Hardening ---------------------------------------------------------------------------------------------------------- */

/* What the exact buffer takes longer than the large one, in each run. */
static struct row sizing_alone(const struct row rows[ROOMS])
{
    struct row row;
    for (unsigned run = 0; run < RUNS; run++) {
        row.before[run] = rows[ROOM_EXACT].before[run] - rows[ROOM_LARGE].before[run];
        row.after[run] = rows[ROOM_EXACT].after[run] - rows[ROOM_LARGE].after[run];
    }
    return row;
}

static void print_rooms(const char *tables, unsigned nodes, const struct row rows[ROOMS])
{
    struct row sizing = sizing_alone(rows);
    char what[80];
    for (unsigned room = 0; room < ROOMS; room++) {
        snprintf(what, sizeof what, "hardening, %s, %s", tables, room_names[room]);
        print_row(what, nodes, &rows[room]);
    }
    snprintf(what, sizeof what, "sizing alone, %s", tables);
    print_row(what, nodes, &sizing);
}

static void compare_rooms(const char *tables, sample_table *make, const unsigned *sizes)
{
    for (; *sizes != 0 && *sizes <= FLOW_MAX_HARDENED_NODES; sizes++) {
        struct hardenings h;
        struct row rows[ROOMS];
        hardenings_new(&h, make, *sizes);
        time_runs((struct call *const[ROOMS]){h.calls[0], h.calls[1], h.calls[2]}, ROOMS, SAMPLES, rows);
        print_rooms(tables, *sizes, rows);
        hardenings_free(&h);
    }
}

static void compare_nesting(void)
{
    for (const unsigned *depth = nested_depths; *depth != 0; depth++) {
        struct call call = nested_call(*depth);
        compare_calls("hardening loops nested so deep", *depth, &call, 1);
    }
}

/* ---- The whole ---------------------------------------------------------------------------------------------------------- */

static void compare_machine(const char *what, enum entry entry)
{
    struct call call = machine_call(entry);
    compare_calls(what, MACHINE_STEPS, &call, 1);
}

/* The in-bounds ones are left out: libraries of before P4 are stuck there. */
static void compare_accesses(void)
{
    for (enum accesses accesses = 0; accesses < ACCESSES_IN_BOUNDS; accesses++) {
        struct call call = access_call(accesses);
        compare_calls(accesses_names[accesses], MACHINE_STEPS, &call, 1);
    }
}

/* A library of before P5 has no such machine. */
static void compare_rollback(void)
{
    struct call call = rolling_call(machine_call(ENTRY_GUESS));
    if (copies[0].other(&call) == NO_SUCH_ENTRY) {
        printf("| machine that rolls back: the library before has none | | | | |\n");
        call_free(&call);
        return;
    }
    compare_calls("machine that rolls back, so many steps", MACHINE_STEPS, &call, 1);
    for (const unsigned *cells = saved_cells; *cells != 0; cells++) {
        struct call undoing = undoing_call(*cells);
        compare_calls("500 times a force and a rollback, so many cells", *cells, &undoing, 1);
    }
}

int main(void)
{
    setvbuf(stdout, NULL, _IOLBF, 0);
    printf("\n## Before and after\n\n"
           "Medians of five runs, both libraries in turn on the same calls, at other addresses in each run; in brackets the least and\n"
           "the most of the five ratios. Sizing alone is the time with the exact buffer less that with the large one, in each run.\n\n"
           "| what | N, depth, steps, cells or bytes | before, µs | after, µs | after/before |\n|---|---|---|---|---|\n");
    compare_samples("reading (a run refused by 20)", ENTRY_RUN, same_mixed_table, sample_sizes);
    compare_samples("labelling", ENTRY_SHEET, same_mixed_table, sample_sizes);
    compare_samples("256 questions", ENTRY_QUESTIONS, same_mixed_table, asked_sizes);
    compare_gateway(ENTRY_RUN, "gateway programs: reading, warm", "gateway programs: reading, cold");
    compare_gateway(ENTRY_SHEET, "gateway programs: labelling, warm", "gateway programs: labelling, cold");
    compare_gateway(ENTRY_HARDEN, "gateway programs: hardening, warm", "gateway programs: hardening, cold");
    compare_refusals(ENTRY_SHEET);
    compare_refusals(ENTRY_HARDEN);
    compare_refusals(ENTRY_RUN);
    compare_rooms("mixed", same_mixed_table, sample_sizes);
    compare_rooms("many copies", same_many_copies_table, copied_sizes);
    compare_rooms("few copies", same_few_copies_table, copied_sizes);
    compare_nesting();
    compare_samples("labelling a loop that settles slowly, mixed commands", ENTRY_SHEET, settling_table, settling_sizes);
    compare_samples("labelling a loop that settles slowly, skips", ENTRY_SHEET, settling_skips_table, settling_sizes);
    compare_machine("plain machine, so many steps", ENTRY_RUN);
    compare_machine("guessing machine, so many steps", ENTRY_GUESS);
    compare_accesses();
    compare_rollback();
    return 0;
}
