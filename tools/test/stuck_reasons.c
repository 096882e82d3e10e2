/*
 * Why runs are stuck, on generated tables, states and scripts: each reason is checked by other directives in the place of the
 * one that does not fit, which must fit or not as the reason says, and by an evaluation of indexes that is not the library's.
 * stuck_reasons [SEED [COUNT]]
 */
#include <inttypes.h>
#include <stdbool.h>
#include <stdlib.h>
#include <string.h>

#include "../../bench/generate.h"
#include "library/stuck.h"
#include "records/directives.h"
#include "records/kinds.h"
#include "records/little_endian.h"
#include "widen.h"

enum { CALLS = 150000, LONGEST_RUN = 300, REASONS = STUCK_NO_SAVE + 1 };

/* What a run is made of. */
struct played {
    enum machine machine;
    struct buffer bytes, script;
    struct table table;
    struct state state;
    uint32_t budget;
};

static void die(const char *what, const struct played *played)
{
    fprintf(stderr, "stuck reasons: %s; table, script and state in hex:\n", what);
    print_hex(stderr, played->bytes.bytes, played->bytes.length);
    fputc('\n', stderr);
    print_hex(stderr, played->script.bytes, played->script.length);
    fputc('\n', stderr);
    print_hex(stderr, played->state.words.bytes, played->state.words.length);
    fputc('\n', stderr);
    exit(1);
}

/* ---- The next step ---- */

static uint32_t evaluate(const struct table *table, const uint8_t *variables, unsigned node)
{
    uint32_t field[3], value[3] = {0};
    const char *letters = fields_of(table_kind(table, node));
    for (unsigned i = 0; letters[i]; i++) {
        field[i] = table_field(table, node, i);
        value[i] = is_child(letters[i]) ? evaluate(table, variables, field[i]) : 0;
    }
    switch (table_kind(table, node)) {
    case FLOW_NUMBER:
    case FLOW_CONSTANT: return field[0];
    case FLOW_VARIABLE: return get32(variables + 4 * field[0]);
    case FLOW_ADD: return value[0] + value[1];
    case FLOW_SUBTRACT: return value[0] - value[1];
    case FLOW_MULTIPLY: return value[0] * value[1];
    case FLOW_CHOICE: return value[0] ? value[1] : value[2];
    case FLOW_EQUAL: return value[0] == value[1];
    case FLOW_LESS: return value[0] < value[1];
    case FLOW_NOT: return !value[0];
    default: return value[0] && value[1];
    }
}

/* A branch has neither array nor index; the other two are led elsewhere by one directive each, and not by the other. */
struct next {
    unsigned kind, redirect, crossed;
    uint32_t array, index;
    bool out_of_bounds;
};

static struct next find_next(const struct table *table, const struct run *run)
{
    unsigned node = (unsigned)run->next, kind = table_kind(table, node);
    struct next next = {.kind = kind, .redirect = FLOW_LOAD, .crossed = FLOW_STORE};
    if (kind == FLOW_WRITE)
        next = (struct next){.kind = kind, .redirect = FLOW_STORE, .crossed = FLOW_LOAD};
    if (kind != FLOW_READ && kind != FLOW_WRITE)
        return next;
    next.array = table_field(table, node, kind == FLOW_READ ? 1 : 0);
    next.index = evaluate(table, run->variables.bytes, table_field(table, node, kind == FLOW_READ ? 2 : 1));
    next.out_of_bounds = next.index >= table->counts[next.array];
    return next;
}

/* ---- Other directives in the place of the next ---- */

/* Plays the directives that were used and one more: of this kind, or none more where it is 0. */
static struct run play(const struct played *played, const struct run *stuck_run, unsigned kind, unsigned array)
{
    struct buffer script = {0};
    struct run run;
    const uint8_t *next = directive_numbered(&played->script, stuck_run->directives + 1);
    buffer_append(&script, played->script.bytes, (size_t)(next - played->script.bytes));
    if (kind == FLOW_LOAD || kind == FLOW_STORE)
        assemble_redirect(&script, kind, array, 0);
    else if (kind != 0)
        assemble_directive(&script, kind);
    if (run_table(&played->table, played->machine, &script, &played->state, played->budget, &run).refusal != FLOW_ACCEPTED)
        die("the library refuses a directive put in", played);
    buffer_free(&script);
    return run;
}

/* Is one more of this kind used up?  A load or store names the first cell of the array. */
static bool fits(const struct played *played, const struct run *stuck_run, unsigned kind, unsigned array)
{
    struct run run = play(played, stuck_run, kind, array);
    bool used = run.directives == stuck_run->directives + 1;
    run_free(&run);
    return used;
}

/* Does what leads the step elsewhere show the step's own array and index? */
static bool shows(const struct played *played, const struct run *stuck_run, const struct next *next)
{
    struct run run = play(played, stuck_run, next->redirect, next->array);
    const uint8_t *shown = run.observations.bytes + stuck_run->observations.length;
    bool right = run.observations.length >= stuck_run->observations.length + 10 &&
                 get16(shown + 2) == (next->kind == FLOW_READ ? FLOW_SHOWN_READ : FLOW_SHOWN_WRITE) &&
                 get16(shown + 4) == next->array && get32(shown + 6) == next->index;
    run_free(&run);
    return right;
}

/* Are we at a read or write out of bounds, where nothing fits but, with the flag set, what leads it elsewhere? */
static bool is_out_of_bounds(const struct played *played, const struct run *run, const struct next *next)
{
    bool redirect = fits(played, run, next->redirect, next->array);
    return next->out_of_bounds && redirect == (run->flag == 1) && (!redirect || shows(played, run, next)) &&
           !fits(played, run, FLOW_STEP, 0) && !fits(played, run, FLOW_FORCE, 0) &&
           !fits(played, run, next->crossed, next->array);
}

/* ---- Reasons ---- */

/* Is the directive one for another step; does it not fit with any cell; and does another directive, unless out of bounds? */
static bool is_wrong_step_right(const struct played *played, const struct run *run, unsigned directive, const struct next *next)
{
    bool branch = next->kind == FLOW_IF || next->kind == FLOW_WHILE;
    bool wrong = directive == next->crossed || directive == (branch ? FLOW_LOAD : FLOW_FORCE);
    if (!wrong || fits(played, run, directive, next->array))
        return false;
    return next->out_of_bounds ? is_out_of_bounds(played, run, next) : fits(played, run, FLOW_STEP, 0);
}

/* Does the load or store name a cell that is not there, and would one that is there fit? */
static bool is_cell_right(const struct played *played, const struct run *run, const struct stuck *stuck,
                          const struct next *next)
{
    const struct table *table = &played->table;
    uint32_t array = get16(stuck->directive + RECORD_HEAD), index = get32(stuck->directive + RECORD_HEAD + 2);
    bool declared = array < table->arrays, missing = declared && index >= table->counts[array];
    return (stuck->why == STUCK_NO_ARRAY ? !declared : missing) && run->flag == 1 && is_out_of_bounds(played, run, next);
}

/* With no directive in the place of the next, a run of a script is not stuck; and where nothing is pending it ends there. */
static bool is_unfit_right(const struct played *played, const struct run *run, const struct stuck *stuck,
                           const struct next *next)
{
    unsigned directive = get16(stuck->directive + 2);
    struct run without = play(played, run, 0, 0);
    bool pending = without.end != FLOW_FINISHED || without.steps > run->steps;
    bool goes_on = without.end != FLOW_STUCK && stuck->number == run->directives + 1 && run->pending == pending;
    run_free(&without);
    if (!goes_on)
        return false;
    switch (stuck->why) {
    case STUCK_OUT_OF_BOUNDS: return directive == FLOW_STEP && is_out_of_bounds(played, run, next);
    case STUCK_WRONG_STEP: return is_wrong_step_right(played, run, directive, next);
    case STUCK_FLAG_CLEAR: return directive == next->redirect && run->flag == 0 && is_out_of_bounds(played, run, next);
    case STUCK_NO_ARRAY:
    case STUCK_NO_CELL: return directive == next->redirect && is_cell_right(played, run, stuck, next);
    case STUCK_ALL_SAVES:
        return directive == FLOW_FORCE && fits(played, run, FLOW_STEP, 0) && fits(played, run, FLOW_ROLLBACK, 0);
    case STUCK_NO_SAVE: return directive == FLOW_ROLLBACK && run->flag == 0;
    default: return false;
    }
}

static bool is_reason_right(const struct played *played, const struct run *run, const struct stuck *stuck)
{
    struct next next = find_next(&played->table, run);
    bool named = stuck->why == STUCK_OUT_OF_BOUNDS || stuck->why == STUCK_FLAG_CLEAR;
    if (stuck->node != run->next || (named && (stuck->array != next.array || stuck->index != next.index)))
        return false;
    if (played->machine == MACHINE_PLAIN)
        return stuck->why == STUCK_OUT_OF_BOUNDS && next.out_of_bounds;
    return is_unfit_right(played, run, stuck, &next);
}

/* ---- Runs ---- */

static void take_slice(struct buffer *buffer, const struct call *call, enum slice_name name)
{
    buffer_append(buffer, call->slices[name].bytes, call->slices[name].length);
}

/* The same run of the same program behind any front: of either version, and with other variables beside its own. */
static void widen_played(struct random *r, struct played *played)
{
    struct front front = random_front(r, &played->table);
    struct buffer wide = {0}, words = {0}, *own = &played->state.words;
    size_t own_variables = 4 * (size_t)played->table.variables;
    widen_table(&played->table, front, &wide);
    buffer_reserve(&words, 4 * (size_t)front.variables + 1);
    generate_words(r, words.bytes, front.variables);
    words.length = 4 * (size_t)front.variables;
    if (own_variables > 0)
        memcpy(words.bytes + 4 * front.shift, own->bytes, own_variables);
    if (own->length > own_variables)
        buffer_append(&words, own->bytes + own_variables, own->length - own_variables);
    buffer_free(&played->bytes);
    buffer_free(own);
    played->bytes = wide;
    played->state = (struct state){words, front.variables};
    table_open(&played->table, &played->bytes);
}

static bool is_state_whole(const struct played *played)
{
    const struct table *table = &played->table;
    return played->state.variables == table->variables && played->state.words.length == 4 * (table->variables + table->cells);
}

/* A call by chance as a run.  False: it is none, or the library refuses it. */
static bool make_run(struct random *r, struct played *played, struct run *run)
{
    struct call call;
    struct buffer sheet = {0};
    *played = (struct played){0};
    *run = (struct run){0};
    generate_call(r, true, &call);
    take_slice(&played->bytes, &call, SLICE_TABLE);
    take_slice(&played->script, &call, SLICE_DIRECTIVES);
    take_slice(&played->state.words, &call, SLICE_VARIABLES);
    take_slice(&played->state.words, &call, SLICE_CELLS);
    played->state.variables = (unsigned)(call.slices[SLICE_VARIABLES].length / 4);
    played->budget = call.budget < LONGEST_RUN ? call.budget : LONGEST_RUN;
    played->machine = call.entry == ENTRY_RUN ? MACHINE_PLAIN : call.entry == ENTRY_GUESS ? MACHINE_GUESSING : MACHINE_ROLLBACK;
    bool runs = call.entry >= ENTRY_RUN && label_table(&played->bytes, &sheet).refusal == FLOW_ACCEPTED;
    call_free(&call);
    buffer_free(&sheet);
    if (!runs)
        return false;
    table_open(&played->table, &played->bytes);
    if (!is_state_whole(played))
        return false;
    if (random_percent(r, 50))
        widen_played(r, played);
    return run_table(&played->table, played->machine, &played->script, &played->state, played->budget, run).refusal ==
           FLOW_ACCEPTED;
}

static void check_run(struct random *r, unsigned counts[REASONS])
{
    struct played played;
    struct run run;
    if (make_run(r, &played, &run)) {
        struct stuck stuck = find_stuck(&played.table, played.machine, &played.script, &run);
        if ((stuck.why == STUCK_NOT) != (run.end != FLOW_STUCK))
            die("a run is stuck and has no reason, or is not and has one", &played);
        if (stuck.why != STUCK_NOT && !is_reason_right(&played, &run, &stuck))
            die("this run is not stuck for the reason given", &played);
        counts[stuck.why]++;
    }
    run_free(&run);
    buffer_free(&played.bytes);
    buffer_free(&played.script);
    buffer_free(&played.state.words);
}

/* Every reason must have been met. */
static bool print_counts(const unsigned counts[REASONS])
{
    unsigned fewest = UINT32_MAX, stuck = 0;
    for (unsigned why = STUCK_OUT_OF_BOUNDS; why < REASONS; why++) {
        fewest = counts[why] < fewest ? counts[why] : fewest;
        stuck += counts[why];
    }
    printf("stuck reasons: %u runs stuck and %u not, each reason at least %u times\n", stuck, counts[STUCK_NOT], fewest);
    return fewest > 0;
}

int main(int argc, char **argv)
{
    uint64_t seed = argc > 1 ? strtoull(argv[1], NULL, 10) : 1;
    unsigned count = argc > 2 ? (unsigned)strtoul(argv[2], NULL, 10) : CALLS;
    unsigned counts[REASONS] = {0};
    for (unsigned number = 0; number < count; number++) {
        struct random random = random_from(seed, number);
        check_run(&random, counts);
    }
    return print_counts(counts) ? 0 : 1;
}
