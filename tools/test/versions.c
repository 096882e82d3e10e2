/*
 * One program in tables of both versions, and with other variables beside its own: what is printed of it is the same.
 * versions [SEED [COUNT]]
 *   the listing:  but for its declarations; with it the labels of table and sheet in words;
 *   a run:        how it ends and why, what it shows and the state that it leaves; the other variables stay as they were;
 *   hardened:     the listing; the version is 2 where the input's is or 33 variables are declared, and none comes of 64 variables.
 * The other variables are public, and no command has them: they are named in declarations alone.
 */
#include <stdbool.h>
#include <stdlib.h>
#include <string.h>

#include "library/calls.h"
#include "library/stuck.h"
#include "memory.h"
#include "records/little_endian.h"
#include "text/ends.h"
#include "text/labels.h"
#include "text/program.h"
#include "text/state.h"
#include "widen.h"

enum { PROGRAMS = 6000, BUDGET = 300 };

/* A table of the program, with names that it shares with the others. */
struct side {
    struct buffer bytes, sheet;
    struct table table;
    struct names names;
    unsigned own, shift; /* the program's own variables: how many, and the first */
};

/* How often each was met: fronts, hardened tables by their version, runs by their machine. */
struct counts {
    unsigned fronts[2], above_32, hardened[2], no_free_variable, plain, guessing, stuck;
};

static void demand(bool holds, const char *what, const struct side *one, const struct side *other)
{
    if (holds)
        return;
    fprintf(stderr, "versions: %s; both tables in hex:\n", what);
    print_hex(stderr, one->bytes.bytes, one->bytes.length);
    fputc('\n', stderr);
    print_hex(stderr, other->bytes.bytes, other->bytes.length);
    fputc('\n', stderr);
    exit(1);
}

/* ---- Tables ---- */

/* The program's own variables are v0, v1, .. whatever their numbers, and the others u with theirs; with `flag` the last is f. */
static void name_variables(struct side *side, bool flag)
{
    number_names(&side->names, &side->table, false);
    for (unsigned x = 0; x < side->table.variables; x++) {
        bool own = x >= side->shift && x < side->shift + side->own;
        snprintf(side->names.variable[x], NAME_BYTES, "%c%u", own ? 'v' : 'u', own ? x - side->shift : x);
    }
    if (flag)
        name_flag(&side->names);
}

/* Takes the bytes.  False: the library refuses them. */
static bool open_side(struct side *side, struct buffer bytes, unsigned own, unsigned shift, bool flag)
{
    *side = (struct side){.bytes = bytes, .own = own, .shift = shift};
    if (label_table(&side->bytes, &side->sheet).refusal != FLOW_ACCEPTED)
        return false;
    table_open(&side->table, &side->bytes);
    name_variables(side, flag);
    return true;
}

static void close_side(struct side *side)
{
    buffer_free(&side->bytes);
    buffer_free(&side->sheet);
}

/* ---- Words ---- */

/* A listing without its front and the empty line behind this, where it has one. */
static struct buffer listing_behind_front(const struct side *side)
{
    struct printed printed;
    struct buffer body = {0};
    print_open(&printed);
    print_program(printed.to, &side->table, &side->names, &side->sheet);
    struct buffer text = print_close(&printed);
    buffer_append(&text, (const uint8_t *)"", 1);
    const char *gap = strstr((const char *)text.bytes, "\n\n"), *from = gap != NULL ? gap + 2 : (const char *)text.bytes;
    buffer_append(&body, (const uint8_t *)from, strlen(from));
    buffer_free(&text);
    return body;
}

/* The labels that the table declares, and those of its sheet. */
static struct buffer labels_of(const struct side *side)
{
    struct printed printed;
    print_open(&printed);
    print_labelling(printed.to, &side->names, side->table.secret);
    print_sheet(printed.to, &side->names, &side->sheet);
    return print_close(&printed);
}

typedef struct buffer writer(const struct side *side);

static void demand_same(writer *words_of, const char *what, const struct side *one, const struct side *other)
{
    struct buffer words = words_of(one), others = words_of(other);
    demand(same_bytes(&words, &others), what, one, other);
    buffer_free(&words);
    buffer_free(&others);
}

/* ---- Runs ---- */

/* The state of the one side, with any words for the variables that only the other has. */
static struct state widen_state(struct random *r, const struct state *state, const struct side *one, const struct side *other)
{
    struct state wide = {.variables = other->table.variables};
    size_t own = 4 * (size_t)one->own;
    buffer_reserve(&wide.words, 4 * (size_t)wide.variables + 1);
    generate_words(r, wide.words.bytes, wide.variables);
    wide.words.length = 4 * (size_t)wide.variables;
    if (own > 0)
        memcpy(wide.words.bytes + 4 * other->shift, state->words.bytes, own);
    buffer_append(&wide.words, state->words.bytes + own, state->words.length - own);
    return wide;
}

static struct buffer end_of(const struct side *side, enum machine machine, const struct buffer *script, const struct run *run)
{
    struct printed printed;
    struct stuck stuck = find_stuck(&side->table, machine, script, run);
    print_open(&printed);
    print_end(printed.to, &side->names, &side->table, run, &stuck, "");
    return print_close(&printed);
}

/* Did the run change nothing but the program's own variables, and these to what the other run left? */
static bool left_alike(const struct side *one, const struct run *run, const struct side *other, const struct run *others,
                       const struct state *start)
{
    struct buffer expected = {0};
    buffer_append(&expected, start->words.bytes, 4 * (size_t)other->table.variables);
    if (one->own > 0)
        memcpy(expected.bytes + 4 * other->shift, run->variables.bytes, 4 * (size_t)one->own);
    bool alike = same_bytes(&expected, &others->variables) && same_bytes(&run->cells, &others->cells);
    buffer_free(&expected);
    return alike;
}

static bool same_run(const struct run *one, const struct run *other)
{
    return one->end == other->end && one->steps == other->steps && one->directives == other->directives &&
           one->flag == other->flag && one->next == other->next && one->open_saves == other->open_saves &&
           same_bytes(&one->observations, &other->observations);
}

static struct state random_state(struct random *r, const struct side *side)
{
    struct state state = {.variables = side->table.variables};
    size_t words = side->table.variables + side->table.cells;
    buffer_reserve(&state.words, 4 * words + 1);
    generate_words(r, state.words.bytes, words);
    state.words.length = 4 * words;
    return state;
}

/* Runs of both sides on one machine, under one script; the other's starts from the wide state. */
static void check_runs(struct random *r, const struct side *one, const struct side *other, struct counts *counts)
{
    enum machine machine = random_percent(r, 50) ? MACHINE_PLAIN : MACHINE_ROLLBACK;
    struct state state = random_state(r, one), wide = widen_state(r, &state, one, other);
    struct buffer script = {0};
    struct run run, others;
    generate_directives(r, ENTRY_ROLLBACK, 8, &script);
    demand(run_table(&one->table, machine, &script, &state, BUDGET, &run).refusal == FLOW_ACCEPTED &&
               run_table(&other->table, machine, &script, &wide, BUDGET, &others).refusal == FLOW_ACCEPTED,
           "a run is refused", one, other);
    struct buffer end = end_of(one, machine, &script, &run), others_end = end_of(other, machine, &script, &others);
    demand(same_run(&run, &others) && same_bytes(&end, &others_end), "these run differently", one, other);
    demand(left_alike(one, &run, other, &others, &wide), "these leave other states", one, other);
    *(machine == MACHINE_PLAIN ? &counts->plain : &counts->guessing) += 1;
    counts->stuck += run.end == FLOW_STUCK;
    buffer_free(&end);
    buffer_free(&others_end);
    run_free(&run);
    run_free(&others);
    state_free(&state);
    state_free(&wide);
    buffer_free(&script);
}

/* ---- Hardened tables ---- */

/* By the change request: none where no variable is left, or where there are too many nodes, which comes first. */
static uint64_t refusal_due(const struct table *table)
{
    return table->nodes > 512 ? FLOW_TOO_MANY_NODES : table->variables == 64 ? FLOW_NO_FREE_VARIABLE : FLOW_ACCEPTED;
}

static unsigned version_due(const struct table *table)
{
    return table->version == 2 || table->variables + 1 == 33 ? 2 : 1;
}

/* False: it is not hardened. */
static bool harden_side(const struct side *side, struct side *hardened)
{
    struct buffer bytes = {0};
    uint64_t refusal = harden_table(&side->bytes, &bytes).refusal;
    demand(refusal == refusal_due(&side->table), "the first is hardened or refused, and should not", side, side);
    if (refusal != FLOW_ACCEPTED) {
        buffer_free(&bytes);
        return false;
    }
    demand(open_side(hardened, bytes, side->own, side->shift, true), "hardened, the first becomes none", side, side);
    demand(hardened->table.version == version_due(&side->table) && hardened->table.variables == side->table.variables + 1,
           "hardened, the first becomes the other, of another version or number of variables", side, hardened);
    return true;
}

static void check_hardened(const struct side *one, const struct side *other, struct counts *counts)
{
    struct side hardened, others;
    bool is_hardened = harden_side(one, &hardened), is_other = harden_side(other, &others);
    if (is_hardened && is_other) {
        demand_same(listing_behind_front, "hardened, these list differently", &hardened, &others);
        demand_same(labels_of, "hardened, these have other labels", &hardened, &others);
    }
    counts->no_free_variable += refusal_due(&other->table) == FLOW_NO_FREE_VARIABLE;
    if (is_other)
        counts->hardened[others.table.version == 2]++;
    if (is_hardened)
        close_side(&hardened);
    if (is_other)
        close_side(&others);
}

/* ---- Programs ---- */

static void check_program(uint64_t seed, unsigned number, struct counts *counts)
{
    struct random r = random_from(seed, number);
    struct plan plan = number % 20 == 0 ? plan_any(&r) : plan_small(&r, 60);
    struct buffer table = {0}, wide = {0};
    struct side one, other;
    generate_table(&r, &plan, &table);
    struct table opened;
    table_open(&opened, &table);
    struct front front = random_front(&r, &opened);
    front.secret = 0;
    widen_table(&opened, front, &wide);
    bool accepted = open_side(&one, table, opened.variables, 0, false);
    accepted = open_side(&other, wide, opened.variables, front.shift, false) && accepted;
    demand(accepted, "one of these is refused", &one, &other);
    demand_same(listing_behind_front, "these list differently", &one, &other);
    demand_same(labels_of, "these have other labels", &one, &other);
    check_runs(&r, &one, &other, counts);
    check_hardened(&one, &other, counts);
    counts->fronts[front.version == 2]++;
    counts->above_32 += opened.variables > 0 && front.shift + opened.variables > 32;
    close_side(&one);
    close_side(&other);
}

static bool print_counts(const struct counts *counts)
{
    printf("versions: %u programs in version 1 and %u in version 2, %u with variables from 32 up; hardened %u to version 1, %u to "
           "version 2, %u not for want of a variable; %u plain runs and %u with guesses, %u of them stuck\n",
           counts->fronts[0], counts->fronts[1], counts->above_32, counts->hardened[0], counts->hardened[1],
           counts->no_free_variable, counts->plain, counts->guessing, counts->stuck);
    return counts->fronts[0] > 0 && counts->fronts[1] > 0 && counts->above_32 > 0 && counts->hardened[0] > 0 &&
           counts->hardened[1] > 0 && counts->no_free_variable > 0 && counts->plain > 0 && counts->guessing > 0 &&
           counts->stuck > 0;
}

int main(int argc, char **argv)
{
    uint64_t seed = argc > 1 ? strtoull(argv[1], NULL, 10) : 1;
    unsigned count = argc > 2 ? (unsigned)strtoul(argv[2], NULL, 10) : PROGRAMS;
    struct counts counts = {0};
    for (unsigned number = 0; number < count; number++)
        check_program(seed, number, &counts);
    return print_counts(&counts) ? 0 : 1;
}
