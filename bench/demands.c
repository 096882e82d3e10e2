#include "demands.h"

#include <stdio.h>
#include <string.h>

#include "declarations.h"
#include "flow.h"
#include "records/little_endian.h"

enum {
    MOST_STEPS = 600,
    SLOWER = 6, /* a hardened program takes fewer than this many steps for one of the original's */
    SCRIPTS = 4
};

/* A program, hardened, and two states of its variables and cells. */
struct scene {
    struct buffer table;
    struct slice hardened;
    unsigned variables;
    struct slice state_variables[2], state_cells[2];
};

/* What a run shows and leaves, and which directives led it. */
struct shown {
    struct slice bytes, variables, cells;
    uint64_t end;
    struct led led;
};

static void free_shown(struct shown *shown)
{
    slice_free(&shown->bytes);
    slice_free(&shown->variables);
    slice_free(&shown->cells);
}

/* ---- The program -------------------------------------------------------------------------------------------------------- */

/* A gadget has the variables i, j, x and k, whose numbers differ; arrays 0 and 1 are public, array 2 is secret. */
struct gadget {
    struct buffer *table;
    unsigned i, j, x, k;
};

static unsigned gadget_variable(const struct gadget *g, unsigned variable)
{
    return assemble_node1(g->table, FLOW_VARIABLE, variable);
}

static unsigned gadget_number(const struct gadget *g, uint32_t value)
{
    return assemble_node1(g->table, FLOW_NUMBER, value);
}

static unsigned gadget_sequence(const struct gadget *g, unsigned first, unsigned second)
{
    return assemble_node2(g->table, FLOW_SEQUENCE, first, second);
}

/* j := j*0, which makes it public, or j := j*1, which does not; the number may stand first. */
static unsigned gadget_product(struct random *r, const struct gadget *g)
{
    unsigned one = gadget_variable(g, g->j);
    unsigned other = gadget_number(g, random_below(r, 2));
    bool swap = random_percent(r, 50);
    unsigned product = assemble_node2(g->table, FLOW_MULTIPLY, swap ? other : one, swap ? one : other);
    return assemble_node2(g->table, FLOW_ASSIGN, g->j, product);
}

/* An access that shows j: x := a1[j], or a1[j] := k */
static unsigned gadget_access(struct random *r, const struct gadget *g)
{
    unsigned index = gadget_variable(g, g->j);
    if (random_percent(r, 50))
        return assemble_node3(g->table, FLOW_READ, g->x, 1, index);
    return assemble_node3(g->table, FLOW_WRITE, 1, index, gadget_variable(g, g->k));
}

/* Before the branch, maybe, j := k, or j := a2[0], and before that a2[1] := 0, which must not make the array public. */
static unsigned gadget_start(struct random *r, const struct gadget *g)
{
    unsigned chance = random_below(r, 100);
    if (chance < 30)
        return assemble_node0(g->table, FLOW_SKIP);
    if (chance < 55)
        return assemble_node2(g->table, FLOW_ASSIGN, g->j, gadget_variable(g, g->k));
    unsigned secret = assemble_node3(g->table, FLOW_READ, g->j, 2, gadget_number(g, 0));
    if (chance < 80)
        return secret;
    unsigned index = gadget_number(g, 1);
    unsigned write = assemble_node3(g->table, FLOW_WRITE, 2, index, gadget_number(g, 0));
    return gadget_sequence(g, write, secret);
}

/* start; if i<bound then (j:=a0[i]; access j) else skip, or its like with a loop, without the read or with a product behind it */
static void put_gadget(struct random *r, const struct gadget *g, unsigned bound)
{
    unsigned start = gadget_start(r, g);
    unsigned i = gadget_variable(g, g->i);
    unsigned condition = assemble_node2(g->table, FLOW_LESS, i, gadget_number(g, bound));
    unsigned body = gadget_access(r, g);
    bool reads = random_percent(r, 60);
    if (random_percent(r, reads ? 20 : 50))
        body = gadget_sequence(g, gadget_product(r, g), body);
    if (reads)
        body = gadget_sequence(g, assemble_node3(g->table, FLOW_READ, g->j, 0, gadget_variable(g, g->i)), body);
    if (random_percent(r, 50))
        body = assemble_node3(g->table, FLOW_IF, condition, body, assemble_node0(g->table, FLOW_SKIP));
    else
        body = assemble_node2(g->table, FLOW_WHILE, condition, body);
    gadget_sequence(g, start, body);
}

/* The programs that leak most easily, with sizes, labels and variables, spread over all that there are, by chance. */
static void generate_gadget(struct random *r, struct buffer *table)
{
    static const uint8_t numbers[] = {4, 4, 4, 32, 32, 33, 63, 63};
    unsigned variables = numbers[random_below(r, sizeof numbers)], apart = variables / 4, first = random_below(r, variables);
    unsigned version = random_percent(r, 30) ? FLOW_VERSION_2 : lowest_version(variables);
    uint16_t counts[] = {(uint16_t)(1 + random_below(r, 4)), (uint16_t)(1 + random_below(r, 6)), 3};
    struct gadget g = {table, first, (first + apart) % variables, (first + 2 * apart) % variables, (first + 3 * apart) % variables};
    assemble_version(table, version, variables, 3, counts, (uint64_t)random_below(r, 2) << g.k, 4);
    put_gadget(r, &g, random_below(r, counts[0] + 1u));
}

static void generate_program(struct random *r, struct buffer *table)
{
    if (random_percent(r, 30)) {
        generate_gadget(r, table);
        return;
    }
    struct plan plan = plan_small(r, random_percent(r, 80) ? 50 : 150);
    if (plan.variables == FLOW_MAX_VARIABLES) /* none would be left for the flag */
        plan_variables(r, &plan, FLOW_VERSION_2, FLOW_MAX_VARIABLES - 1);
    plan.accesses = 60;
    plan.factors = 60;
    generate_table(r, &plan, table);
}

/* ---- The states --------------------------------------------------------------------------------------------------------- */

static void make_states(struct random *r, struct scene *scene)
{
    const uint8_t *table = scene->table.bytes;
    unsigned variables = variables_of(table), arrays = arrays_of(table);
    uint64_t secret_variables = secret_variables_of(table), secret_arrays = secret_arrays_of(table);
    size_t cells = cells_of(table);
    scene->variables = variables;
    slice_new(&scene->state_variables[0], 4 * (size_t)variables);
    slice_new(&scene->state_cells[0], 4 * cells);
    generate_words(r, scene->state_variables[0].bytes, variables);
    generate_words(r, scene->state_cells[0].bytes, cells);
    slice_from(&scene->state_variables[1], scene->state_variables[0].bytes, 4 * (size_t)variables);
    slice_from(&scene->state_cells[1], scene->state_cells[0].bytes, 4 * cells);
    unsigned changed = random_percent(r, 50) ? 100 : 40; /* percent of the secrets that differ */
    for (unsigned x = 0; x < variables; x++)
        if ((secret_variables >> x & 1) != 0 && random_percent(r, changed))
            generate_words(r, scene->state_variables[1].bytes + 4 * x, 1);
    uint8_t *cell = scene->state_cells[1].bytes;
    for (unsigned array = 0; array < arrays; array++) {
        unsigned count = count_of(table, array);
        if ((secret_arrays >> array & 1) != 0 && random_percent(r, changed))
            generate_words(r, cell, count);
        cell += 4 * count;
    }
}

/* ---- Runs --------------------------------------------------------------------------------------------------------------- */

/* A call that runs the table from one of the states.  A variable beyond the state's, the flag of a hardened table, is 0. */
static struct call make_run(const struct scene *scene, const uint8_t *table, size_t length, unsigned state, uint32_t budget)
{
    struct call call = {.entry = ENTRY_RUN, .budget = budget};
    const struct slice *variables = &scene->state_variables[state];
    const struct slice *cells = &scene->state_cells[state];
    slice_from(&call.slices[SLICE_TABLE], table, length);
    slice_new(&call.slices[SLICE_VARIABLES], 4 * (size_t)variables_of(table));
    if (variables_of(table) > 0)
        memset(call.slices[SLICE_VARIABLES].bytes, 0, call.slices[SLICE_VARIABLES].length);
    if (variables->length > 0)
        memcpy(call.slices[SLICE_VARIABLES].bytes, variables->bytes, variables->length);
    slice_from(&call.slices[SLICE_CELLS], cells->bytes, cells->length);
    slice_new(&call.slices[SLICE_PENDING], 4 * (size_t)nodes_of(table));
    slice_new(&call.slices[SLICE_OBSERVATIONS], 10 * (size_t)budget);
    slice_new(&call.slices[SLICE_ANSWER], FLOW_ANSWER_BYTES);
    return call;
}

/* The same on a machine that guesses; its list is still to be lent. */
static struct call make_guess(const struct scene *scene, const uint8_t *table, size_t length, unsigned state, enum entry machine,
                              uint32_t budget)
{
    struct call call = make_run(scene, table, length, state, budget);
    call.entry = machine;
    if (machine == ENTRY_ROLLBACK)
        slice_new(&call.slices[SLICE_SAVES], flow_saves_bytes(variables_of(table), cells_of(table), nodes_of(table)));
    return call;
}

/* Performs the run and frees it. */
static struct shown show(struct call call)
{
    struct shown shown = {0};
    if (call_library(&call) == FLOW_ACCEPTED) {
        const struct slice *variables = &call.slices[SLICE_VARIABLES], *cells = &call.slices[SLICE_CELLS];
        shown.end = call_answer(&call, 1);
        slice_from(&shown.bytes, call.slices[SLICE_OBSERVATIONS].bytes, call_answer(&call, 4));
        slice_from(&shown.variables, variables->bytes, variables->length);
        slice_from(&shown.cells, cells->bytes, cells->length);
        call_led(&call, &shown.led);
    }
    call_free(&call);
    return shown;
}

/* What the table shows without guessing. */
static struct shown show_plain(const struct scene *scene, const uint8_t *table, size_t length, unsigned state, uint32_t budget)
{
    return show(make_run(scene, table, length, state, budget));
}

/* What it shows to a script, in as much room as it takes or, where `room` is not 0, in so many bytes. */
static struct shown show_guess(const struct scene *scene, const uint8_t *table, size_t length, unsigned state, enum entry machine,
                               const struct buffer *list, uint32_t budget, size_t room)
{
    struct call call = make_guess(scene, table, length, state, machine, budget);
    slice_from(&call.slices[SLICE_DIRECTIVES], list->bytes, list->length);
    if (room > 0) {
        slice_free(&call.slices[SLICE_OBSERVATIONS]);
        slice_new(&call.slices[SLICE_OBSERVATIONS], room);
    }
    return show(call);
}

/* Does one of the two begin the other?  Both are whole records, so bytes decide it. */
static bool one_begins(const struct slice *one, const struct slice *other)
{
    size_t shorter = one->length < other->length ? one->length : other->length;
    return shorter == 0 || memcmp(one->bytes, other->bytes, shorter) == 0;
}

/* A shorter budget shows the beginning of what a longer one shows, so the longest decides all. */
static bool plain_runs_related(const struct scene *scene)
{
    struct shown one = show_plain(scene, scene->table.bytes, scene->table.length, 0, MOST_STEPS);
    struct shown other = show_plain(scene, scene->table.bytes, scene->table.length, 1, MOST_STEPS);
    bool related = one_begins(&one.bytes, &other.bytes);
    free_shown(&one);
    free_shown(&other);
    return related;
}

/* ---- Demand 2 ----------------------------------------------------------------------------------------------------------- */

static void print_named(const char *name, const uint8_t *bytes, size_t length)
{
    printf("  %-14s", name);
    print_hex(stdout, bytes, length);
    printf("\n");
}

/* The hardened program's variables are the original's and a flag that is 0. */
static bool same_variables(const struct shown *original, const struct shown *hardened)
{
    size_t length = original->variables.length;
    return hardened->variables.length == length + 4 && get32(hardened->variables.bytes + length) == 0 &&
           (length == 0 || memcmp(original->variables.bytes, hardened->variables.bytes, length) == 0);
}

/* Finishes or sticks as the original does, having shown the same; a run of the original that was cut is at least begun. */
static bool runs_as(const struct shown *original, const struct shown *hardened)
{
    if (original->end == FLOW_SPENT)
        return original->bytes.length <= hardened->bytes.length && one_begins(&original->bytes, &hardened->bytes);
    return original->end == hardened->end && slice_equal(&original->bytes, &hardened->bytes) &&
           same_variables(original, hardened) && slice_equal(&original->cells, &hardened->cells);
}

static bool play_same_run(const struct scene *scene, unsigned state, struct plays *plays)
{
    struct shown original = show_plain(scene, scene->table.bytes, scene->table.length, state, MOST_STEPS);
    struct shown hardened = show_plain(scene, scene->hardened.bytes, scene->hardened.length, state, SLOWER * MOST_STEPS);
    bool same = runs_as(&original, &hardened);
    plays->same_runs++;
    if (!same) {
        printf("the hardened program does not run as the original without guessing (demand 2)\n");
        print_named("table", scene->table.bytes, scene->table.length);
        print_named("hardened", scene->hardened.bytes, scene->hardened.length);
        print_named("variables", scene->state_variables[state].bytes, scene->state_variables[state].length);
        print_named("cells", scene->state_cells[state].bytes, scene->state_cells[state].length);
        print_named("original shows", original.bytes.bytes, original.bytes.length);
        print_named("hardened shows", hardened.bytes.bytes, hardened.bytes.length);
    }
    free_shown(&original);
    free_shown(&hardened);
    return same;
}

/* ---- Demand 3 ----------------------------------------------------------------------------------------------------------- */

/* Most scripts are written for one of the states; each is played to both. */
static void write_script(struct random *r, const struct scene *scene, const uint8_t *table, size_t length, enum entry machine,
                         struct buffer *list)
{
    if (random_percent(r, 85)) {
        struct call call = make_guess(scene, table, length, random_below(r, 2), machine, MOST_STEPS);
        unsigned most = 1 + random_below(r, 25), forces = 10 + random_below(r, 70), redirects = random_below(r, 60);
        unsigned rollbacks = 5 + random_below(r, 50);
        generate_script(r, &call, &(struct manner){most, forces, redirects, rollbacks}, list);
        call_free(&call);
    }
    if (random_percent(r, 30))
        generate_directives(r, machine, 10, list);
}

static void print_scene(const struct scene *scene, enum entry machine, const struct buffer *list, const uint32_t *budgets,
                        const struct shown *shown)
{
    static const char *const names[2][3] = {{"variables 1", "cells 1", "shows 1"}, {"variables 2", "cells 2", "shows 2"}};
    printf("the hardened program tells two states apart on %s (demand 3), budgets %u and %u\n", entry_names[machine], budgets[0],
           budgets[1]);
    print_named("table", scene->table.bytes, scene->table.length);
    print_named("hardened", scene->hardened.bytes, scene->hardened.length);
    print_named("directives", list->bytes, list->length);
    for (unsigned state = 0; state < 2; state++) {
        print_named(names[state][0], scene->state_variables[state].bytes, scene->state_variables[state].length);
        print_named(names[state][1], scene->state_cells[state].bytes, scene->state_cells[state].length);
        print_named(names[state][2], shown[state].bytes.bytes, shown[state].bytes.length);
    }
}

static bool play_script(struct random *r, const struct scene *scene, enum entry machine, struct attack *attack)
{
    struct buffer list = {0};
    struct shown shown[2];
    uint32_t budgets[2] = {MOST_STEPS, MOST_STEPS};
    size_t rooms[2] = {0, 0};
    if (random_percent(r, 25)) {
        budgets[0] = random_below(r, MOST_STEPS);
        budgets[1] = random_below(r, MOST_STEPS);
    }
    if (random_percent(r, 15))
        rooms[random_below(r, 2)] = 1 + random_below(r, 100);
    write_script(r, scene, scene->hardened.bytes, scene->hardened.length, machine, &list);
    for (unsigned state = 0; state < 2; state++)
        shown[state] = show_guess(scene, scene->hardened.bytes, scene->hardened.length, state, machine, &list, budgets[state],
                                  rooms[state]);
    bool same = one_begins(&shown[0].bytes, &shown[1].bytes);
    attack->scripts++;
    if (!same)
        print_scene(scene, machine, &list, budgets, shown);
    for (unsigned state = 0; state < 2; state++) {
        add_led(&shown[state].led, &attack->led);
        free_shown(&shown[state]);
    }
    buffer_free(&list);
    return same;
}

/* Does a script written for the program before hardening tell the states apart there? */
static bool leaks_before_hardening(struct random *r, const struct scene *scene, enum entry machine)
{
    struct buffer list = {0};
    const struct buffer *table = &scene->table;
    write_script(r, scene, table->bytes, table->length, machine, &list);
    struct shown one = show_guess(scene, table->bytes, table->length, 0, machine, &list, MOST_STEPS, 0);
    struct shown other = show_guess(scene, table->bytes, table->length, 1, machine, &list, MOST_STEPS, 0);
    bool leaks = !one_begins(&one.bytes, &other.bytes);
    free_shown(&one);
    free_shown(&other);
    buffer_free(&list);
    return leaks;
}

/* ---- A play ------------------------------------------------------------------------------------------------------------- */

static bool harden_table(struct scene *scene)
{
    struct call call = {.entry = ENTRY_HARDEN};
    slice_from(&call.slices[SLICE_TABLE], scene->table.bytes, scene->table.length);
    slice_new(&call.slices[SLICE_OUTPUT], FLOW_TABLE_BYTES);
    slice_new(&call.slices[SLICE_ANSWER], FLOW_ANSWER_BYTES);
    bool accepted = call_library(&call) == FLOW_ACCEPTED;
    if (accepted)
        slice_from(&scene->hardened, call.slices[SLICE_OUTPUT].bytes, call_answer(&call, 1));
    call_free(&call);
    return accepted;
}

static void free_scene(struct scene *scene)
{
    buffer_free(&scene->table);
    slice_free(&scene->hardened);
    for (unsigned state = 0; state < 2; state++) {
        slice_free(&scene->state_variables[state]);
        slice_free(&scene->state_cells[state]);
    }
}

static bool play_scripts(struct random *r, const struct scene *scene, enum entry machine, struct attack *attack)
{
    bool same = true;
    for (unsigned script = 0; same && script < SCRIPTS; script++) {
        same = play_script(r, scene, machine, attack);
        bool leaks = leaks_before_hardening(r, scene, machine);
        attack->leaks_before += leaks;
        attack->leaks_high += leaks && scene->variables >= 32;
    }
    return same;
}

bool play_demands(struct random *r, struct plays *plays)
{
    struct scene scene = {0};
    bool same = true;
    generate_program(r, &scene.table);
    make_states(r, &scene);
    plays->pairs++;
    if (!harden_table(&scene)) {
        printf("a valid table does not harden\n");
        print_named("table", scene.table.bytes, scene.table.length);
        same = false;
    } else {
        same = play_same_run(&scene, 0, plays) && play_same_run(&scene, 1, plays);
        if (same && plain_runs_related(&scene)) {
            plays->related++;
            count_factored(scene.table.bytes, scene.table.length, &plays->factored);
            count_version(scene.table.bytes, &plays->versions);
            same = play_scripts(r, &scene, ENTRY_GUESS, &plays->guessing) && play_scripts(r, &scene, ENTRY_ROLLBACK, &plays->rolling);
        }
    }
    free_scene(&scene);
    return same;
}
