#include "library/runs.h"

#include <string.h>

#include "records/directives.h"

enum {
    LONGEST_OBSERVATION = 10,
    MOST_OBSERVED = 64 << 20
};

/* Memory that a call is lent beside what the run keeps. */
struct lent {
    struct buffer pending, room; /* room for observations */
};

static size_t observation_room(uint32_t budget)
{
    return budget < MOST_OBSERVED / LONGEST_OBSERVATION ? (size_t)budget * LONGEST_OBSERVATION : MOST_OBSERVED;
}

static void append_zeros(struct buffer *buffer, size_t length)
{
    buffer_reserve(buffer, length);
    if (length > 0)
        memset(buffer->bytes + buffer->length, 0, length);
    buffer->length += length;
}

static void start_run(const struct table *table, const struct state *state, struct run *run)
{
    size_t own = 4 * (size_t)state->variables;
    *run = (struct run){0};
    buffer_append(&run->variables, state->words.bytes, own);
    append_zeros(&run->variables, 4 * (size_t)table->variables - own);
    buffer_append(&run->cells, own < state->words.length ? state->words.bytes + own : NULL, state->words.length - own);
}

/* The one place that knows which entry a machine is. */
static uint64_t call_machine(enum machine machine, const struct table *table, const struct buffer *script, uint32_t budget,
                             struct run *run, struct lent *lent, uint8_t numbers[FLOW_ANSWER_BYTES])
{
    struct buffer *variables = &run->variables, *cells = &run->cells, *pending = &lent->pending, *room = &lent->room;
    switch (machine) {
    case MACHINE_PLAIN:
        return flow_run(table->bytes, table->length, variables->bytes, variables->length, cells->bytes, cells->length,
                        pending->bytes, pending->length, room->bytes, room->length, budget, numbers, FLOW_ANSWER_BYTES);
    case MACHINE_GUESSING:
        return flow_guess(table->bytes, table->length, script->bytes, script->length, variables->bytes, variables->length,
                          cells->bytes, cells->length, pending->bytes, pending->length, room->bytes, room->length, budget,
                          numbers, FLOW_ANSWER_BYTES);
    case MACHINE_ROLLBACK:
        return flow_rollback(table->bytes, table->length, script->bytes, script->length, variables->bytes, variables->length,
                             cells->bytes, cells->length, pending->bytes, pending->length, run->saves.bytes, run->saves.length,
                             room->bytes, room->length, budget, numbers, FLOW_ANSWER_BYTES);
    }
    return FLOW_NO_NUMBER; /* there is no other machine */
}

/* How many saves the directives used have left open: the number is not stored with them. */
static unsigned count_open_saves(const struct buffer *script, uint64_t used)
{
    return (unsigned)(count_directives(script, FLOW_FORCE, used) - count_directives(script, FLOW_ROLLBACK, used));
}

static void take_answer(struct run *run, const struct buffer *room, const uint8_t numbers[FLOW_ANSWER_BYTES])
{
    run->end = flow_answer_number(numbers, FLOW_ANSWER_BYTES, 1);
    run->steps = flow_answer_number(numbers, FLOW_ANSWER_BYTES, 2);
    run->directives = flow_answer_number(numbers, FLOW_ANSWER_BYTES, 3);
    buffer_append(&run->observations, room->bytes, (size_t)flow_answer_number(numbers, FLOW_ANSWER_BYTES, 4));
    run->flag = flow_answer_number(numbers, FLOW_ANSWER_BYTES, 5);
    run->next = flow_answer_number(numbers, FLOW_ANSWER_BYTES, 6);
}

/* All that run_table gives but `pending`. */
static struct answer run_once(const struct table *table, enum machine machine, const struct buffer *script,
                              const struct state *state, uint32_t budget, struct run *run)
{
    struct lent lent = {0};
    uint8_t numbers[FLOW_ANSWER_BYTES];
    start_run(table, state, run);
    append_zeros(&lent.pending, 4 * (size_t)table->nodes);
    buffer_reserve(&lent.room, observation_room(budget));
    lent.room.length = observation_room(budget);
    if (machine == MACHINE_ROLLBACK)
        append_zeros(&run->saves, flow_saves_bytes(table->variables, table->cells, table->nodes));
    uint64_t refusal = call_machine(machine, table, script, budget, run, &lent, numbers);
    if (refusal == FLOW_ACCEPTED) {
        take_answer(run, &lent.room, numbers);
        run->open_saves = machine == MACHINE_ROLLBACK ? count_open_saves(script, run->directives) : 0;
    }
    buffer_free(&lent.pending);
    buffer_free(&lent.room);
    return (struct answer){refusal, flow_answer_number(numbers, sizeof numbers, 1)};
}

/* Without the directives that were not used, a run of just its steps is finished exactly where nothing is pending. */
static bool is_pending_after(const struct table *table, enum machine machine, const struct buffer *script,
                             const struct state *state, const struct run *run)
{
    struct buffer used = *script;
    struct run again;
    const uint8_t *next = directive_numbered(script, run->directives + 1);
    if (next != NULL)
        used.length = (size_t)(next - script->bytes);
    struct answer answer = run_once(table, machine, &used, state, (uint32_t)run->steps, &again);
    bool pending = answer.refusal != FLOW_ACCEPTED || again.end != FLOW_FINISHED;
    run_free(&again);
    return pending;
}

/* Only with a rollback next is a run not finished though nothing is pending; and then the next node is given as 0. */
struct answer run_table(const struct table *table, enum machine machine, const struct buffer *script, const struct state *state,
                        uint32_t budget, struct run *run)
{
    struct answer answer = run_once(table, machine, script, state, budget, run);
    run->pending = run->end != FLOW_FINISHED;
    if (answer.refusal == FLOW_ACCEPTED && run->pending && run->next == 0 && machine == MACHINE_ROLLBACK)
        run->pending = is_pending_after(table, machine, script, state, run);
    return answer;
}

void run_free(struct run *run)
{
    buffer_free(&run->variables);
    buffer_free(&run->cells);
    buffer_free(&run->observations);
    buffer_free(&run->saves);
}

bool run_was_cut(const struct run *run)
{
    return run->end == FLOW_SPENT || run->end == FLOW_FULL || (run->end == FLOW_OUT_OF_DIRECTIVES && run->directives == 0);
}
