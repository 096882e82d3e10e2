#include "call.h"

#include <inttypes.h>
#include <stdlib.h>
#include <string.h>

#include "declarations.h"
#include "flow.h"
#include "records/little_endian.h"
#include "reference.h"

const char *const entry_names[ENTRIES] = {"flow_sheet", "flow_questions", "flow_harden", "flow_run", "flow_guess", "flow_rollback"};
const char *const slice_names[SLICES] = {"table", "questions", "directives", "variables", "cells",
                                         "pending", "saves", "observations", "output", "answer"};

void slice_new(struct slice *s, size_t length)
{
    s->length = length;
    s->bytes = malloc(length); /* of an empty slice: NULL, or a block in which no access is right */
    if (s->bytes == NULL && length != 0) {
        perror("malloc");
        exit(2);
    }
}

void slice_from(struct slice *s, const uint8_t *bytes, size_t length)
{
    slice_new(s, length);
    if (length != 0)
        memcpy(s->bytes, bytes, length);
}

void slice_free(struct slice *s)
{
    free(s->bytes);
    *s = (struct slice){0};
}

bool slice_equal(const struct slice *one, const struct slice *other)
{
    return one->length == other->length && (one->length == 0 || memcmp(one->bytes, other->bytes, one->length) == 0);
}

struct call call_copy(const struct call *call)
{
    struct call copy = *call;
    for (unsigned i = 0; i < SLICES; i++)
        if (call->slices[i].bytes != NULL)
            slice_from(&copy.slices[i], call->slices[i].bytes, call->slices[i].length);
    return copy;
}

void call_free(struct call *call)
{
    for (unsigned i = 0; i < SLICES; i++)
        slice_free(&call->slices[i]);
}

/* The arguments of a slice. */
#define LENT(name) call->slices[SLICE_##name].bytes, call->slices[SLICE_##name].length

uint64_t call_library(struct call *call)
{
    switch (call->entry) {
    case ENTRY_SHEET:
        return flow_sheet(LENT(TABLE), LENT(OUTPUT), LENT(ANSWER));
    case ENTRY_QUESTIONS:
        return flow_questions(LENT(TABLE), LENT(QUESTIONS), LENT(OUTPUT), LENT(ANSWER));
    case ENTRY_HARDEN:
        return flow_harden(LENT(TABLE), LENT(OUTPUT), LENT(ANSWER));
    case ENTRY_RUN:
        return flow_run(LENT(TABLE), LENT(VARIABLES), LENT(CELLS), LENT(PENDING), LENT(OBSERVATIONS), call->budget,
                        LENT(ANSWER));
    case ENTRY_GUESS:
        return flow_guess(LENT(TABLE), LENT(DIRECTIVES), LENT(VARIABLES), LENT(CELLS), LENT(PENDING), LENT(OBSERVATIONS),
                          call->budget, LENT(ANSWER));
    default:
        return flow_rollback(LENT(TABLE), LENT(DIRECTIVES), LENT(VARIABLES), LENT(CELLS), LENT(PENDING), LENT(SAVES),
                             LENT(OBSERVATIONS), call->budget, LENT(ANSWER));
    }
}

uint64_t call_reference(struct call *call)
{
    switch (call->entry) {
    case ENTRY_SHEET:
        return reference_sheet(LENT(TABLE), LENT(OUTPUT), LENT(ANSWER));
    case ENTRY_QUESTIONS:
        return reference_questions(LENT(TABLE), LENT(QUESTIONS), LENT(OUTPUT), LENT(ANSWER));
    case ENTRY_HARDEN:
        return reference_harden(LENT(TABLE), LENT(OUTPUT), LENT(ANSWER));
    case ENTRY_RUN:
        return reference_run(LENT(TABLE), LENT(VARIABLES), LENT(CELLS), LENT(PENDING), LENT(OBSERVATIONS), call->budget,
                             LENT(ANSWER));
    case ENTRY_GUESS:
        return reference_guess(LENT(TABLE), LENT(DIRECTIVES), LENT(VARIABLES), LENT(CELLS), LENT(PENDING),
                               LENT(OBSERVATIONS), call->budget, LENT(ANSWER));
    default:
        return reference_rollback(LENT(TABLE), LENT(DIRECTIVES), LENT(VARIABLES), LENT(CELLS), LENT(PENDING), LENT(SAVES),
                                  LENT(OBSERVATIONS), call->budget, LENT(ANSWER));
    }
}

struct made make_call(const struct call *call, const char *by, performer *perform)
{
    struct made made = {.by = by, .after = call_copy(call)};
    made.result = perform(&made.after);
    return made;
}

bool made_alike(const struct made *one, const struct made *other)
{
    bool alike = one->result == other->result;
    for (unsigned i = 0; i < SLICES; i++)
        alike = alike && slice_equal(&one->after.slices[i], &other->after.slices[i]);
    return alike;
}

uint64_t call_answer(const struct call *call, unsigned number)
{
    const struct slice *answer = &call->slices[SLICE_ANSWER];
    return answer->length >= 8 * (number + 1) ? get64(answer->bytes + 8 * number) : 0;
}

/* Does this observation of a read or write show an index below the array's cell count? */
static bool shows_in_bounds(const struct call *call, const uint8_t *shown)
{
    return get32(shown + 6) < count_of(call->slices[SLICE_TABLE].bytes, get16(shown + 4));
}

/* A directive that was used, and what it showed; answers how many saves are open after it, which is 0 where the flag is clear. */
static unsigned count_used(const struct call *call, const uint8_t *directive, const uint8_t *shown, unsigned open, struct led *led)
{
    switch (get16(directive + 2)) {
    case FLOW_STEP:
        break;
    case FLOW_FORCE:
        led->forces++;
        open++;
        break;
    case FLOW_ROLLBACK:
        led->rollbacks++;
        open--;
        break;
    default:
        if (shows_in_bounds(call, shown))
            led->in_bounds[open > 0]++;
        else
            led->out_of_bounds++;
    }
    return open;
}

/* The directive that would have been the next one, with so many saves open. */
static void count_next(const struct call *call, const uint8_t *directive, unsigned open, struct led *led)
{
    const struct slice *list = &call->slices[SLICE_DIRECTIVES];
    uint64_t end = call_answer(call, 1);
    if (list->length == 0 || directive == list->bytes + list->length)
        return;
    unsigned kind = get16(directive + 2);
    if (kind == FLOW_ROLLBACK)
        led->at_rollback[end]++;
    if (call->entry == ENTRY_ROLLBACK && kind == FLOW_FORCE && end == FLOW_STUCK && open == FLOW_MAX_SAVES)
        led->beyond++;
}

void call_led(const struct call *call, struct led *led)
{
    const uint8_t *directive = call->slices[SLICE_DIRECTIVES].bytes;
    const uint8_t *shown = call->slices[SLICE_OBSERVATIONS].bytes; /* one for each directive used */
    unsigned open = 0;
    if (call->slices[SLICE_ANSWER].length < FLOW_ANSWER_BYTES)
        return;
    for (uint64_t left = call_answer(call, 3); left > 0; left--) {
        open = count_used(call, directive, shown, open, led);
        if (open > led->deepest)
            led->deepest = open;
        directive += get16(directive);
        shown += get16(shown);
    }
    count_next(call, directive, open, led);
}

void add_led(const struct led *led, struct led *sum)
{
    sum->forces += led->forces;
    sum->out_of_bounds += led->out_of_bounds;
    sum->in_bounds[false] += led->in_bounds[false];
    sum->in_bounds[true] += led->in_bounds[true];
    sum->rollbacks += led->rollbacks;
    if (led->deepest > sum->deepest)
        sum->deepest = led->deepest;
    for (unsigned end = 0; end < 6; end++)
        sum->at_rollback[end] += led->at_rollback[end];
    sum->beyond += led->beyond;
}

void print_hex(FILE *to, const uint8_t *bytes, size_t length)
{
    if (length == 0)
        fputc('-', to); /* so that an empty slice is a word too */
    for (size_t i = 0; i < length; i++)
        fprintf(to, "%02x", bytes[i]);
}

void print_call(const struct call *call)
{
    printf("  %s, budget %" PRIu32 "\n", entry_names[call->entry], call->budget);
    for (unsigned i = 0; i < SLICES; i++) {
        printf("    %-13s %6zu bytes%s ", slice_names[i], call->slices[i].length, call->slices[i].bytes == NULL ? ", NULL" : "");
        print_hex(stdout, call->slices[i].bytes, call->slices[i].length);
        printf("\n");
    }
}

void print_difference(const struct call *before, const struct made *one, const struct made *other)
{
    printf("result: %s %" PRIu64 ", %s %" PRIu64 "\n", one->by, one->result, other->by, other->result);
    for (unsigned i = 0; i < SLICES; i++)
        if (!slice_equal(&one->after.slices[i], &other->after.slices[i]))
            printf("slice %s differs\n", slice_names[i]);
    printf("at entry:\n");
    print_call(before);
    printf("after the %s:\n", one->by);
    print_call(&one->after);
    printf("after the %s:\n", other->by);
    print_call(&other->after);
}
