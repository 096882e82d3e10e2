#include "library/stuck.h"

#include "library/values.h"
#include "records/directives.h"
#include "records/kinds.h"
#include "records/little_endian.h"

static bool is_branch(unsigned kind)
{
    return kind == FLOW_IF || kind == FLOW_WHILE;
}

static bool is_access(unsigned kind)
{
    return kind == FLOW_READ || kind == FLOW_WRITE;
}

/* Is a directive for such a step? */
static bool is_for(unsigned directive, unsigned kind)
{
    switch (directive) {
    case FLOW_STEP: return true;
    case FLOW_FORCE: return is_branch(kind);
    case FLOW_LOAD: return kind == FLOW_READ;
    case FLOW_STORE: return kind == FLOW_WRITE;
    default: return false;
    }
}

/* Takes array and index of a read or write.  False: they are in bounds, or not known. */
static bool is_out_of_bounds(const struct table *table, const struct run *run, struct stuck *stuck)
{
    bool read = table_kind(table, stuck->node) == FLOW_READ;
    stuck->array = table_field(table, stuck->node, read ? 1 : 0);
    unsigned index = table_field(table, stuck->node, read ? 2 : 1);
    return value_of(table, index, &run->variables, &stuck->index) && stuck->index >= table->counts[stuck->array];
}

/* A load or store, out of bounds. */
static enum stuck_why why_not_redirected(const struct table *table, const struct run *run, const uint8_t *directive)
{
    uint32_t array = get16(directive + RECORD_HEAD), index = get32(directive + RECORD_HEAD + 2);
    if (run->flag == 0)
        return STUCK_FLAG_CLEAR;
    if (array >= table->arrays)
        return STUCK_NO_ARRAY;
    return index >= table->counts[array] ? STUCK_NO_CELL : STUCK_UNKNOWN;
}

/* At a step that the directive is for. */
static enum stuck_why why_at(const struct table *table, const struct run *run, unsigned directive, struct stuck *stuck)
{
    if (directive == FLOW_FORCE)
        return run->open_saves == FLOW_MAX_SAVES ? STUCK_ALL_SAVES : STUCK_UNKNOWN;
    if (!is_access(table_kind(table, stuck->node)) || !is_out_of_bounds(table, run, stuck))
        return STUCK_UNKNOWN;
    return directive == FLOW_STEP ? STUCK_OUT_OF_BOUNDS : why_not_redirected(table, run, stuck->directive);
}

/* A machine that does not guess takes every step as by the directive `step`. */
struct stuck find_stuck(const struct table *table, enum machine machine, const struct buffer *script, const struct run *run)
{
    struct stuck stuck = {.why = STUCK_UNKNOWN, .node = (unsigned)run->next, .number = run->directives + 1};
    if (run->end != FLOW_STUCK)
        return (struct stuck){.why = STUCK_NOT};
    if (machine != MACHINE_PLAIN)
        stuck.directive = directive_numbered(script, stuck.number);
    unsigned directive = stuck.directive != NULL ? get16(stuck.directive + 2) : FLOW_STEP;
    unsigned kind = table_kind(table, stuck.node);
    if (directive == FLOW_ROLLBACK)
        stuck.why = run->open_saves == 0 ? STUCK_NO_SAVE : STUCK_UNKNOWN;
    else if (is_branch(kind) || is_access(kind))
        stuck.why = is_for(directive, kind) ? why_at(table, run, directive, &stuck) : STUCK_WRONG_STEP;
    return stuck;
}

bool is_unfit(const struct stuck *stuck)
{
    return stuck->why != STUCK_NOT && stuck->why != STUCK_OUT_OF_BOUNDS;
}
