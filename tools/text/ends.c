#include "text/ends.h"

#include <inttypes.h>

#include "flow_words.h"
#include "records/kinds.h"
#include "records/little_endian.h"
#include "text/words.h"

/* A step that is shown, by its node's kind; NULL: this one is silent. */
static const char *step_in_words(unsigned kind)
{
    switch (kind) {
    case FLOW_READ: return "read";
    case FLOW_WRITE: return "write";
    case FLOW_IF:
    case FLOW_WHILE: return "branch";
    default: return NULL;
    }
}

/* The step that force, load or store is for. */
static const char *fitting_step(unsigned directive)
{
    return directive == FLOW_LOAD ? "read" : directive == FLOW_STORE ? "write" : "branch";
}

static void print_index(FILE *to, const struct names *names, const struct table *table, const struct stuck *stuck)
{
    uint32_t count = table->counts[stuck->array];
    fprintf(to, ": index %" PRIu32 " of %s, which has %" PRIu32 " cell%s", stuck->index, names->array[stuck->array], count,
            plural(count));
}

static void print_out_of_bounds(FILE *to, const struct names *names, const struct table *table, const struct stuck *stuck,
                                const char *whose)
{
    fprintf(to, "the %s at node %u%s is out of bounds", step_in_words(table_kind(table, stuck->node)), stuck->node, whose);
    print_index(to, names, table, stuck);
}

/* Only a rollback is next before a step that is not shown, or before none. */
static void print_next_step(FILE *to, const struct table *table, bool pending, unsigned node, const char *whose)
{
    const char *step = step_in_words(table_kind(table, node));
    if (!pending)
        fprintf(to, "nothing is pending");
    else if (step == NULL)
        fprintf(to, "the next step is silent (node %u%s)", node, whose);
    else
        fprintf(to, "the next step is a %s (node %u%s)", step, node, whose);
}

static void print_wrong_step(FILE *to, const struct stuck *stuck)
{
    unsigned directive = get16(stuck->directive + 2);
    fprintf(to, "%s fits a %s alone", directive_in_words(directive), fitting_step(directive));
}

static void print_flag_clear(FILE *to, const struct names *names, const struct table *table, const struct stuck *stuck)
{
    fprintf(to, "it is out of bounds with the flag clear, since no wrong guess is open");
    print_index(to, names, table, stuck);
}

/* The cell that a load or store names. */
static void print_no_cell(FILE *to, const struct names *names, const struct table *table, const struct stuck *stuck)
{
    const uint8_t *fields = stuck->directive + RECORD_HEAD;
    uint32_t array = get16(fields), count = table->counts[array];
    fprintf(to, "%s has no cell %" PRIu32 ": it has %" PRIu32 " cell%s", names->array[array], get32(fields + 2), count,
            plural(count));
}

static void print_no_array(FILE *to, const struct names *names, const struct stuck *stuck)
{
    fprintf(to, "the table has no array %" PRIu32 ": it has %s", get16(stuck->directive + RECORD_HEAD),
            arrays_in_words(names).words);
}

/* What stands behind the next step: why the directive does not fit there. */
static void print_why(FILE *to, const struct names *names, const struct table *table, const struct stuck *stuck)
{
    switch (stuck->why) {
    case STUCK_WRONG_STEP: print_wrong_step(to, stuck); break;
    case STUCK_FLAG_CLEAR: print_flag_clear(to, names, table, stuck); break;
    case STUCK_NO_ARRAY: print_no_array(to, names, stuck); break;
    case STUCK_NO_CELL: print_no_cell(to, names, table, stuck); break;
    case STUCK_ALL_SAVES: fprintf(to, "%d saves are open, the most that can be", FLOW_MAX_SAVES); break;
    default: fprintf(to, "no save is open"); break;
    }
}

static void print_unfit(FILE *to, const struct names *names, const struct table *table, bool pending, const struct stuck *stuck,
                        const char *whose)
{
    fprintf(to, "directive %" PRIu64 ", ", stuck->number);
    print_directive(to, names, stuck->directive);
    fprintf(to, ", does not fit: ");
    print_next_step(to, table, pending, stuck->node, whose);
    fprintf(to, ", and ");
    print_why(to, names, table, stuck);
}

void print_end(FILE *to, const struct names *names, const struct table *table, const struct run *run,
               const struct stuck *stuck, const char *whose)
{
    if (stuck->why == STUCK_NOT || stuck->why == STUCK_UNKNOWN)
        fprintf(to, "%s", flow_end_words(run->end));
    else
        fprintf(to, "stuck: ");
    if (stuck->why == STUCK_UNKNOWN)
        fprintf(to, "; no reason is found: please report this table");
    else if (stuck->why == STUCK_OUT_OF_BOUNDS)
        print_out_of_bounds(to, names, table, stuck, whose);
    else if (stuck->why != STUCK_NOT)
        print_unfit(to, names, table, run->pending, stuck, whose);
}
