#include "library/values.h"

#include "library/runs.h"
#include "records/assemble.h"
#include "records/kinds.h"
#include "records/little_endian.h"
#include "records/parents.h"

/* Puts an expression of a table into another one, and returns the number that it has there. */
static unsigned copy_expression(const struct table *table, unsigned node, struct buffer *copy)
{
    unsigned kind = table_kind(table, node);
    const char *letters = fields_of(kind);
    uint32_t fields[MOST_FIELDS];
    for (unsigned i = 0; letters[i]; i++) {
        fields[i] = table_field(table, node, i);
        if (is_child(letters[i]))
            fields[i] = copy_expression(table, fields[i], copy);
    }
    return assemble_node(copy, kind, fields);
}

/* No entry gives the value of an expression; but one step of a table of the one command v0 := E leaves it in v0. */
bool value_of(const struct table *table, unsigned numeric, const struct buffer *variables, uint32_t *value)
{
    struct buffer bytes = {0};
    struct table assignment;
    struct run run;
    const struct state state = {*variables, table->variables};
    assemble_table(&bytes, table->variables > 0 ? table->variables : 1, 0, NULL, 0, 0);
    assemble_node2(&bytes, FLOW_ASSIGN, 0, copy_expression(table, numeric, &bytes));
    table_open(&assignment, &bytes);
    struct answer answer = run_table(&assignment, MACHINE_PLAIN, NULL, &state, 1, &run);
    bool given = answer.refusal == FLOW_ACCEPTED && run.end == FLOW_FINISHED;
    if (given)
        *value = get32(run.variables.bytes);
    run_free(&run);
    buffer_free(&bytes);
    return given;
}
