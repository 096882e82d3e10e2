#include "copies.h"

static unsigned put_expression(struct random *r, const struct plan *plan, char sort, unsigned size, struct buffer *t)
{
    struct plan part = *plan;
    part.nodes = size;
    return generate_part(r, &part, sort, t);
}

/* A loop or an if around what there is, or a loop behind it: so many nodes more, most of them in the condition. */
static unsigned put_branch(struct random *r, const struct plan *plan, unsigned size, unsigned inner, struct buffer *t)
{
    unsigned form = random_below(r, 3);
    unsigned condition = put_expression(r, plan, 'T', size - 1 - form, t);
    if (form == 0)
        return assemble_node2(t, FLOW_WHILE, condition, inner);
    unsigned skip = assemble_node0(t, FLOW_SKIP);
    if (form == 1)
        return assemble_node3(t, FLOW_IF, condition, inner, skip);
    return assemble_node2(t, FLOW_SEQUENCE, inner, assemble_node2(t, FLOW_WHILE, condition, skip));
}

/* An assignment behind what there is: so many nodes more, most of them in the value. */
static unsigned put_value(struct random *r, const struct plan *plan, unsigned size, unsigned inner, struct buffer *t)
{
    unsigned value = put_expression(r, plan, 'N', size - 2, t);
    unsigned assign = assemble_node2(t, FLOW_ASSIGN, planned_variable(r, plan), value);
    return assemble_node2(t, FLOW_SEQUENCE, inner, assign);
}

void copies_table(struct random *r, const struct plan *plan, enum copies copies, unsigned level, struct buffer *t)
{
    start_table(plan, t);
    unsigned inner = assemble_node0(t, FLOW_SKIP);
    for (unsigned left = plan->nodes - 1, size; left > 0; left -= size) {
        size = left < level + COPIES_LEAST_LEVEL ? left : level; /* no remainder that is too small for a level */
        inner = copies == COPIES_MANY ? put_branch(r, plan, size, inner, t) : put_value(r, plan, size, inner, t);
    }
}
