#include "text/operators.h"

#include "flow.h"

const struct operator operators[] = {
    {"and", LEVEL_AND, FLOW_AND, 'T', 'T'},       {"=", LEVEL_COMPARISON, FLOW_EQUAL, 'N', 'T'},
    {"<", LEVEL_COMPARISON, FLOW_LESS, 'N', 'T'}, {"+", LEVEL_SUM, FLOW_ADD, 'N', 'N'},
    {"-", LEVEL_SUM, FLOW_SUBTRACT, 'N', 'N'},    {"*", LEVEL_PRODUCT, FLOW_MULTIPLY, 'N', 'N'},
    {NULL, LEVEL_SINGLE, 0, 0, 0},
};

const struct foreign_operator foreign_operators[] = {
    {"<=", "not (b < a)"}, {">", "b < a"},  {">=", "not (a < b)"},
    {"!=", "not (a = b)"}, {"==", "a = b"}, {"or", "not (not (a) and not (b))"},
    {NULL, NULL},
};

const struct operator *operator_of(unsigned kind)
{
    for (const struct operator *o = operators; o->symbol != NULL; o++)
        if (o->kind == kind)
            return o;
    return NULL;
}

enum level level_of(unsigned kind)
{
    const struct operator *operator = operator_of(kind);
    if (operator != NULL)
        return operator->level;
    return kind == FLOW_CHOICE ? LEVEL_CHOICE : kind == FLOW_NOT ? LEVEL_NOT : LEVEL_SINGLE;
}
