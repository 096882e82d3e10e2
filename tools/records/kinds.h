/* The kinds of nodes: their sorts, fields and record lengths. */
#ifndef KINDS_H
#define KINDS_H

#include <stdbool.h>
#include <stddef.h>

#include "flow.h"

enum { RECORD_HEAD = 4 }; /* length and kind, before a record's fields */

/*
 * A kind's fields, a letter each: n a number of 4 bytes, b a constant, x a variable, a an array;
 * N, T and C a child that is a numeric, a truth or a command.  NULL: this is no kind of node.
 */
static inline const char *fields_of(unsigned kind)
{
    switch (kind) {
    case FLOW_NUMBER: return "n";
    case FLOW_VARIABLE: return "x";
    case FLOW_ADD:
    case FLOW_SUBTRACT:
    case FLOW_MULTIPLY: return "NN";
    case FLOW_CHOICE: return "TNN";
    case FLOW_CONSTANT: return "b";
    case FLOW_EQUAL:
    case FLOW_LESS: return "NN";
    case FLOW_NOT: return "T";
    case FLOW_AND: return "TT";
    case FLOW_SKIP: return "";
    case FLOW_ASSIGN: return "xN";
    case FLOW_SEQUENCE: return "CC";
    case FLOW_IF: return "TCC";
    case FLOW_WHILE: return "TC";
    case FLOW_READ: return "xaN";
    case FLOW_WRITE: return "aNN";
    default: return NULL;
    }
}

/* Of a kind of node: the letter of its sort. */
static inline char sort_of(unsigned kind)
{
    return kind < FLOW_CONSTANT ? 'N' : kind < FLOW_SKIP ? 'T' : 'C';
}

static inline bool is_child(char field)
{
    return field == 'N' || field == 'T' || field == 'C';
}

static inline size_t record_length(const char *fields)
{
    size_t length = RECORD_HEAD;
    for (; *fields; fields++)
        length += *fields == 'n' ? 4 : 2;
    return length;
}

#endif
