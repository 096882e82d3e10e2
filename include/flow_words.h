/* Refusals and ends in words, for messages.  Inlines only: nothing to link. */
#ifndef FLOW_WORDS_H
#define FLOW_WORDS_H

#include "flow.h"

/* What a refusal means.  Every number has a text; those that no entry gives have one that says so. */
static inline const char *flow_refusal_words(uint64_t refusal)
{
    switch (refusal) {
    case FLOW_ACCEPTED: return "accepted";
    case FLOW_CUT: return "the table is cut: fewer bytes remain than the record needs";
    case FLOW_WRONG_RECORD: return "kind or length of the record is wrong for this point";
    case FLOW_BEYOND_LIMITS: return "a version, count or mask is beyond the limits";
    case FLOW_OUT_OF_RANGE: return "a variable, array or child is out of range, or a constant is above 1";
    case FLOW_WRONG_SORT: return "a child is of the wrong sort";
    case FLOW_NOT_A_TREE: return "a node is a child never or more than once, or the last node is no command";
    case FLOW_EXTRA_BYTES: return "bytes stand after the last node";
    case FLOW_TOO_MANY_NODES: return "the table has more nodes than can be hardened";
    case FLOW_NO_FREE_VARIABLE: return "all variables are taken, and none is free for the flag";
    case FLOW_BAD_DIRECTIVES: return "the directive list is cut or holds a wrong kind or length";
    case FLOW_BAD_QUESTIONS:
        return "the list of questions is too long or ends inside a pair, a node is no command, or a variable is not "
               "declared";
    case FLOW_VARIABLES_LENGTH: return "the variables lent are not 4 bytes for each variable";
    case FLOW_CELLS_LENGTH: return "the cells lent are not 4 bytes for each cell";
    case FLOW_PENDING_SHORT: return "the pending list lent has fewer than 4 bytes for each node";
    case FLOW_OUTPUT_SHORT: return "the sheet, list of labels or hardened table is longer than its buffer";
    case FLOW_SAVES_SHORT: return "the save words lent are fewer than flow_saves_bytes gives";
    default: return "no refusal that this release knows";
    }
}

/* How a run ended. */
static inline const char *flow_end_words(uint64_t end)
{
    switch (end) {
    case FLOW_FINISHED: return "finished";
    case FLOW_SPENT: return "spent: the budget is used";
    case FLOW_OUT_OF_DIRECTIVES: return "out of directives: the next step is shown and none is left";
    case FLOW_STUCK: return "stuck: an index or directive does not fit";
    case FLOW_FULL: return "full: the observation buffer has no room left";
    default: return "no end that this release knows";
    }
}

#endif
