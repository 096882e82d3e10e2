#include "library/refusals.h"

#include "flow.h"

enum concern concern_of(uint64_t refusal)
{
    switch (refusal) {
    case FLOW_CUT:
    case FLOW_WRONG_RECORD:
    case FLOW_BEYOND_LIMITS:
    case FLOW_OUT_OF_RANGE:
    case FLOW_WRONG_SORT:
    case FLOW_NOT_A_TREE:
    case FLOW_EXTRA_BYTES: return CONCERN_TABLE;
    case FLOW_TOO_MANY_NODES:
    case FLOW_NO_FREE_VARIABLE: return CONCERN_HARDENING;
    case FLOW_BAD_DIRECTIVES: return CONCERN_SCRIPT;
    case FLOW_BAD_QUESTIONS: return CONCERN_QUESTIONS;
    default: return CONCERN_MEMORY;
    }
}
