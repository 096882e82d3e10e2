#include "records/directives.h"

#include "records/kinds.h"
#include "records/little_endian.h"

size_t directive_length(unsigned kind)
{
    switch (kind) {
    case FLOW_STEP:
    case FLOW_FORCE:
    case FLOW_ROLLBACK: return RECORD_HEAD;
    case FLOW_LOAD:
    case FLOW_STORE: return RECORD_HEAD + 6;
    default: return 0;
    }
}

size_t count_directives(const struct buffer *list, unsigned kind, uint64_t most)
{
    size_t count = 0, length;
    for (size_t at = 0; most > 0 && list->length - at >= RECORD_HEAD; at += length, most--) {
        length = get16(list->bytes + at);
        count += kind == ANY_DIRECTIVE || get16(list->bytes + at + 2) == kind;
        if (length < RECORD_HEAD || length > list->length - at)
            break;
    }
    return count;
}

const uint8_t *directive_numbered(const struct buffer *list, uint64_t number)
{
    size_t at = 0;
    for (; number > 1 && at < list->length; number--)
        at += get16(list->bytes + at);
    return at < list->length ? list->bytes + at : NULL;
}
