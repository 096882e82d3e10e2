#include "versions.h"

#include "declarations.h"

void count_version(const uint8_t *table, struct versions *sum)
{
    unsigned version = version_of(table), variables = variables_of(table);
    sum->second += version == 2;
    sum->full += version == 1 && variables == 32;
    sum->wide += variables > 32 && variables < 64;
    sum->widest += variables == 64;
    sum->secret += secret_variables_of(table) >> 32 != 0;
    sum->flag_32 += variables == 32;
    sum->flag_63 += variables == 63;
    sum->flag_high += variables >= 32 && variables < 64;
}

bool has_other_labels(const uint8_t *table, size_t length)
{
    if (length < MASK_AT || get16(table) != 10 || get16(table + 2) != FLOW_HEADER || get16(table + LABELS_AT + 2) != FLOW_LABELS)
        return false;
    unsigned version = version_of(table), labels = get16(table + LABELS_AT);
    return (version == 1 && labels == 14) || (version == 2 && labels == 10);
}
