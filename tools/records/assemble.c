#include "records/assemble.h"

#include "flow.h"
#include "records/kinds.h"
#include "records/little_endian.h"

static void append_head(struct buffer *b, uint32_t length, uint32_t kind)
{
    buffer_append16(b, length);
    buffer_append16(b, kind);
}

unsigned lowest_version(unsigned variables)
{
    return variables <= flow_max_variables(FLOW_VERSION) ? FLOW_VERSION : FLOW_VERSION_2;
}

static void append_mask(struct buffer *b, unsigned version, uint64_t mask)
{
    buffer_append32(b, (uint32_t)mask);
    if (flow_mask_bytes(version) == 8)
        buffer_append32(b, (uint32_t)(mask >> 32));
}

void assemble_version(struct buffer *table, unsigned version, unsigned variables, unsigned arrays, const uint16_t *counts,
                      uint64_t secret_variables, uint32_t secret_arrays)
{
    append_head(table, 10, FLOW_HEADER);
    buffer_append16(table, version);
    buffer_append16(table, variables | arrays << 8);
    buffer_append16(table, 0);
    append_head(table, 6 + (uint32_t)flow_mask_bytes(version), FLOW_LABELS);
    append_mask(table, version, secret_variables);
    buffer_append16(table, secret_arrays);
    for (unsigned array = 0; array < arrays; array++) {
        append_head(table, 6, FLOW_ARRAY);
        buffer_append16(table, counts[array]);
    }
}

void assemble_table(struct buffer *table, unsigned variables, unsigned arrays, const uint16_t *counts,
                    uint64_t secret_variables, uint32_t secret_arrays)
{
    assemble_version(table, lowest_version(variables), variables, arrays, counts, secret_variables, secret_arrays);
}

unsigned assemble_node(struct buffer *table, unsigned kind, const uint32_t *fields)
{
    const char *letters = fields_of(kind);
    append_head(table, (uint32_t)record_length(letters), kind);
    for (unsigned i = 0; letters[i]; i++) {
        if (letters[i] == 'n')
            buffer_append32(table, fields[i]);
        else
            buffer_append16(table, fields[i]);
    }
    unsigned number = get16(table->bytes + 8);
    put16(table->bytes + 8, number + 1);
    return number;
}

unsigned assemble_node0(struct buffer *table, unsigned kind)
{
    return assemble_node(table, kind, NULL);
}

unsigned assemble_node1(struct buffer *table, unsigned kind, uint32_t one)
{
    return assemble_node(table, kind, &one);
}

unsigned assemble_node2(struct buffer *table, unsigned kind, uint32_t one, uint32_t two)
{
    uint32_t fields[] = {one, two};
    return assemble_node(table, kind, fields);
}

unsigned assemble_node3(struct buffer *table, unsigned kind, uint32_t one, uint32_t two, uint32_t three)
{
    uint32_t fields[] = {one, two, three};
    return assemble_node(table, kind, fields);
}

void assemble_directive(struct buffer *list, unsigned kind)
{
    append_head(list, 4, kind);
}

void assemble_redirect(struct buffer *list, unsigned kind, unsigned array, uint32_t index)
{
    append_head(list, 10, kind);
    buffer_append16(list, array);
    buffer_append32(list, index);
}
