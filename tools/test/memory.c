#include "memory.h"

#include <stdlib.h>
#include <string.h>

#include "library/calls.h"
#include "text/program.h"

void print_open(struct printed *printed)
{
    printed->to = open_memstream(&printed->bytes, &printed->length);
    if (printed->to == NULL)
        exit(2);
}

struct buffer print_close(struct printed *printed)
{
    struct buffer bytes = {0};
    if (fclose(printed->to) != 0)
        exit(2);
    buffer_append(&bytes, (const uint8_t *)printed->bytes, printed->length);
    free(printed->bytes);
    return bytes;
}

bool listing_of(const struct buffer *bytes, bool flag, struct buffer *listing)
{
    struct buffer sheet = {0};
    struct table table;
    struct names names;
    struct printed printed;
    bool accepted = label_table(bytes, &sheet).refusal == FLOW_ACCEPTED;
    *listing = (struct buffer){0};
    if (accepted) {
        table_open(&table, bytes);
        number_names(&names, &table, flag);
        print_open(&printed);
        print_program(printed.to, &table, &names, &sheet);
        *listing = print_close(&printed);
    }
    buffer_free(&sheet);
    return accepted;
}

bool same_bytes(const struct buffer *one, const struct buffer *other)
{
    return one->length == other->length && (one->length == 0 || memcmp(one->bytes, other->bytes, one->length) == 0);
}
