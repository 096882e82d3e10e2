#include "library/calls.h"

typedef uint64_t writer(const uint8_t *table, size_t table_len, uint8_t *out, size_t out_len, uint8_t *numbers,
                        size_t numbers_len);

static struct answer call_writer(writer *entry, const struct buffer *table, struct buffer *out, size_t room)
{
    uint8_t numbers[FLOW_ANSWER_BYTES];
    buffer_reserve(out, room);
    uint64_t refusal = entry(table->bytes, table->length, out->bytes + out->length, room, numbers, sizeof numbers);
    struct answer answer = {refusal, flow_answer_number(numbers, sizeof numbers, 1)};
    if (refusal == FLOW_ACCEPTED)
        out->length += (size_t)answer.second;
    return answer;
}

struct answer label_table(const struct buffer *table, struct buffer *sheet)
{
    return call_writer(flow_sheet, table, sheet, FLOW_SHEET_BYTES);
}

struct answer harden_table(const struct buffer *table, struct buffer *hardened)
{
    return call_writer(flow_harden, table, hardened, FLOW_TABLE_BYTES);
}
