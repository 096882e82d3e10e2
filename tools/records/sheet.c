#include "records/sheet.h"

#include "flow.h"
#include "records/kinds.h"

/* Its first record is the one that says it. */
unsigned sheet_version(const uint8_t *sheet)
{
    return get16(sheet + RECORD_HEAD);
}

struct sheet_row get_sheet_row(const uint8_t *record, unsigned version)
{
    const uint8_t *fields = record + RECORD_HEAD;
    struct sheet_row row = {.kind = get16(record + 2), .node = get16(fields)};
    switch (row.kind) {
    case FLOW_SHEET:
        row.node = 0;
        row.labelling = get_labelling(fields + 4, version);
        break;
    case FLOW_SHEET_SEQUENCE:
        row.labelling = get_labelling(fields + 2, version);
        break;
    case FLOW_SHEET_IF:
        row.condition = get16(fields + 2);
        break;
    case FLOW_SHEET_WHILE:
        row.condition = get16(fields + 2);
        row.labelling = get_labelling(fields + 4, version);
        break;
    case FLOW_SHEET_READ:
        row.variable = get16(fields + 2);
        row.index = get16(fields + 4);
        break;
    case FLOW_SHEET_WRITE:
        row.index = get16(fields + 2);
        break;
    }
    return row;
}
