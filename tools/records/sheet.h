/* A record of a label sheet, taken apart. */
#ifndef SHEET_H
#define SHEET_H

#include "records/labelling.h"

/* What a record of its kind does not have is 0.  Label 1 is secret. */
struct sheet_row {
    unsigned kind; /* FLOW_SHEET to FLOW_SHEET_WRITE */
    unsigned node;
    uint32_t condition, variable, index; /* labels */
    struct labelling labelling;          /* at the end, after the first part of a sequence, or settled */
};

/* The version of a sheet that the library has written, which is its table's. */
unsigned sheet_version(const uint8_t *sheet);

/* `record` must be of such a sheet, and the version the sheet's. */
struct sheet_row get_sheet_row(const uint8_t *record, unsigned version);

#endif
