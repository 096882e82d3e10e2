/* Labels in words: labellings, and the records of a label sheet. */
#ifndef LABELS_H
#define LABELS_H

#include <stdio.h>

#include "records/sheet.h"
#include "text/names.h"

const char *label_in_words(uint32_t label);

/* "secret: s, a2", or "secret: nothing". */
void print_labelling(FILE *to, const struct names *names, struct labelling labelling);

/* The labels of a command: "condition secret", "variable public, index secret" or "index public". */
struct label_words {
    char words[40];
};
struct label_words labels_in_words(const struct sheet_row *row);

/* A label sheet that the library has written, a line for each record. */
void print_sheet(FILE *to, const struct names *names, const struct buffer *sheet);

#endif
