/* The report of flow harden: a table of tab-separated text, a line for each file. */
#ifndef REPORT_H
#define REPORT_H

#include <stdbool.h>

#include "commands/hardening.h"
#include "files/draft.h"

struct report {
    const char *path; /* or NULL */
    struct draft lines;
};

/* Starts a report for this path; for NULL one that nobody wants, of which nothing is kept.  False: there is no memory for it. */
bool report_open(struct report *report, const char *path);

void report_add(struct report *report, const struct hardening *hardening);

/* Writes the file and frees the report.  False: it could not be written, and there was a message. */
bool report_close(struct report *report);

#endif
