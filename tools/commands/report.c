#include "commands/report.h"

#include <inttypes.h>

#include "files/messages.h"
#include "files/sha256.h"

static const char header[] = "name\tsha256_in\tsha256_out\trefusal\tplace\tnodes_in\tnodes_out\n";

bool report_open(struct report *report, const char *path)
{
    *report = (struct report){.path = path};
    if (path == NULL)
        return true;
    if (!draft_open(&report->lines, path))
        return false;
    fputs(header, report->lines.to);
    return true;
}

/* The other columns, each behind its tab. */
static void print_digest(FILE *to, bool known, const struct buffer *bytes)
{
    char hex[SHA256_HEX + 1] = "-";
    if (known)
        sha256(bytes->bytes, bytes->length, hex);
    fprintf(to, "\t%s", hex);
}

static void print_number(FILE *to, bool known, uint64_t number)
{
    if (known)
        fprintf(to, "\t%" PRIu64, number);
    else
        fputs("\t-", to);
}

/* A hardened table that could not be written is nowhere: its line says neither that it is hardened nor that it is refused. */
static void print_columns(FILE *to, const struct hardening *hardening)
{
    bool refused = hardening->ending == ENDED_REFUSED, written = hardening->ending == ENDED_HARDENED;
    print_digest(to, hardening->read, &hardening->table);
    print_digest(to, written, &hardening->hardened);
    print_number(to, refused || written, hardening->answer.refusal);
    print_number(to, refused, hardening->answer.second);
    print_number(to, hardening->nodes_in > 0, hardening->nodes_in);
    print_number(to, written, hardening->nodes_out);
}

void report_add(struct report *report, const struct hardening *hardening)
{
    FILE *to = report->lines.to;
    if (report->path == NULL)
        return;
    print_name(to, hardening->name);
    if (hardening->ending == ENDED_INTERRUPTED)
        fputs("\t-\t-\tinterrupted\t-\t-\t-", to);
    else
        print_columns(to, hardening);
    fputc('\n', to);
}

bool report_close(struct report *report)
{
    return report->path == NULL || draft_write(&report->lines, report->path);
}
