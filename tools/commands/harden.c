/* flow harden: one table, or each of many into a folder. */
#include <limits.h>
#include <stdio.h>
#include <stdlib.h>
#include <unistd.h>

#include "commands/batch.h"
#include "commands/command.h"
#include "commands/hardening.h"
#include "commands/report.h"
#include "files/draft.h"
#include "files/interrupts.h"
#include "files/messages.h"
#include "files/paths.h"
#include "text/faults.h"

static const char usage[] =
    "flow harden [-o OUT] [--report FILE] [TABLE]\n"
    "flow harden --into FOLDER [--report FILE] TABLE..\n"
    "  Hardens a table, from standard input if none is given, or each of many into a folder, with a line for each and a count.\n"
    "  A file is replaced whole or stays as it was; for a refused table nothing is written.  A signal (SIGINT, SIGTERM,\n"
    "  SIGHUP) leaves no temporary file, and count and report then say what is interrupted.\n"
    "  -o OUT          where the hardened table goes, standard output if not given, unless that is a terminal\n"
    "  --into FOLDER   each hardened table goes to a file of the same name in this folder\n"
    "  --report FILE   a line for each table, tab-separated: name, SHA-256 in and out, refusal, place, nodes in and out\n";

/* A call of flow harden at work. */
struct work {
    const struct batch *batch;
    struct buffer dangling; /* a byte for each table */
    struct report report;
    size_t ended[ENDINGS];  /* how many tables ended so */
    bool unsynced;          /* the folder of one that was written is not synced */
    bool unheard;           /* a line could not be printed: nobody is there to be told more */
};

/* ---- Lines ---- */

static void print_hardened(FILE *to, const struct hardening *hardening)
{
    fprintf(to, ": %u -> %u nodes, %zu bytes", hardening->nodes_in, hardening->nodes_out, hardening->hardened.length);
    if (hardening->version_in != hardening->version_out)
        fprintf(to, ", version %u -> %u", hardening->version_in, hardening->version_out);
    fputc('\n', to);
}

/* Of many, each has its line.  It goes out at once, also into a pipe. */
static bool print_line(const struct hardening *hardening)
{
    struct draft line;
    if (!draft_open(&line, "-"))
        return false;
    if (hardening->ending == ENDED_REFUSED)
        print_refusal(line.to, hardening->name, &hardening->table, hardening->answer);
    else
        print_name(line.to, hardening->name);
    if (hardening->ending == ENDED_HARDENED)
        print_hardened(line.to, hardening);
    else if (hardening->ending == ENDED_FAILED)
        fprintf(line.to, ": failed\n");
    return draft_write(&line, "-");
}

static bool print_counts(const size_t ended[ENDINGS])
{
    struct draft line;
    if (!draft_open(&line, "-"))
        return false;
    fprintf(line.to, "%zu hardened, %zu refused", ended[ENDED_HARDENED], ended[ENDED_REFUSED]);
    if (ended[ENDED_FAILED] > 0)
        fprintf(line.to, ", %zu failed", ended[ENDED_FAILED]);
    if (ended[ENDED_INTERRUPTED] > 0)
        fprintf(line.to, ", %zu interrupted", ended[ENDED_INTERRUPTED]);
    fputc('\n', line.to);
    return draft_write(&line, "-");
}

/* An older file of the table's name could be taken for its result. */
static void name_older_file(const struct hardening *hardening, const char *out)
{
    if ((hardening->ending == ENDED_REFUSED || !hardening->read) && access(out, F_OK) == 0)
        complain(out, "is from before: the table of this name is not hardened now");
}

/* A single table speaks of a refusal alone; of one that was interrupted the count and the report speak. */
static void tell(struct work *work, const struct hardening *hardening, const char *out)
{
    if (work->batch->into != NULL && hardening->ending != ENDED_INTERRUPTED) {
        work->unheard = !print_line(hardening);
        name_older_file(hardening, out);
    } else if (hardening->ending == ENDED_REFUSED)
        print_refusal(stderr, hardening->name, &hardening->table, hardening->answer);
}

/* ---- Tables ---- */

static void take_down(struct work *work, const struct hardening *hardening)
{
    work->ended[hardening->ending]++;
    work->unsynced |= hardening->unsynced;
    report_add(&work->report, hardening);
}

static void harden_one(struct work *work, size_t i)
{
    struct hardening hardening = {.name = work->batch->files[i], .ending = ENDED_FAILED};
    char *out = batch_out(work->batch, i);
    if (work->dangling.bytes[i])
        complain(hardening.name, "%s", of_dangling);
    else
        harden_file(&hardening, hardening.name, out);
    take_down(work, &hardening);
    tell(work, &hardening, out);
    hardening_free(&hardening);
    free(out);
}

static void leave_out(struct work *work, size_t i)
{
    const struct hardening hardening = {.name = work->batch->files[i], .ending = ENDED_INTERRUPTED};
    take_down(work, &hardening);
}

static void harden_all(struct work *work)
{
    for (size_t i = 0; i < work->batch->count; i++)
        (is_interrupted() || work->unheard ? leave_out : harden_one)(work, i);
    if (work->batch->into != NULL && !work->unheard)
        work->unheard = !print_counts(work->ended);
}

static int status_of(const struct work *work)
{
    if (work->unheard || work->unsynced || work->ended[ENDED_FAILED] > 0)
        return STATUS_TROUBLE;
    return work->ended[ENDED_REFUSED] > 0 ? STATUS_REFUSED : STATUS_DONE;
}

static int harden_batch(const struct batch *batch)
{
    struct work work = {.batch = batch};
    if (!batch_is_in_order(batch) || !report_open(&work.report, batch->report))
        return STATUS_TROUBLE;
    batch_note_dangling(batch, &work.dangling);
    note_interrupts();
    harden_all(&work);
    bool reported = report_close(&work.report);
    buffer_free(&work.dangling);
    end_by_interrupt();
    return reported ? status_of(&work) : STATUS_TROUBLE;
}

static int run_harden(const struct command *self, int argc, char **argv)
{
    struct batch batch = {0};
    const struct option options[] = {{.name = "-o", .path = &batch.out},
                                     {.name = "--into", .path = &batch.into},
                                     {.name = "--report", .path = &batch.report},
                                     {0}};
    if (!take_options(self, options, &argc, argv, 0, INT_MAX))
        return STATUS_TROUBLE;
    if (batch.out != NULL && batch.into != NULL)
        return misused(self, "-o and --into exclude each other");
    if (batch.into != NULL && argc == 0)
        return misused(self, "--into needs the files to harden");
    batch.files = take_inputs(self, &argc, argv);
    if (batch.files == NULL)
        return STATUS_TROUBLE;
    batch.count = (size_t)argc;
    if (batch.into != NULL && count_dashes(batch.files, batch.count) > 0)
        return misused(self, "standard input has no name to go into a folder by");
    if (batch.into == NULL && argc > 1)
        return misused(self, "more than one file needs --into");
    if (batch.out == NULL)
        batch.out = "-";
    if (batch.report != NULL && is_dash(batch.report) && is_dash(batch.out))
        return misused(self, "standard output is taken: the report needs a file");
    return harden_batch(&batch);
}

const struct command command_harden = {"harden", usage, run_harden};
