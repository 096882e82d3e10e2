/* flow sheet: a table's label sheet. */
#include <stdio.h>

#include "commands/command.h"
#include "commands/open_table.h"
#include "files/draft.h"
#include "files/files.h"
#include "files/outputs.h"
#include "text/labels.h"

static const char usage[] =
    "flow sheet [--raw] [-o OUT] [--flag] [--names SOURCE] [TABLE]\n"
    "  Writes a table's label sheet in words, a line for each record.  Nodes have the numbers of `flow list --nodes`.\n"
    "  --raw           the sheet's bytes instead\n"
    "  -o OUT          where the sheet goes, standard output if not given\n"
    NAMING_USAGE;

static int write_words(const struct open_table *opened, const char *output)
{
    struct draft words;
    if (!draft_open(&words, output))
        return STATUS_TROUBLE;
    print_sheet(words.to, &opened->names, &opened->sheet);
    return draft_write(&words, output) ? STATUS_DONE : STATUS_TROUBLE;
}

static int write_bytes(const struct open_table *opened, const char *output)
{
    return write_file(output, opened->sheet.bytes, opened->sheet.length) == WRITTEN ? STATUS_DONE : STATUS_TROUBLE;
}

static int run_sheet(const struct command *self, int argc, char **argv)
{
    bool raw = false;
    const char *output = NULL;
    struct naming naming = {0};
    const struct option options[] = {{.name = "--raw", .given = &raw},
                                     {.name = "-o", .path = &output},
                                     {.name = "--flag", .given = &naming.flag},
                                     {.name = "--names", .path = &naming.source},
                                     {0}};
    struct open_table opened;
    if (!take_options(self, options, &argc, argv, 0, 1) || (argv = take_inputs(self, &argc, argv)) == NULL)
        return STATUS_TROUBLE;
    if (output == NULL)
        output = "-";
    if (!are_inputs_in_order(self, naming, argc, argv, output) || (raw && !takes_bytes(output)))
        return STATUS_TROUBLE;
    int status = open_table(&opened, argv[0], naming);
    if (status == STATUS_DONE)
        status = (raw ? write_bytes : write_words)(&opened, output);
    close_table(&opened);
    return status;
}

const struct command command_sheet = {"sheet", usage, run_sheet};
