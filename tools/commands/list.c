/* flow list: a table as text. */
#include <stdio.h>

#include "commands/open_table.h"
#include "text/listing.h"
#include "text/program.h"

static const char usage[] =
    "flow list [--flag] [--names SOURCE] [--nodes] [TABLE]\n"
    "  Writes a table as text, which `flow assemble` reads back, with the labels of its sheet at the right.\n"
    NAMING_USAGE
    "  --nodes         a line for each record instead: byte, node, kind, fields (of a refused table, up to the fault)\n";

/* The records that are in order: of a table whose fault is in one record those before it, else all of them. */
static void print_refused_records(const struct open_table *opened)
{
    const struct table largest = {.variables = FLOW_MAX_VARIABLES, .arrays = FLOW_MAX_ARRAYS};
    struct names names;
    number_names(&names, &largest, false);
    print_records(stdout, &opened->bytes, &names,
                  opened->answer.refusal < FLOW_NOT_A_TREE ? opened->answer.second : UINT64_MAX);
}

static int run_list(const struct command *self, int argc, char **argv)
{
    bool nodes = false;
    struct naming naming = {0};
    const struct option options[] = {{.name = "--nodes", .given = &nodes},
                                     {.name = "--flag", .given = &naming.flag},
                                     {.name = "--names", .path = &naming.source},
                                     {0}};
    struct open_table opened;
    if (!take_options(self, options, &argc, argv, 0, 1) || (argv = take_inputs(self, &argc, argv)) == NULL ||
        !are_inputs_in_order(self, naming, argc, argv, "-"))
        return STATUS_TROUBLE;
    int status = open_table(&opened, argv[0], naming);
    if (status == STATUS_DONE && nodes)
        print_records(stdout, &opened.bytes, &opened.names, UINT64_MAX);
    else if (status == STATUS_DONE)
        print_program(stdout, &opened.table, &opened.names, &opened.sheet);
    else if (status == STATUS_REFUSED && nodes)
        print_refused_records(&opened);
    close_table(&opened);
    return status;
}

const struct command command_list = {"list", usage, run_list};
