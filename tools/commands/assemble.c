/* flow assemble: text back to a table. */
#include <stdio.h>

#include "commands/command.h"
#include "files/files.h"
#include "files/outputs.h"
#include "library/calls.h"
#include "text/faults.h"
#include "text/source.h"

static const char usage[] =
    "flow assemble [-o TABLE] [SOURCE]\n"
    "  Puts a table together from text: declarations (var, array, secret) and a command in document 01's notation.\n"
    "  The table is of version 1 with up to 32 variables, else of version 2, or of the one that stands first: `version 2`.\n"
    "  -o TABLE        where the table goes, standard output if not given\n";

/* Everything that comes out has been accepted by the library. */
static int judge_and_write(const char *name, const struct buffer *table, const char *output)
{
    struct buffer sheet = {0};
    struct answer answer = label_table(table, &sheet);
    buffer_free(&sheet);
    if (answer.refusal != FLOW_ACCEPTED) {
        print_refusal(stderr, name, table, answer);
        return STATUS_REFUSED;
    }
    return write_file(output, table->bytes, table->length) == WRITTEN ? STATUS_DONE : STATUS_TROUBLE;
}

static int assemble_file(const char *path, const char *output)
{
    struct buffer text = {0};
    struct source source = {0};
    int status = STATUS_TROUBLE;
    if (read_file(path, &text))
        status = assemble_source(&source, path, &text, stderr) ? judge_and_write(path, &source.table, output) : STATUS_REFUSED;
    source_free(&source);
    buffer_free(&text);
    return status;
}

static int run_assemble(const struct command *self, int argc, char **argv)
{
    const char *output = NULL;
    const struct option options[] = {{.name = "-o", .path = &output}, {0}};
    if (!take_options(self, options, &argc, argv, 0, 1) || (argv = take_inputs(self, &argc, argv)) == NULL)
        return STATUS_TROUBLE;
    if (output == NULL)
        output = "-";
    if (!spares_input(output, argv[0]) || !takes_bytes(output))
        return STATUS_TROUBLE;
    return assemble_file(argv[0], output);
}

const struct command command_assemble = {"assemble", usage, run_assemble};
