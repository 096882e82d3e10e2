/* flow run: a table run without guessing. */
#include <inttypes.h>
#include <stdint.h>
#include <stdio.h>

#include "commands/command.h"
#include "commands/numbers.h"
#include "commands/open_table.h"
#include "files/files.h"
#include "files/messages.h"
#include "files/paths.h"
#include "library/stuck.h"
#include "records/little_endian.h"
#include "text/ends.h"
#include "text/faults.h"
#include "text/state.h"
#include "text/text.h"
#include "text/words.h"

static const char usage[] =
    "flow run [--budget STEPS] [--state-out FILE] [--flag] [--names SOURCE] TABLE STATE\n"
    "  Runs a table without guessing: how it ends, what it shows and, on the last line, its state, which can be given again.\n"
    STATE_USAGE
    BUDGET_USAGE
    "  --state-out FILE  the state that is left goes to this file, too, as words\n"
    NAMING_USAGE
    "  Exit status: 0 the run ended by the rules; 1 refused; 2 wrong usage, or a file cannot be read or written;\n"
    "  4 the run was cut.\n";

static void print_run(const struct open_table *opened, unsigned variables, const struct run *run)
{
    const struct table *table = &opened->table;
    struct stuck stuck = find_stuck(table, MACHINE_PLAIN, NULL, run);
    printf("end: ");
    print_end(stdout, &opened->names, table, run, &stuck, "");
    printf("\n");
    if (run_was_cut(run))
        printf("the run was cut%s\n", run->end == FLOW_SPENT ? ", and may go on with a larger --budget" : "");
    printf("steps: %" PRIu64 "\n", run->steps);
    if (run->end != FLOW_FINISHED)
        printf("next node: %" PRIu64 "\n", run->next);
    printf("shown:\n");
    print_observations(stdout, "  ", &opened->names, &run->observations, SIZE_MAX);
    if (variables < table->variables)
        printf("flag: %s=%" PRIu32 "\n", opened->names.variable[variables], get32(run->variables.bytes + 4 * variables));
    printf("state:");
    print_state(stdout, &opened->names, table, variables, run->variables.bytes, run->cells.bytes);
    printf("\n");
}

/* Words that could be a text would be read as one, and not as this state. */
static bool write_state(const char *out, const struct run *run, unsigned variables)
{
    struct buffer words = {0};
    buffer_append(&words, run->variables.bytes, 4 * (size_t)variables);
    buffer_append(&words, run->cells.bytes, run->cells.length);
    bool written = !can_be_text(words.bytes, words.length);
    if (written)
        written = write_file(out, words.bytes, words.length) == WRITTEN;
    else
        complain(out, "is not written: the words of this state would be read as text");
    buffer_free(&words);
    return written;
}

/* `out` is where the words of the state go, or NULL.  They go first: printing may end by a pipe that nobody reads any more. */
static int run_from(const struct open_table *opened, const struct state *state, uint32_t budget, const char *out)
{
    struct run run;
    struct answer answer = run_table(&opened->table, MACHINE_PLAIN, NULL, state, budget, &run);
    int status = STATUS_REFUSED;
    if (answer.refusal == FLOW_ACCEPTED) {
        bool written = out == NULL || write_state(out, &run, state->variables);
        print_run(opened, state->variables, &run);
        status = !written ? STATUS_TROUBLE : run_was_cut(&run) ? STATUS_CUT : STATUS_DONE;
    } else
        print_refusal(stderr, opened->name, &opened->bytes, answer);
    run_free(&run);
    return status;
}

/* Would the words of the state go to a file of their own?  False, with a message: they would not. */
static bool is_out_in_order(const struct command *self, const char *out, struct naming naming, int argc, char **argv)
{
    if (out == NULL)
        return true;
    if (is_dash(out))
        return misused(self, "--state-out takes the name of a file: standard output has what is printed"), false;
    if (!are_inputs_in_order(self, naming, argc, argv, out))
        return false;
    if (is_one_output("-", out))
        return complain(out, "would hold the state and is standard output"), false;
    return true;
}

static int run_run(const struct command *self, int argc, char **argv)
{
    const char *budget_value = NULL, *out = NULL;
    uint32_t budget;
    struct naming naming = {0};
    const struct option options[] = {{.name = "--budget", .number = &budget_value},
                                     {.name = "--state-out", .path = &out},
                                     {.name = "--flag", .given = &naming.flag},
                                     {.name = "--names", .path = &naming.source},
                                     {0}};
    struct open_table opened;
    struct state state = {0};
    if (!take_options(self, options, &argc, argv, 2, 2) || !take_budget(self, budget_value, &budget) ||
        !are_inputs_in_order(self, naming, argc, argv, "-") || !is_out_in_order(self, out, naming, argc, argv))
        return STATUS_TROUBLE;
    int status = open_table(&opened, argv[0], naming);
    if (status == STATUS_DONE)
        status = read_state(argv[1], "STATE", &opened.table, &opened.names, state_variables(&opened, naming), &state)
                     ? run_from(&opened, &state, budget, out)
                     : STATUS_TROUBLE;
    state_free(&state);
    close_table(&opened);
    return status;
}

const struct command command_run = {"run", usage, run_run};
