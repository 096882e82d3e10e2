/* flow explain: why a table is refused, in words. */
#include <inttypes.h>
#include <limits.h>
#include <stdio.h>

#include "commands/command.h"
#include "files/files.h"
#include "files/messages.h"
#include "files/outputs.h"
#include "files/paths.h"
#include "flow_words.h"
#include "library/calls.h"
#include "library/refusals.h"
#include "records/table.h"
#include "text/faults.h"
#include "text/words.h"

static const char usage[] =
    "flow explain [TABLE..]\n"
    "  Says of each table whether it is accepted, and if it is not, why: the library's refusal, its place, and in words the\n"
    "  faults of this number in the record there; of refusal 6, every node that breaks the rule.  Also why hardening alone\n"
    "  would refuse it.\n"
    "  Exit status: 0 all can be hardened; 1 one is refused; 2 wrong usage, or one cannot be read (the others are explained).\n";

static void print_count(const char *before, size_t count, const char *what)
{
    printf("%s%zu %s%s", before, count, what, plural(count));
}

static void print_accepted(const struct buffer *bytes)
{
    struct table table;
    table_open(&table, bytes);
    print_count("accepted, and hardening accepts it: ", table.nodes, "node");
    print_count(", ", table.variables, "variable");
    print_count(", ", table.arrays, "array");
    print_count(", ", table.cells, "cell");
    putchar('\n');
}

static void print_refused(const struct buffer *table, struct answer answer)
{
    const char *words = flow_refusal_words(answer.refusal);
    if (concern_of(answer.refusal) == CONCERN_TABLE)
        printf("refused by %" PRIu64 " at byte %" PRIu64 ": %s\n", answer.refusal, answer.second, words);
    else
        printf("accepted, but hardening refuses it by %" PRIu64 ": %s\n", answer.refusal, words);
    print_faults(stdout, "  ", table, answer);
    if (is_text(table))
        printf("  it is text: flow assemble makes a table of a source\n");
}

static int explain_table(const char *path)
{
    struct buffer table = {0}, hardened = {0};
    int status = STATUS_TROUBLE;
    if (read_file(path, &table)) {
        struct answer answer = harden_table(&table, &hardened);
        print_name(stdout, path);
        fputs(": ", stdout);
        if (answer.refusal == FLOW_ACCEPTED)
            print_accepted(&table);
        else
            print_refused(&table, answer);
        status = answer.refusal == FLOW_ACCEPTED ? STATUS_DONE : STATUS_REFUSED;
    }
    buffer_free(&table);
    buffer_free(&hardened);
    return status;
}

/* Before anything is printed: no table would be written over by what is said of one before it. */
static bool spares_all(int count, char **paths)
{
    for (int i = 0; i < count; i++)
        if (!spares_input("-", paths[i]))
            return false;
    return true;
}

static int run_explain(const struct command *self, int argc, char **argv)
{
    const struct option none[] = {{0}};
    int worst = STATUS_DONE; /* trouble is worse than a refusal */
    if (!take_options(self, none, &argc, argv, 0, INT_MAX) || (argv = take_inputs(self, &argc, argv)) == NULL)
        return STATUS_TROUBLE;
    if (count_dashes(argv, (size_t)argc) > 1)
        return misused(self, "standard input can be read once only");
    if (!spares_all(argc, argv))
        return STATUS_TROUBLE;
    for (int i = 0; i < argc; i++) {
        int status = explain_table(argv[i]);
        worst = status > worst ? status : worst;
    }
    return worst;
}

const struct command command_explain = {"explain", usage, run_explain};
