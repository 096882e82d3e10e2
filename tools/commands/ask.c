/* flow ask: is a variable secret just before a command?  All pairs are asked in one call. */
#include <inttypes.h>
#include <limits.h>
#include <stdio.h>
#include <string.h>

#include "commands/command.h"
#include "commands/numbers.h"
#include "commands/open_table.h"
#include "files/messages.h"
#include "library/calls.h"
#include "library/refusals.h"
#include "records/kinds.h"
#include "records/little_endian.h"
#include "text/faults.h"
#include "text/labels.h"
#include "text/words.h"

static const char usage[] =
    "flow ask [--flag] [--names SOURCE] TABLE NODE VARIABLE [NODE VARIABLE ..]\n"
    "  Says of each pair whether the variable is secret just before the command at the node; in a loop, once it has settled.\n"
    "  NODE is a number of `flow list --nodes`, VARIABLE a number or a name.\n"
    NAMING_USAGE;

/* A node by its number.  False, with a message: the word is no number of 2 bytes.  Whether it is there, the library says. */
static bool append_node(const struct open_table *opened, const char *word, struct buffer *questions)
{
    uint32_t node = 0;
    bool taken = take_number(word, UINT16_MAX, &node);
    if (taken)
        buffer_append16(questions, node);
    else
        complain(opened->name, "no node %s: a node is a number, at most %u", word, (unsigned)UINT16_MAX);
    return taken;
}

static bool append_variable(const struct open_table *opened, const char *word, struct buffer *questions)
{
    uint32_t number = 0;
    int named = variable_named(&opened->names, word, strlen(word));
    bool taken = named >= 0 || take_number(word, UINT16_MAX, &number);
    if (taken)
        buffer_append16(questions, named >= 0 ? (uint32_t)named : number);
    else
        complain(opened->name, "no variable %s: the table has %s", word,
                 variables_in_words(&opened->names, opened->names.variables).words);
    return taken;
}

static bool take_questions(const struct open_table *opened, int count, char **words, struct buffer *questions)
{
    for (int i = 0; i < count; i += 2)
        if (!append_node(opened, words[i], questions) || !append_variable(opened, words[i + 1], questions))
            return false;
    return true;
}

static bool is_command(const struct table *table, unsigned node)
{
    return node < table->nodes && sort_of(table_kind(table, node)) == 'C';
}

/* Which question the library refuses, in words: the list as a whole, or the first pair that is not in order. */
static void print_bad_question(FILE *to, const struct table *table, const struct buffer *questions)
{
    size_t pairs = questions->length / FLOW_QUESTION_BYTES;
    if (pairs > FLOW_MAX_QUESTIONS) {
        fprintf(to, "%zu pairs, at most %d\n", pairs, FLOW_MAX_QUESTIONS);
        return;
    }
    for (size_t i = 0; i < pairs; i++) {
        unsigned node = get16(questions->bytes + i * FLOW_QUESTION_BYTES);
        unsigned variable = get16(questions->bytes + i * FLOW_QUESTION_BYTES + 2);
        if (is_command(table, node) && variable < table->variables)
            continue;
        if (node >= table->nodes)
            fprintf(to, "pair %zu: node %u, but the last is %u\n", i + 1, node, table->nodes - 1);
        else if (!is_command(table, node))
            fprintf(to, "pair %zu: node %u is no command (%s)\n", i + 1, node, kind_in_words(table_kind(table, node)));
        else
            fprintf(to, "pair %zu: variable %u, and the table has %u\n", i + 1, variable, table->variables);
        return;
    }
    fprintf(to, "no fault is found in the questions: please report them\n");
}

static void print_refused(const struct open_table *opened, const struct buffer *questions, struct answer answer)
{
    if (concern_of(answer.refusal) != CONCERN_QUESTIONS) {
        print_refusal(stderr, opened->name, &opened->bytes, answer);
        return;
    }
    print_name(stderr, opened->name);
    fprintf(stderr, ": refused by %" PRIu64 ": ", answer.refusal);
    print_bad_question(stderr, &opened->table, questions);
}

static int ask_table(const struct open_table *opened, const struct buffer *questions)
{
    uint8_t labels[FLOW_MAX_QUESTIONS], numbers[FLOW_ANSWER_BYTES];
    uint64_t refusal = flow_questions(opened->bytes.bytes, opened->bytes.length, questions->bytes, questions->length, labels,
                                      sizeof labels, numbers, sizeof numbers);
    uint64_t second = flow_answer_number(numbers, sizeof numbers, 1); /* the number of pairs, or the place of the refusal */
    if (refusal != FLOW_ACCEPTED) {
        print_refused(opened, questions, (struct answer){refusal, second});
        return STATUS_REFUSED;
    }
    for (size_t i = 0; i < second; i++) {
        const uint8_t *pair = questions->bytes + i * FLOW_QUESTION_BYTES;
        printf("node %" PRIu32 ", variable %s: %s\n", get16(pair), opened->names.variable[get16(pair + 2)],
               label_in_words(labels[i]));
    }
    return STATUS_DONE;
}

static int run_ask(const struct command *self, int argc, char **argv)
{
    struct naming naming = {0};
    const struct option options[] = {
        {.name = "--flag", .given = &naming.flag}, {.name = "--names", .path = &naming.source}, {0}};
    struct open_table opened;
    struct buffer questions = {0};
    if (!take_options(self, options, &argc, argv, 3, INT_MAX) || !are_inputs_in_order(self, naming, 1, argv, "-"))
        return STATUS_TROUBLE;
    if (argc % 2 == 0)
        return misused(self, "node %s lacks its variable", argv[argc - 1]);
    int status = open_table(&opened, argv[0], naming);
    if (status == STATUS_DONE)
        status = take_questions(&opened, argc - 1, argv + 1, &questions) ? ask_table(&opened, &questions) : STATUS_TROUBLE;
    close_table(&opened);
    buffer_free(&questions);
    return status;
}

const struct command command_ask = {"ask", usage, run_ask};
