/*
 * The parsers on random and mutated input, for a build with -fsanitize=address,undefined: sources, scripts, states, tables and
 * lists of directives.
 * fuzz [SEED [COUNT]]
 * Messages go to standard error, findings to standard output.
 * Nothing may be undefined, leak or hang, and what is accepted must hold up: a source gives a table that the library accepts and
 * that lists and assembles again to itself, a script one that no machine refuses, a state one that prints and reads as itself.
 * A list of directives has a fault to name just where the library refuses it.
 */
#include <stdbool.h>
#include <stdlib.h>
#include <string.h>

#include "../../bench/generate.h"
#include "library/calls.h"
#include "library/refusals.h"
#include "memory.h"
#include "text/faults.h"
#include "text/labels.h"
#include "text/listing.h"
#include "text/script.h"
#include "text/script_faults.h"
#include "text/source.h"
#include "text/state.h"
#include "text/text.h"
#include "widen.h"

enum { INPUTS = 125000, SORTS = 5 };

/* What the inputs came to, so that a run in which nothing was accepted, or nothing refused, is seen. */
struct counts {
    unsigned accepted[SORTS], refused[SORTS];
};

static const char *const sorts[SORTS] = {"sources", "scripts", "states", "tables", "lists of directives"};

static void demand(bool holds, const char *what, const struct buffer *input)
{
    if (holds)
        return;
    printf("fuzz: %s, input in hex:\n", what);
    print_hex(stdout, input->bytes, input->length);
    printf("\n");
    exit(1);
}

/* ---- Making inputs ---- */

static const char *const words[] = {
    "var",  "secret", "array", "x",     "y",  "v0",   "v1",   "a0",    "a1",   "f",    "[",    "]",        "(",          ")",
    ";",    ":=",     "=",     "<",     "+",  "-",    "*",    "?",     ":",    "and",  "not",  "true",     "false",      "if",
    "then", "else",   "while", "do",    "or", "skip", "0",    "1",     "7",    "65536", "--",  "4294967295", "4294967296", "\n",
    " ",    ",",      "'",     "step",  "<=", "force", "load", "store", "@",   "rollback", "\t", ".",        "\303\244",
    ">",    ">=",     "!=",    "==",    "0x", "ff",   "2",    "version", "version 2 ", "version 1\n", "\357\273\277"};

enum { WORDS = sizeof words / sizeof words[0] };

static void add_word(struct random *r, struct buffer *text)
{
    const char *word = words[random_below(r, WORDS)];
    buffer_append(text, (const uint8_t *)word, strlen(word));
    if (random_percent(r, 70))
        buffer_append(text, (const uint8_t *)" ", 1);
}

static void make_soup(struct random *r, struct buffer *text)
{
    for (uint32_t left = random_below(r, 60); left > 0; left--)
        add_word(r, text);
}

static void make_bytes(struct random *r, struct buffer *bytes, size_t most)
{
    size_t length = random_below(r, (uint32_t)most);
    buffer_reserve(bytes, length + 1);
    random_fill(r, bytes->bytes, length);
    bytes->length = length;
}

/* Puts `middle` in the place of the bytes from one place to another. */
static void splice(struct buffer *bytes, size_t from, size_t to, const struct buffer *middle)
{
    struct buffer spliced = {0};
    buffer_append(&spliced, bytes->bytes, from);
    buffer_append(&spliced, middle->bytes, middle->length);
    buffer_append(&spliced, bytes->bytes + to, bytes->length - to);
    buffer_free(bytes);
    *bytes = spliced;
}

/* Leaves a range out, doubles it, puts a word or other bytes in its place, or cuts behind it. */
static void mutate(struct random *r, struct buffer *bytes)
{
    struct buffer middle = {0};
    if (bytes->length == 0)
        return;
    size_t from = random_below(r, (uint32_t)bytes->length);
    size_t to = from + random_below(r, 1 + (uint32_t)(bytes->length - from < 12 ? bytes->length - from : 12));
    uint32_t how = random_below(r, 6);
    if (how == 0)
        add_word(r, &middle);
    else if (how == 1)
        make_bytes(r, &middle, 4);
    else if (how == 2) {
        buffer_append(&middle, bytes->bytes + from, to - from);
        buffer_append(&middle, bytes->bytes + from, to - from);
    } else if (how == 3 && random_percent(r, 30))
        to = bytes->length;
    splice(bytes, from, to, &middle);
    buffer_free(&middle);
}

static void mutate_some(struct random *r, struct buffer *bytes)
{
    for (uint32_t left = random_below(r, 4); left > 0; left--)
        mutate(r, bytes);
}

static void make_table(struct random *r, struct buffer *table)
{
    struct plan plan = random_percent(r, 5) ? plan_any(r) : plan_small(r, 30);
    generate_table(r, &plan, table);
    if (random_percent(r, 50))
        widen_by_chance(r, table);
}

/* ---- Listings ---- */

/* The listing of a table; the command's other words on it are printed and dropped. */
static struct buffer list(const struct buffer *bytes, bool flag)
{
    struct buffer listing, sheet = {0};
    struct table table;
    struct names names;
    struct printed printed;
    demand(listing_of(bytes, flag, &listing), "the library refuses this table", bytes);
    label_table(bytes, &sheet);
    table_open(&table, bytes);
    number_names(&names, &table, flag);
    print_open(&printed);
    print_records(printed.to, bytes, &names, UINT64_MAX);
    print_sheet(printed.to, &names, &sheet);
    struct buffer dropped = print_close(&printed);
    buffer_free(&dropped);
    buffer_free(&sheet);
    return listing;
}

/* ---- Sources ---- */

/* What begins a part inside a part, over and over: deeper than any program. */
static void make_nested(struct random *r, struct buffer *text)
{
    static const char *const beginnings[] = {"(", "while true do ", "var x x := ((", "skip; ", "if not not "};
    const char *beginning = beginnings[random_below(r, 5)];
    for (unsigned left = 200000; left > 0; left--)
        buffer_append(text, (const uint8_t *)beginning, strlen(beginning));
}

static void make_source(struct random *r, struct buffer *text)
{
    struct buffer table = {0};
    uint32_t how = random_below(r, 10);
    if (how == 0 && random_percent(r, 2))
        make_nested(r, text);
    else if (how == 0)
        make_bytes(r, text, 200);
    else if (how == 1)
        make_soup(r, text);
    else {
        make_table(r, &table);
        *text = list(&table, random_percent(r, 10));
        mutate_some(r, text);
    }
    buffer_free(&table);
}

static bool try_source(struct random *r)
{
    struct buffer text = {0};
    struct source source, again = {0};
    make_source(r, &text);
    bool reads = assemble_source(&source, "source", &text, stderr);
    if (reads) {
        struct buffer listing = list(&source.table, false);
        demand(assemble_source(&again, "listing", &listing, stderr), "the listing of this source does not read", &text);
        demand(same_bytes(&source.table, &again.table), "the listing of this source gives another table", &text);
        buffer_free(&listing);
    }
    source_free(&source);
    source_free(&again);
    buffer_free(&text);
    return reads;
}

/* ---- Scripts and states ---- */

/* An operand: a text with a zero at its end, and no file. */
static void end_operand(struct buffer *text)
{
    static const uint8_t zero[1] = {0};
    if (text->length > 0 && text->bytes[0] == '@')
        text->bytes[0] = ' ';
    buffer_append(text, zero, 1);
}

static void make_script(struct random *r, struct buffer *text)
{
    static const char *const directives[] = {"step", "force", "load 2 0", "store a0 4294967295", "rollback", "load 65535 1"};
    for (uint32_t left = random_below(r, 20); left > 0; left--) {
        const char *directive = directives[random_below(r, 6)];
        buffer_append(text, (const uint8_t *)directive, strlen(directive));
        buffer_append(text, (const uint8_t *)(random_percent(r, 80) ? "; " : "\n\n"), 2);
    }
    mutate_some(r, text);
    end_operand(text);
}

/* Only the list is looked at: all else that is lent is too short. */
static bool refuses_list(bool rollback, const struct buffer *table, const struct buffer *directives, size_t length)
{
    uint8_t numbers[FLOW_ANSWER_BYTES];
    if (rollback)
        flow_rollback(table->bytes, table->length, directives->bytes, length, NULL, 0, NULL, 0, NULL, 0, NULL, 0, NULL, 0, 0,
                      numbers, sizeof numbers);
    else
        flow_guess(table->bytes, table->length, directives->bytes, length, NULL, 0, NULL, 0, NULL, 0, NULL, 0, 0, numbers,
                   sizeof numbers);
    return concern_of(flow_answer_number(numbers, sizeof numbers, 0)) == CONCERN_SCRIPT;
}

/* No machine refuses a script that was read. */
static bool try_script(struct random *r)
{
    struct buffer text = {0}, bytes = {0};
    struct script script;
    struct table table;
    struct names names;
    make_table(r, &bytes);
    table_open(&table, &bytes);
    number_names(&names, &table, false);
    make_script(r, &text);
    bool reads = read_script((const char *)text.bytes, &names, &script);
    const struct buffer *directives = &script.directives;
    if (reads)
        demand(!refuses_list(true, &bytes, directives, directives->length), "the library refuses this script", &text);
    script_free(&script);
    buffer_free(&text);
    buffer_free(&bytes);
    return reads;
}

/* What is said of a list is its fault, and where a byte is named nothing before it is one. */
static void demand_fault(bool rollback, const struct buffer *table, const struct buffer *directives, bool refused)
{
    size_t number, at;
    struct printed printed;
    const struct script script = {.records = true, .directives = *directives};
    print_open(&printed);
    bool found = print_script_fault(printed.to, &script, rollback);
    struct buffer words = print_close(&printed);
    buffer_append(&words, (const uint8_t *)"", 1);
    demand(found == refused && found == (words.length > 1), "this list has a fault and none is named, or none", directives);
    if (sscanf((const char *)words.bytes, "directive %zu, at byte %zu", &number, &at) == 2)
        demand(at < directives->length && !refuses_list(rollback, table, directives, at),
               "this list has a fault before the one that is named", directives);
    buffer_free(&words);
}

static bool try_list(struct random *r)
{
    struct buffer table = {0}, directives = {0};
    bool rollback = random_percent(r, 50);
    make_table(r, &table);
    if (random_percent(r, 10))
        make_bytes(r, &directives, 40);
    else
        generate_directives(r, ENTRY_ROLLBACK, 8, &directives);
    mutate_some(r, &directives);
    bool refused = refuses_list(rollback, &table, &directives, directives.length);
    demand_fault(rollback, &table, &directives, refused);
    buffer_free(&table);
    buffer_free(&directives);
    return !refused;
}

/* The text of a state. */
static struct buffer state_text(const struct names *names, const struct table *table, const struct state *state)
{
    struct printed printed;
    print_open(&printed);
    print_state(printed.to, names, table, table->variables, state->words.bytes, state->words.bytes + 4 * table->variables);
    return print_close(&printed);
}

/* A word, for a cell by its index: sometimes the one behind the last. */
static void add_cell(struct random *r, const struct names *names, const struct table *table, struct buffer *text)
{
    char cell[NAME_BYTES + 40];
    if (table->arrays == 0)
        return;
    unsigned array = random_below(r, table->arrays);
    snprintf(cell, sizeof cell, "%s%s[%u]=%u", text->length > 0 ? "," : "", names->array[array],
             (unsigned)random_below(r, table->counts[array] + 1), (unsigned)random_below(r, 9));
    buffer_append(text, (const uint8_t *)cell, strlen(cell));
}

/* The text of a state as it is printed, or cells one by one; then mutated. */
static struct buffer make_state(struct random *r, const struct names *names, const struct table *table)
{
    struct state made = {0};
    struct buffer text = {0};
    size_t count = table->variables + table->cells;
    buffer_reserve(&made.words, 4 * count + 1);
    generate_words(r, made.words.bytes, count);
    if (random_percent(r, 60))
        text = state_text(names, table, &made);
    else
        for (uint32_t left = random_below(r, 4); left > 0; left--)
            add_cell(r, names, table, &text);
    mutate_some(r, &text);
    end_operand(&text);
    state_free(&made);
    return text;
}

static bool try_state(struct random *r)
{
    struct buffer bytes = {0};
    struct table table;
    struct names names;
    struct state state, again;
    make_table(r, &bytes);
    table_open(&table, &bytes);
    number_names(&names, &table, false);
    size_t count = table.variables + table.cells;
    struct buffer text = make_state(r, &names, &table);
    bool reads = read_state((const char *)text.bytes, "STATE", &table, &names, table.variables, &state);
    size_t length = strlen((const char *)text.bytes);
    if (reads) {
        struct buffer printed = state_text(&names, &table, &state);
        demand(length == 0 || can_be_text(text.bytes, length), "this state reads, but a file of it would be words", &text);
        end_operand(&printed);
        demand(read_state((const char *)printed.bytes, "STATE", &table, &names, table.variables, &again) &&
                   state.words.length == 4 * count && same_bytes(&state.words, &again.words),
               "this state does not print and read as itself", &text);
        buffer_free(&printed);
        state_free(&again);
    }
    state_free(&state);
    buffer_free(&text);
    buffer_free(&bytes);
    return reads;
}

/* ---- Tables ---- */

/* The faults of any bytes: with the library's answer, and with one by chance, for which the words must be safe, too. */
static void print_all_faults(struct random *r, const struct buffer *bytes, struct answer answer)
{
    struct printed printed;
    struct answer other = {random_below(r, 26), random_below(r, (uint32_t)bytes->length + 40)};
    print_open(&printed);
    if (answer.refusal != FLOW_ACCEPTED) {
        print_faults(printed.to, "", bytes, answer);
        print_refusal(printed.to, "table", bytes, answer);
    }
    print_faults(printed.to, "", bytes, other);
    struct buffer dropped = print_close(&printed);
    buffer_free(&dropped);
}

static bool try_table(struct random *r)
{
    struct buffer bytes = {0}, hardened = {0}, sheet = {0};
    uint32_t how = random_below(r, 10);
    if (how == 0)
        make_bytes(r, &bytes, 200);
    else
        make_table(r, &bytes);
    if (how > 6)
        damage_table(r, &bytes);
    else
        mutate_some(r, &bytes);
    struct answer answer = harden_table(&bytes, &hardened);
    print_all_faults(r, &bytes, answer);
    bool accepted = label_table(&bytes, &sheet).refusal == FLOW_ACCEPTED;
    if (accepted) {
        struct buffer listing = list(&bytes, random_percent(r, 50));
        buffer_free(&listing);
    }
    buffer_free(&bytes);
    buffer_free(&hardened);
    buffer_free(&sheet);
    return accepted;
}

int main(int argc, char **argv)
{
    static bool (*const tries[SORTS])(struct random *r) = {try_source, try_script, try_state, try_table, try_list};
    uint64_t seed = argc > 1 ? strtoull(argv[1], NULL, 10) : 1;
    unsigned count = argc > 2 ? (unsigned)strtoul(argv[2], NULL, 10) : INPUTS;
    struct counts counts = {0};
    for (unsigned number = 0; number < count; number++) {
        struct random random = random_from(seed, number);
        unsigned sort = number % SORTS;
        (*(tries[sort](&random) ? &counts.accepted[sort] : &counts.refused[sort]))++;
    }
    bool met = true;
    printf("fuzz: accepted and refused");
    for (unsigned sort = 0; sort < SORTS; sort++) {
        printf("%s %u and %u %s", sort == 0 ? "" : ",", counts.accepted[sort], counts.refused[sort], sorts[sort]);
        met = met && counts.accepted[sort] > 0 && counts.refused[sort] > 0;
    }
    printf("\n");
    return met ? 0 : 1;
}
