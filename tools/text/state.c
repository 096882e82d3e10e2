#include "text/state.h"

#include <inttypes.h>
#include <string.h>

#include "files/messages.h"
#include "records/little_endian.h"
#include "text/operand.h"
#include "text/text.h"
#include "text/words.h"

static size_t state_words(const struct table *table, unsigned variables)
{
    return variables + table->cells;
}

/* The first cell of an array, among all cells. */
static size_t first_cell(const struct table *table, unsigned array)
{
    size_t first = 0;
    for (unsigned i = 0; i < array; i++)
        first += table->counts[i];
    return first;
}

void state_free(struct state *state)
{
    buffer_free(&state->words);
}

/* ---- Text ---- */

struct reader {
    struct text text;
    const char *hint;
    const struct table *table;
    const struct names *names;
    struct state *state;
    bool given[FLOW_MAX_VARIABLES + FLOW_MAX_CELLS]; /* by the word's place in the state */
};

/* Takes the number that is next as the word at this place. */
static void take_word(struct reader *reader, size_t place)
{
    struct text *text = &reader->text;
    text_want_number(text, "a word");
    if (reader->given[place])
        text_fail(text, &text->next, "this %s is given twice", place < reader->state->variables ? "variable" : "cell");
    if (text->failed)
        return;
    reader->given[place] = true;
    put32(reader->state->words.bytes + 4 * place, text_take(text).number);
}

static void read_variable(struct reader *reader, unsigned variable)
{
    const char *name = reader->names->variable[variable];
    struct token token = text_take(&reader->text);
    if (variable >= reader->state->variables)
        text_fail(&reader->text, &token, "%s is the flag: it is no part of a state, and starts at 0", name);
    else if (text_is(&reader->text, "["))
        text_fail(&reader->text, &reader->text.next, "%s is a variable, and has no cells", name);
    text_expect(&reader->text, "=");
    if (!reader->text.failed)
        take_word(reader, variable);
}

static void fail_beyond(struct reader *reader, unsigned array)
{
    text_fail(&reader->text, &reader->text.next, "%s has no cell beyond %" PRIu32, reader->names->array[array],
              reader->table->counts[array] - 1);
}

/* One cell: its index, a bracket, an equals sign and a word. */
static void read_cell(struct reader *reader, unsigned array, size_t first)
{
    struct text *text = &reader->text;
    struct token index = text->next;
    text_want_number(text, "an index");
    if (index.number >= reader->table->counts[array])
        fail_beyond(reader, array);
    text_take(text);
    text_expect(text, "]");
    text_expect(text, "=");
    if (!text->failed)
        take_word(reader, first + index.number);
}

/* Cells from the first one on: at least one word.  A sign is taken for a word's, so that it is told what to write. */
static void read_cells(struct reader *reader, unsigned array, size_t first)
{
    uint32_t cell = 0;
    text_expect(&reader->text, "=");
    do {
        if (cell == reader->table->counts[array])
            fail_beyond(reader, array);
        if (!reader->text.failed)
            take_word(reader, first + cell++);
    } while (reader->text.next.kind == TOKEN_NUMBER || text_is(&reader->text, "-"));
}

static void fail_unknown(struct reader *reader, const struct token *name)
{
    text_fail(&reader->text, name, "no variable or array %s: the table has %s and %s%s", token_in_words(name).words,
              variables_in_words(reader->names, reader->state->variables).words, arrays_in_words(reader->names).words,
              reader->hint);
}

static void read_item(struct reader *reader)
{
    struct token name = reader->text.next;
    if (name.kind != TOKEN_NAME) {
        text_fail(&reader->text, &name, "a variable or array is wanted here, not %s", token_in_words(&name).words);
        return;
    }
    int variable = variable_named(reader->names, name.at, name.length);
    int array = array_named(reader->names, name.at, name.length);
    if (variable >= 0) {
        read_variable(reader, (unsigned)variable);
    } else if (array < 0) {
        fail_unknown(reader, &name);
    } else {
        size_t first = reader->state->variables + first_cell(reader->table, (unsigned)array);
        text_take(&reader->text);
        if (text_accept(&reader->text, "["))
            read_cell(reader, (unsigned)array, first);
        else
            read_cells(reader, (unsigned)array, first);
    }
}

/* Items with a comma or a line break between them; what is not given is 0. */
static bool read_text(struct reader *reader, const struct operand *operand)
{
    size_t bytes = 4 * state_words(reader->table, reader->state->variables);
    buffer_reserve(&reader->state->words, bytes);
    if (bytes > 0)
        memset(reader->state->words.bytes, 0, bytes);
    reader->state->words.length = bytes;
    text_open(&reader->text, operand->name, operand->bytes.bytes, operand->bytes.length, stderr);
    while (reader->text.next.kind != TOKEN_END) {
        read_item(reader);
        if (text_line_goes_on(&reader->text))
            text_expect(&reader->text, ",");
        else
            text_accept(&reader->text, ",");
    }
    return !reader->text.failed;
}

/* ---- Files ---- */

/*
 * Few words hold no zero byte; then they are told by a byte that no text has, if they are as many as they should be: else it is
 * a text with a mistake.  An empty file could be either, but a state of zeros is not meant by one that was cut to nothing.
 */
static bool holds_words(const struct operand *operand, size_t wanted)
{
    const struct buffer *bytes = &operand->bytes;
    return bytes->length == 0 || operand_holds_zero(operand) ||
           (bytes->length == wanted && !can_be_text(bytes->bytes, bytes->length));
}

static bool take_words(const struct operand *operand, size_t wanted, struct state *state)
{
    if (operand->bytes.length != wanted) {
        complain(operand->name, "%zu bytes, but a state of this table takes %zu", operand->bytes.length, wanted);
        return false;
    }
    buffer_append(&state->words, operand->bytes.bytes, wanted);
    return true;
}

bool read_state(const char *argument, const char *called, const struct table *table, const struct names *names,
                unsigned variables, struct state *state)
{
    struct operand operand;
    size_t wanted = 4 * state_words(table, variables);
    bool read = operand_open(&operand, argument, called);
    *state = (struct state){.variables = variables};
    if (read && operand.file && holds_words(&operand, wanted)) {
        read = take_words(&operand, wanted, state);
    } else if (read) {
        struct reader reader = {.hint = operand.hint, .table = table, .names = names, .state = state};
        read = read_text(&reader, &operand);
    }
    operand_free(&operand);
    return read;
}

/* ---- Printing and comparing ---- */

/* How many words there are up to the last that is not 0. */
static size_t count_words(const uint8_t *words, size_t count)
{
    while (count > 0 && get32(words + 4 * (count - 1)) == 0)
        count--;
    return count;
}

static void print_words(FILE *to, char before, const uint8_t *words, size_t count)
{
    for (size_t i = 0; i < count; i++)
        fprintf(to, "%c%" PRIu32, i == 0 ? before : ' ', get32(words + 4 * i));
}

static void print_variables(FILE *to, const struct names *names, unsigned variables, const uint8_t *words)
{
    for (unsigned x = 0; x < variables; x++)
        fprintf(to, "%c%s=%" PRIu32, x == 0 ? ' ' : ',', names->variable[x], get32(words + 4 * x));
}

/* Of each array the first cell in any case. */
static void print_arrays(FILE *to, char before, const struct names *names, const struct table *table, const uint8_t *words)
{
    for (unsigned array = 0; array < table->arrays; array++) {
        const uint8_t *cells = words + 4 * first_cell(table, array);
        size_t count = count_words(cells, table->counts[array]);
        fprintf(to, "%c%s", array == 0 ? before : ',', names->array[array]);
        print_words(to, '=', cells, count > 0 ? count : 1);
    }
}

void print_state(FILE *to, const struct names *names, const struct table *table, unsigned variables,
                 const uint8_t *variable_words, const uint8_t *cell_words)
{
    print_variables(to, names, variables, variable_words);
    print_arrays(to, variables == 0 ? ' ' : ',', names, table, cell_words);
}

static void print_pending(FILE *to, const uint8_t *words, size_t count)
{
    size_t shown = count_words(words, count);
    print_words(to, ' ', words, shown);
    if (shown == 0)
        fprintf(to, " (zeros)");
}

void print_saves(FILE *to, const char *indent, const struct names *names, const struct table *table, const struct buffer *saves,
                 unsigned open_saves)
{
    size_t cells_from = 4 * (size_t)table->variables, pending_from = cells_from + 4 * table->cells;
    size_t place = pending_from + 4 * (size_t)table->nodes;
    for (unsigned i = 0; i < open_saves; i++) {
        const uint8_t *save = saves->bytes + i * place;
        fprintf(to, "%ssave %u:", indent, i + 1);
        print_state(to, names, table, table->variables, save, save + cells_from);
        fprintf(to, "; pending");
        print_pending(to, save + pending_from, table->nodes);
        fputc('\n', to);
    }
}

static bool same_words(const struct state states[2], size_t first, size_t count)
{
    return memcmp(states[0].words.bytes + 4 * first, states[1].words.bytes + 4 * first, 4 * count) == 0;
}

/* The first public variable or array in which they differ; -1: they do in none. */
static int differing_variable(const struct state states[2], const struct table *table)
{
    for (unsigned x = 0; x < states[0].variables; x++)
        if ((table->secret.variables >> x & 1) == 0 && !same_words(states, x, 1))
            return (int)x;
    return -1;
}

static int differing_array(const struct state states[2], const struct table *table)
{
    for (unsigned array = 0; array < table->arrays; array++)
        if ((table->secret.arrays >> array & 1) == 0 &&
            !same_words(states, states[0].variables + first_cell(table, array), table->counts[array]))
            return (int)array;
    return -1;
}

const char *public_difference(const struct state states[2], const struct table *table, const struct names *names)
{
    int variable = differing_variable(states, table), array = differing_array(states, table);
    return variable >= 0 ? names->variable[variable] : array >= 0 ? names->array[array] : NULL;
}
