#include "text/words.h"

#include <inttypes.h>
#include <stdbool.h>
#include <string.h>

#include "records/kinds.h"
#include "records/little_endian.h"

const char *plural(size_t count)
{
    return count == 1 ? "" : "s";
}

const char *kind_in_words(unsigned kind)
{
    switch (kind) {
    case FLOW_HEADER: return "header";
    case FLOW_ARRAY: return "array";
    case FLOW_LABELS: return "labels";
    case FLOW_NUMBER: return "number";
    case FLOW_VARIABLE: return "variable";
    case FLOW_ADD: return "add";
    case FLOW_SUBTRACT: return "subtract";
    case FLOW_MULTIPLY: return "multiply";
    case FLOW_CHOICE: return "choice";
    case FLOW_CONSTANT: return "constant";
    case FLOW_EQUAL: return "equal";
    case FLOW_LESS: return "less";
    case FLOW_NOT: return "not";
    case FLOW_AND: return "and";
    case FLOW_SKIP: return "skip";
    case FLOW_ASSIGN: return "assign";
    case FLOW_SEQUENCE: return "sequence";
    case FLOW_IF: return "if";
    case FLOW_WHILE: return "while";
    case FLOW_READ: return "read";
    case FLOW_WRITE: return "write";
    default: return "unknown kind";
    }
}

const char *directive_in_words(unsigned kind)
{
    switch (kind) {
    case FLOW_STEP: return "step";
    case FLOW_FORCE: return "force";
    case FLOW_LOAD: return "load";
    case FLOW_STORE: return "store";
    case FLOW_ROLLBACK: return "rollback";
    default: return "no directive";
    }
}

/* ---- Names ---- */

/* Are the names just the letter and the number of each? */
static bool are_numbered(const char names[][NAME_BYTES], unsigned count, char letter)
{
    char name[NAME_BYTES];
    for (unsigned i = 0; i < count; i++) {
        snprintf(name, sizeof name, "%c%u", letter, i);
        if (strcmp(name, names[i]) != 0)
            return false;
    }
    return true;
}

static struct names_words list_names(const char names[][NAME_BYTES], unsigned count, char letter, const char *none)
{
    struct names_words list;
    size_t length = (size_t)snprintf(list.words, sizeof list.words, "%s", count == 0 ? none : names[0]);
    if (count > 2 && are_numbered(names, count, letter)) {
        snprintf(list.words + length, sizeof list.words - length, " to %s", names[count - 1]);
        return list;
    }
    for (unsigned i = 1; i < count; i++)
        length += (size_t)snprintf(list.words + length, sizeof list.words - length, ", %s", names[i]);
    return list;
}

struct names_words variables_in_words(const struct names *names, unsigned variables)
{
    return list_names(names->variable, variables, 'v', "no variable");
}

struct names_words arrays_in_words(const struct names *names)
{
    return list_names(names->array, names->arrays, 'a', "no array");
}

/* ---- Runs ---- */

/* An array and an index, each behind a blank.  Of a script's arrays not all need be declared. */
static void print_cell(FILE *to, const struct names *names, const uint8_t *fields)
{
    uint32_t array = get16(fields);
    if (names->declared && array < names->arrays)
        fprintf(to, " %s", names->array[array]);
    else
        fprintf(to, " %" PRIu32, array);
    fprintf(to, " %" PRIu32, get32(fields + 2));
}

void print_observation(FILE *to, const struct names *names, const uint8_t *record)
{
    const uint8_t *fields = record + RECORD_HEAD;
    unsigned kind = get16(record + 2);
    if (kind == FLOW_SHOWN_ROLLBACK)
        fprintf(to, "rollback");
    else if (kind == FLOW_SHOWN_BRANCH)
        fprintf(to, "branch %" PRIu32, get16(fields));
    else {
        fprintf(to, "%s", kind == FLOW_SHOWN_READ ? "read" : "write");
        print_cell(to, names, fields);
    }
}

void print_directive(FILE *to, const struct names *names, const uint8_t *record)
{
    const uint8_t *fields = record + RECORD_HEAD;
    unsigned kind = get16(record + 2);
    fprintf(to, "%s", directive_in_words(kind));
    if (kind == FLOW_LOAD || kind == FLOW_STORE)
        print_cell(to, names, fields);
}

/* How many records of a list stand from this byte on. */
static size_t records_from(const struct buffer *list, size_t at)
{
    size_t records = 0;
    for (; at < list->length; at += get16(list->bytes + at))
        records++;
    return records;
}

void print_observations(FILE *to, const char *indent, const struct names *names, const struct buffer *observations, size_t most)
{
    size_t at = 0;
    for (size_t printed = 0; printed < most && at < observations->length; printed++, at += get16(observations->bytes + at)) {
        fprintf(to, "%s", indent);
        print_observation(to, names, observations->bytes + at);
        fputc('\n', to);
    }
    if (observations->length == 0)
        fprintf(to, "%s(nothing)\n", indent);
    if (at < observations->length)
        fprintf(to, "%s(and %zu more)\n", indent, records_from(observations, at));
}

void print_directives(FILE *to, const struct names *names, const struct buffer *directives, size_t most)
{
    size_t at = 0;
    for (size_t printed = 0; printed < most && at < directives->length; printed++, at += get16(directives->bytes + at)) {
        fprintf(to, "%s", at == 0 ? "" : "; ");
        print_directive(to, names, directives->bytes + at);
    }
    if (directives->length == 0)
        fprintf(to, "(nothing)");
    if (at < directives->length)
        fprintf(to, " (and %zu more)", records_from(directives, at));
}
