#include "text/program.h"

#include <inttypes.h>
#include <string.h>

#include "records/assemble.h"
#include "records/little_endian.h"
#include "text/labels.h"
#include "text/operators.h"

enum {
    INDENT = 2,
    MOST_INDENTED = 30, /* levels: deeper ones stand no further to the right, so that the text grows as the table does */
    LABEL_COLUMN = 48
};

struct printer {
    FILE *to;
    const struct table *table;
    const struct names *names;
    const uint8_t *labels[FLOW_MAX_NODES]; /* the sheet's record of each node that has one */
    struct buffer line;
};

/* ---- Lines ---- */

static void add(struct printer *p, const char *words)
{
    buffer_append(&p->line, (const uint8_t *)words, strlen(words));
}

static void begin_line(struct printer *p, unsigned depth, const char *words)
{
    p->line.length = 0;
    for (unsigned i = 0; i < depth && i < MOST_INDENTED; i++)
        add(p, "  ");
    add(p, words);
}

static void end_line(struct printer *p, const char *after)
{
    add(p, after);
    fwrite(p->line.bytes, 1, p->line.length, p->to);
    fputc('\n', p->to);
}

/* The same, with a command's labels at the right. */
static void end_labelled(struct printer *p, unsigned node, const char *after)
{
    struct sheet_row row = get_sheet_row(p->labels[node], p->table->version);
    add(p, after);
    add(p, p->line.length + 2 < LABEL_COLUMN ? "" : "  ");
    while (p->line.length < LABEL_COLUMN)
        add(p, " ");
    add(p, "-- ");
    end_line(p, labels_in_words(&row).words);
}

/* ---- Expressions ---- */

static void add_expression(struct printer *p, unsigned node);

/* Parentheses stand where the text would not read back without them, and around comparisons between truths, as in document 01. */
static void add_operand(struct printer *p, unsigned node, enum level weakest)
{
    enum level level = level_of(table_kind(p->table, node));
    bool enclosed = level < weakest || (level == LEVEL_COMPARISON && weakest > LEVEL_CHOICE);
    add(p, enclosed ? "(" : "");
    add_expression(p, node);
    add(p, enclosed ? ")" : "");
}

static void add_binary(struct printer *p, unsigned node, const struct operator *operator)
{
    add_operand(p, table_field(p->table, node, 0), operator->level);
    add(p, " ");
    add(p, operator->symbol);
    add(p, " ");
    add_operand(p, table_field(p->table, node, 1), operator->level + 1);
}

static void add_choice(struct printer *p, unsigned node)
{
    add_operand(p, table_field(p->table, node, 0), LEVEL_NOT);
    add(p, " ? ");
    add_operand(p, table_field(p->table, node, 1), LEVEL_AND);
    add(p, " : ");
    add_operand(p, table_field(p->table, node, 2), LEVEL_AND);
}

static void add_expression(struct printer *p, unsigned node)
{
    unsigned kind = table_kind(p->table, node);
    uint32_t first = table_field(p->table, node, 0);
    char number[12];
    snprintf(number, sizeof number, "%" PRIu32, first);
    if (operator_of(kind) != NULL)
        add_binary(p, node, operator_of(kind));
    else if (kind == FLOW_CHOICE)
        add_choice(p, node);
    else if (kind == FLOW_NOT) {
        add(p, "not ");
        add_operand(p, first, LEVEL_NOT);
    } else if (kind == FLOW_CONSTANT)
        add(p, first ? "true" : "false");
    else
        add(p, kind == FLOW_VARIABLE ? p->names->variable[first] : number);
}

/* ---- Commands ---- */

static void print_command(struct printer *p, unsigned node, unsigned depth, const char *before, const char *after);

static void add_cell(struct printer *p, uint32_t array, unsigned index)
{
    add(p, p->names->array[array]);
    add(p, "[");
    add_expression(p, index);
    add(p, "]");
}

static void print_assign(struct printer *p, unsigned node, const char *after)
{
    add(p, p->names->variable[table_field(p->table, node, 0)]);
    add(p, " := ");
    add_expression(p, table_field(p->table, node, 1));
    end_line(p, after);
}

static void print_read(struct printer *p, unsigned node, const char *after)
{
    add(p, p->names->variable[table_field(p->table, node, 0)]);
    add(p, " := ");
    add_cell(p, table_field(p->table, node, 1), table_field(p->table, node, 2));
    end_labelled(p, node, after);
}

static void print_write(struct printer *p, unsigned node, const char *after)
{
    add_cell(p, table_field(p->table, node, 0), table_field(p->table, node, 1));
    add(p, " := ");
    add_expression(p, table_field(p->table, node, 2));
    end_labelled(p, node, after);
}

static bool is_kind(const struct printer *p, unsigned node, unsigned kind)
{
    return table_kind(p->table, node) == kind;
}

/* A body on lines of its own: what opens it has been printed, and a sequence gets its closing parenthesis. */
static void print_body(struct printer *p, unsigned node, unsigned depth, const char *after)
{
    bool sequence = is_kind(p, node, FLOW_SEQUENCE);
    print_command(p, node, depth + 1, "", sequence ? "" : after);
    if (sequence) {
        begin_line(p, depth, ")");
        end_line(p, after);
    }
}

static void print_while(struct printer *p, unsigned node, unsigned depth, const char *after)
{
    unsigned body = table_field(p->table, node, 1);
    add(p, "while ");
    add_expression(p, table_field(p->table, node, 0));
    end_labelled(p, node, is_kind(p, body, FLOW_SEQUENCE) ? " do (" : " do");
    print_body(p, body, depth, after);
}

/* Else, and an if behind it on the same line. */
static void print_if(struct printer *p, unsigned node, unsigned depth, const char *after)
{
    unsigned yes = table_field(p->table, node, 1), no = table_field(p->table, node, 2);
    bool sequence = is_kind(p, yes, FLOW_SEQUENCE);
    add(p, "if ");
    add_expression(p, table_field(p->table, node, 0));
    end_labelled(p, node, sequence ? " then (" : " then");
    print_command(p, yes, depth + 1, "", "");
    if (is_kind(p, no, FLOW_IF)) {
        print_command(p, no, depth, sequence ? ") else " : "else ", after);
        return;
    }
    begin_line(p, depth, sequence ? ") else" : "else");
    end_line(p, is_kind(p, no, FLOW_SEQUENCE) ? " (" : "");
    print_body(p, no, depth, after);
}

/* The first part is enclosed where it is a sequence itself; the second never is. */
static void print_sequence(struct printer *p, unsigned node, unsigned depth, const char *after)
{
    unsigned first = table_field(p->table, node, 0);
    if (is_kind(p, first, FLOW_SEQUENCE)) {
        begin_line(p, depth, "(");
        end_line(p, "");
        print_body(p, first, depth, ";");
    } else
        print_command(p, first, depth, "", ";");
    print_command(p, table_field(p->table, node, 1), depth, "", after);
}

/* `before` stands at the beginning of the command's first line, `after` at the end of its last. */
static void print_command(struct printer *p, unsigned node, unsigned depth, const char *before, const char *after)
{
    begin_line(p, depth, before);
    switch (table_kind(p->table, node)) {
    case FLOW_SKIP: add(p, "skip"), end_line(p, after); break;
    case FLOW_ASSIGN: print_assign(p, node, after); break;
    case FLOW_READ: print_read(p, node, after); break;
    case FLOW_WRITE: print_write(p, node, after); break;
    case FLOW_IF: print_if(p, node, depth, after); break;
    case FLOW_WHILE: print_while(p, node, depth, after); break;
    case FLOW_SEQUENCE: print_sequence(p, node, depth, after); break;
    }
}

/* ---- Programs ---- */

/* Those declared alike, one after the other, share a line. */
static void print_declarations(FILE *to, const char *what, unsigned count, uint64_t secret, const char (*names)[NAME_BYTES],
                               const uint32_t *counts)
{
    for (unsigned i = 0; i < count; i++) {
        bool first = i == 0 || (secret >> i & 1) != (secret >> (i - 1) & 1);
        if (first)
            fprintf(to, "%s%s%s %s", i == 0 ? "" : "\n", secret >> i & 1 ? "secret " : "", what, names[i]);
        else
            fprintf(to, ", %s", names[i]);
        if (counts != NULL)
            fprintf(to, "[%" PRIu32 "]", counts[i]);
    }
    if (count > 0)
        fputc('\n', to);
}

/* All that stands before the command: also the version, where it is another than the declarations alone would give. */
static void print_front(FILE *to, const struct table *table, const struct names *names)
{
    bool version_told = table->version != lowest_version(table->variables);
    if (version_told)
        fprintf(to, "version %u\n", table->version);
    print_declarations(to, "var", table->variables, table->secret.variables, names->variable, NULL);
    print_declarations(to, "array", table->arrays, table->secret.arrays, names->array, table->counts);
    if (version_told || table->variables + table->arrays > 0)
        fputc('\n', to);
}

void print_program(FILE *to, const struct table *table, const struct names *names, const struct buffer *sheet)
{
    struct printer p = {.to = to, .table = table, .names = names};
    struct sheet_row whole = get_sheet_row(sheet->bytes, table->version);
    for (size_t at = get16(sheet->bytes); at < sheet->length; at += get16(sheet->bytes + at))
        p.labels[get_sheet_row(sheet->bytes + at, table->version).node] = sheet->bytes + at;
    print_front(to, table, names);
    print_command(&p, table->nodes - 1, 0, "", "");
    fprintf(to, "-- at the end ");
    print_labelling(to, names, whole.labelling);
    fputc('\n', to);
    buffer_free(&p.line);
}
