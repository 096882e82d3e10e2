#include "text/source.h"

#include <inttypes.h>
#include <string.h>

#include "records/assemble.h"
#include "records/kinds.h"
#include "records/little_endian.h"
#include "records/versions.h"
#include "text/operators.h"
#include "text/text.h"

/*
 * Levels of commands and expressions inside one another.  The listing of a table takes no more of them than the table has nodes,
 * and two; the rest is for a writer's own parentheses.
 */
enum { MOST_NESTED = 5000 };
_Static_assert(MOST_NESTED >= FLOW_MAX_NODES + 2, "every listing must read");

struct parser {
    struct text text;
    struct source *source;
    unsigned version; /* as given; 0: the lowest that declares all variables */
    uint64_t secret_variables;
    uint32_t secret_arrays, cells;
    uint16_t counts[FLOW_MAX_ARRAYS];
    unsigned nested;
};

/* ---- Nodes ---- */

/* An expression: its node, its sort (a letter of kinds.h) and where it begins. */
struct part {
    unsigned node;
    char sort;
    unsigned line, column;
};

static struct part part_at(const struct token *start, unsigned node, char sort)
{
    return (struct part){node, sort, start->line, start->column};
}

static unsigned put_node(struct parser *p, unsigned kind, uint32_t one, uint32_t two, uint32_t three)
{
    const uint32_t fields[] = {one, two, three};
    if (p->text.failed)
        return 0;
    if (get16(p->source->table.bytes + 8) == FLOW_MAX_NODES) {
        text_fail(&p->text, &p->text.last, "more than %d nodes", FLOW_MAX_NODES);
        return 0;
    }
    return assemble_node(&p->source->table, kind, fields);
}

static void want(struct parser *p, const struct part *part, char sort)
{
    const struct token where = {.line = part->line, .column = part->column};
    if (part->sort != sort)
        text_fail(&p->text, &where, "a %s is wanted here, and this is a %s", sort == 'N' ? "number" : "truth",
                  sort == 'N' ? "truth" : "number");
}

/* Goes one level deeper; false, as an error, where that is too deep. */
static bool enter(struct parser *p)
{
    if (++p->nested > MOST_NESTED)
        text_fail(&p->text, &p->text.next, "nested too deep");
    return !p->text.failed;
}

/* ---- Names ---- */

static bool is_reserved(const struct token *token)
{
    static const char *const words[] = {"var",  "array", "secret", "if",  "then", "else", "while",
                                        "do",   "skip",  "and",    "not", "true", "false"};
    for (size_t i = 0; i < sizeof words / sizeof words[0]; i++)
        if (strlen(words[i]) == token->length && memcmp(words[i], token->at, token->length) == 0)
            return true;
    return false;
}

static int find_variable(const struct parser *p, const struct token *token)
{
    return token->kind == TOKEN_NAME ? variable_named(&p->source->names, token->at, token->length) : -1;
}

static int find_array(const struct parser *p, const struct token *token)
{
    return token->kind == TOKEN_NAME ? array_named(&p->source->names, token->at, token->length) : -1;
}

/* A name that nothing has yet, into `name`. */
static void declare_name(struct parser *p, char *name)
{
    struct token token = p->text.next;
    if (token.kind != TOKEN_NAME)
        text_fail(&p->text, &token, "a name is wanted here, not %s", token_in_words(&token).words);
    else if (is_reserved(&token))
        text_fail(&p->text, &token, "%s is a word of the language, and no name", token_in_words(&token).words);
    else if (token.length >= NAME_BYTES)
        text_fail(&p->text, &token, "the name is longer than %d bytes", NAME_BYTES - 1);
    else if (find_variable(p, &token) >= 0 || find_array(p, &token) >= 0)
        text_fail(&p->text, &token, "%s is declared already", token_in_words(&token).words);
    if (p->text.failed)
        return;
    memcpy(name, token.at, token.length);
    name[token.length] = 0;
    text_take(&p->text);
}

/* ---- Declarations ---- */

/* Fails at a variable that is one too many. */
static void fail_variables(struct parser *p)
{
    if (p->version == FLOW_VERSION)
        text_fail(&p->text, &p->text.next, "more than %d variables in version %d: version %d declares up to %d",
                  FLOW_MAX_VARIABLES_1, FLOW_VERSION, FLOW_VERSION_2, FLOW_MAX_VARIABLES);
    else
        text_fail(&p->text, &p->text.next, "more than %d variables", FLOW_MAX_VARIABLES);
}

static void declare_variable(struct parser *p, bool secret)
{
    struct names *names = &p->source->names;
    if (names->variables == flow_max_variables(p->version)) {
        fail_variables(p);
        return;
    }
    declare_name(p, names->variable[names->variables]);
    p->secret_variables |= (uint64_t)secret << names->variables;
    names->variables++;
}

static uint32_t read_count(struct parser *p)
{
    text_expect(&p->text, "[");
    struct token count = text_take(&p->text);
    if (count.kind != TOKEN_NUMBER)
        text_fail(&p->text, &count, "a cell count is wanted here, not %s", token_in_words(&count).words);
    else if (count.number == 0)
        text_fail(&p->text, &count, "an array has at least 1 cell");
    else if (count.number > FLOW_MAX_CELLS - p->cells)
        text_fail(&p->text, &count, "more than %d cells in all", FLOW_MAX_CELLS);
    text_expect(&p->text, "]");
    return p->text.failed ? 0 : count.number;
}

static void declare_array(struct parser *p, bool secret)
{
    struct names *names = &p->source->names;
    if (names->arrays == FLOW_MAX_ARRAYS) {
        text_fail(&p->text, &p->text.next, "more than %d arrays", FLOW_MAX_ARRAYS);
        return;
    }
    declare_name(p, names->array[names->arrays]);
    uint32_t count = read_count(p);
    p->cells += count;
    p->counts[names->arrays] = (uint16_t)count;
    p->secret_arrays |= (uint32_t)secret << names->arrays;
    names->arrays++;
}

static void refuse_semicolon(struct parser *p)
{
    if (text_is(&p->text, ";"))
        text_fail(&p->text, &p->text.next, "no ';' stands behind a declaration");
}

/* `version 2`, before all declarations.  It is no word of the language, but a command cannot begin so: no name is declared yet. */
static void read_version(struct parser *p)
{
    struct text *text = &p->text;
    if (!text_accept(text, "version"))
        return;
    struct token word = text->last, number = text->next;
    if (text_is(text, ":=") || text_is(text, "["))
        text_fail(text, &word, "%s is not declared", token_in_words(&word).words);
    else if (number.kind != TOKEN_NUMBER)
        text_miss(text, &number, "the number of a version");
    else if (!is_known_version(number.number))
        text_fail(text, &number, "version %" PRIu32 ", only %d and %d are known", number.number, FLOW_VERSION, FLOW_VERSION_2);
    else
        p->version = number.number;
    text_take(text);
    refuse_semicolon(p);
}

/* What is often written behind a declaration and does not belong there. */
static void end_declaration(struct parser *p, bool array)
{
    const struct token *next = &p->text.next;
    if (!array && text_is(&p->text, "["))
        text_fail(&p->text, next, "a variable has no cells: arrays are declared by 'array'");
    else if (next->kind == TOKEN_NAME && !is_reserved(next) && find_variable(p, next) < 0 && find_array(p, next) < 0)
        text_fail(&p->text, next, "%s is not declared: a comma is missing before it, or it is misspelt%s",
                  token_in_words(next).words, text_is(&p->text, "version") ? " (a version stands before all declarations)" : "");
    refuse_semicolon(p);
}

static void read_declarations(struct parser *p)
{
    while (text_is(&p->text, "secret") || text_is(&p->text, "var") || text_is(&p->text, "array")) {
        bool secret = text_accept(&p->text, "secret"), array = text_accept(&p->text, "array");
        if (!array)
            text_expect(&p->text, "var");
        do
            (array ? declare_array : declare_variable)(p, secret);
        while (text_accept(&p->text, ","));
        end_declaration(p, array);
    }
}

/* ---- Expressions ---- */

static struct part read_expression(struct parser *p, enum level weakest);

static struct part read_name_in_expression(struct parser *p, struct token start)
{
    int variable = find_variable(p, &start);
    if (variable >= 0 && text_is(&p->text, "["))
        text_fail(&p->text, &p->text.next, "%s is a variable, and has no cells", token_in_words(&start).words);
    if (variable >= 0)
        return part_at(&start, put_node(p, FLOW_VARIABLE, (uint32_t)variable, 0, 0), 'N');
    if (find_array(p, &start) >= 0)
        text_fail(&p->text, &start, "an array is read by a command of its own: x := %.*s[..]", (int)start.length, start.at);
    else if (start.kind == TOKEN_NAME && !is_reserved(&start))
        text_fail(&p->text, &start, "%s is not declared", token_in_words(&start).words);
    else
        text_fail(&p->text, &start, "an expression is wanted here, not %s", token_in_words(&start).words);
    return part_at(&start, 0, 'N');
}

/* Behind a minus that nothing stands before.  In its parentheses, what is to be written is right behind any operator. */
static void fail_sign(struct parser *p, const struct token *sign)
{
    if (p->text.next.kind == TOKEN_NUMBER)
        text_fail_sign(&p->text, sign, true);
    else
        text_fail(&p->text, sign, "there is no sign: for -a write (0 - a)");
}

/* What operators stand between: a number, a variable, a constant, not .., or an expression in parentheses. */
static struct part read_operand(struct parser *p)
{
    struct text *text = &p->text;
    struct token start = text->next;
    if (text_accept(text, "(")) {
        struct part inner = read_expression(p, LEVEL_CHOICE);
        text_expect(text, ")");
        return part_at(&start, inner.node, inner.sort);
    }
    if (text_accept(text, "not")) {
        struct part inner = read_expression(p, LEVEL_NOT);
        want(p, &inner, 'T');
        return part_at(&start, put_node(p, FLOW_NOT, inner.node, 0, 0), 'T');
    }
    bool is_true = text_is(text, "true"), is_false = text_is(text, "false"), is_sign = text_is(text, "-");
    text_take(text);
    if (is_sign)
        fail_sign(p, &start);
    if (is_true || is_false)
        return part_at(&start, put_node(p, FLOW_CONSTANT, is_true, 0, 0), 'T');
    if (start.kind == TOKEN_NUMBER)
        return part_at(&start, put_node(p, FLOW_NUMBER, start.number, 0, 0), 'N');
    return read_name_in_expression(p, start);
}

static const struct operator *next_operator(const struct parser *p, enum level weakest)
{
    for (const struct operator *o = operators; o->symbol != NULL; o++)
        if (o->level >= weakest && text_is(&p->text, o->symbol))
            return o;
    return NULL;
}

static const struct foreign_operator *next_foreign(const struct parser *p)
{
    for (const struct foreign_operator *o = foreign_operators; o->symbol != NULL; o++)
        if (text_is(&p->text, o->symbol))
            return o;
    return NULL;
}

static void refuse_foreign(struct parser *p)
{
    const struct foreign_operator *o = next_foreign(p);
    if (o != NULL)
        text_fail(&p->text, &p->text.next, "there is no '%s': for a %s b write %s", o->symbol, o->symbol, o->instead);
}

static struct part read_choice(struct parser *p, struct part condition)
{
    want(p, &condition, 'T');
    struct part yes = read_expression(p, LEVEL_CHOICE);
    want(p, &yes, 'N');
    text_expect(&p->text, ":");
    struct part no = read_expression(p, LEVEL_CHOICE);
    want(p, &no, 'N');
    condition.node = put_node(p, FLOW_CHOICE, condition.node, yes.node, no.node);
    condition.sort = 'N';
    return condition;
}

/* An expression whose operators, outside parentheses, bind at least so tightly. */
static struct part read_expression(struct parser *p, enum level weakest)
{
    if (!enter(p))
        return part_at(&p->text.next, 0, 'N');
    struct part left = read_operand(p);
    const struct operator *operator;
    while ((operator = next_operator(p, weakest)) != NULL) {
        want(p, &left, operator->operands);
        text_take(&p->text);
        struct part right = read_expression(p, operator->level + 1);
        want(p, &right, operator->operands);
        left.node = put_node(p, operator->kind, left.node, right.node, 0);
        left.sort = operator->result;
    }
    refuse_foreign(p);
    if (weakest == LEVEL_CHOICE && text_accept(&p->text, "?"))
        left = read_choice(p, left);
    p->nested--;
    return left;
}

static unsigned read_sort(struct parser *p, char sort)
{
    struct part part = read_expression(p, LEVEL_CHOICE);
    want(p, &part, sort);
    return part.node;
}

/* ---- Commands ---- */

static unsigned read_command(struct parser *p);
static unsigned read_single(struct parser *p);

/* Takes a semicolon.  Where no command can follow, it is one too many. */
static bool accept_semicolon(struct parser *p)
{
    if (!text_accept(&p->text, ";"))
        return false;
    if (p->text.next.kind == TOKEN_END || text_is(&p->text, ")") || text_is(&p->text, "else"))
        text_fail(&p->text, &p->text.last, "a ';' joins two commands, and none follows this one");
    return true;
}

/* Behind the first side of an if: a semicolon there is one too many, or belongs to a sequence without parentheses. */
static void read_else(struct parser *p)
{
    struct token next = p->text.next;
    if (accept_semicolon(p) || !text_accept(&p->text, "else"))
        text_fail(&p->text, &next,
                  "'else' is wanted here, not %s ('else skip' does nothing; a sequence stands in parentheses)",
                  token_in_words(&next).words);
}

static unsigned read_if(struct parser *p)
{
    unsigned condition = read_sort(p, 'T');
    text_expect(&p->text, "then");
    unsigned yes = read_single(p);
    read_else(p);
    unsigned no = read_single(p);
    return put_node(p, FLOW_IF, condition, yes, no);
}

static unsigned read_while(struct parser *p)
{
    unsigned condition = read_sort(p, 'T');
    text_expect(&p->text, "do");
    unsigned body = read_single(p);
    return put_node(p, FLOW_WHILE, condition, body, 0);
}

static unsigned read_index(struct parser *p)
{
    text_expect(&p->text, "[");
    unsigned index = read_sort(p, 'N');
    text_expect(&p->text, "]");
    return index;
}

static unsigned read_write(struct parser *p, uint32_t array)
{
    unsigned index = read_index(p);
    text_expect(&p->text, ":=");
    return put_node(p, FLOW_WRITE, array, index, read_sort(p, 'N'));
}

/* x := .., which reads an array where one is named. */
static unsigned read_assignment(struct parser *p, uint32_t variable)
{
    text_expect(&p->text, ":=");
    int array = find_array(p, &p->text.next);
    if (array < 0)
        return put_node(p, FLOW_ASSIGN, variable, read_sort(p, 'N'), 0);
    struct token name = text_take(&p->text);
    if (!text_is(&p->text, "["))
        text_fail(&p->text, &name, "%s is an array: a cell of it is %.*s[..]", token_in_words(&name).words, (int)name.length,
                  name.at);
    unsigned index = read_index(p);
    if (next_operator(p, LEVEL_CHOICE) != NULL || next_foreign(p) != NULL || text_is(&p->text, "?"))
        text_fail(&p->text, &p->text.next, "an array is read by a command of its own: nothing may stand behind it");
    return put_node(p, FLOW_READ, variable, (uint32_t)array, index);
}

static unsigned read_by_name(struct parser *p)
{
    struct token start = text_take(&p->text);
    int variable = find_variable(p, &start), array = find_array(p, &start);
    if (variable >= 0)
        return read_assignment(p, (uint32_t)variable);
    if (array >= 0)
        return read_write(p, (uint32_t)array);
    if (start.kind == TOKEN_NAME && !is_reserved(&start))
        text_fail(&p->text, &start, "%s is not declared", token_in_words(&start).words);
    else
        text_fail(&p->text, &start, "a command is wanted here, not %s", token_in_words(&start).words);
    return 0;
}

/* A command that is no sequence, or one in parentheses. */
static unsigned read_single(struct parser *p)
{
    unsigned node = 0;
    if (!enter(p))
        return node;
    if (text_accept(&p->text, "(")) {
        node = read_command(p);
        text_expect(&p->text, ")");
    } else if (text_accept(&p->text, "skip"))
        node = put_node(p, FLOW_SKIP, 0, 0, 0);
    else if (text_accept(&p->text, "if"))
        node = read_if(p);
    else if (text_accept(&p->text, "while"))
        node = read_while(p);
    else
        node = read_by_name(p);
    p->nested--;
    return node;
}

/* A command, or several with ; between them: the first, and then the rest as one. */
static unsigned read_command(struct parser *p)
{
    if (!enter(p))
        return 0;
    unsigned node = read_single(p);
    if (accept_semicolon(p)) {
        unsigned rest = read_command(p);
        node = put_node(p, FLOW_SEQUENCE, node, rest, 0);
    }
    p->nested--;
    return node;
}

/* Behind the program; most often it is a command before which the semicolon was forgotten. */
static void read_end(struct parser *p)
{
    const struct token *next = &p->text.next;
    if (p->text.failed || next->kind == TOKEN_END)
        return;
    if (next->kind == TOKEN_NAME || text_is(&p->text, "("))
        text_fail(&p->text, next, "';' is missing before %s", token_in_words(next).words);
    else
        text_fail(&p->text, next, "the program ends before %s", token_in_words(next).words);
}

bool assemble_source(struct source *source, const char *name, const struct buffer *text, FILE *errors)
{
    struct parser p = {.source = source};
    *source = (struct source){0};
    text_open(&p.text, name, text->bytes, text->length, errors);
    read_version(&p);
    read_declarations(&p);
    if (p.version == 0)
        p.version = lowest_version(source->names.variables);
    assemble_version(&source->table, p.version, source->names.variables, source->names.arrays, p.counts, p.secret_variables,
                     p.secret_arrays);
    read_command(&p);
    read_end(&p);
    return !p.text.failed;
}

void source_free(struct source *source)
{
    buffer_free(&source->table);
}
