#include "reference.h"

#include <stdbool.h>
#include <string.h>

#include "flow.h"
#include "records/kinds.h"
#include "records/little_endian.h"

/* ---- The table ---------------------------------------------------------------------------------------------------------- */

struct refusal {
    unsigned number; /* 0: none */
    uint64_t place;
};

struct program {
    const uint8_t *table;
    unsigned version, variables, arrays, nodes;
    uint64_t secret_variables;
    uint32_t secret_arrays;
    uint32_t cells;                        /* of all arrays */
    uint32_t counts[FLOW_MAX_ARRAYS];
    uint32_t first_cell[FLOW_MAX_ARRAYS];  /* where each array's cells begin */
    uint32_t place[FLOW_MAX_NODES];        /* the byte offset of each node's record */
    uint16_t uses[FLOW_MAX_NODES];         /* how often each node is a child */
};

static unsigned kind_at(const struct program *p, unsigned node)
{
    return get16(p->table + p->place[node] + 2);
}

/* Field number i of a node, where all fields before it have 2 bytes. */
static unsigned field_at(const struct program *p, unsigned node, unsigned i)
{
    return get16(p->table + p->place[node] + RECORD_HEAD + 2 * i);
}

static uint32_t number_at(const struct program *p, unsigned node)
{
    return get32(p->table + p->place[node] + RECORD_HEAD);
}

/* P7: how many variables a table of a version declares at most, and how many bytes its variable masks have. */
static unsigned most_variables(unsigned version)
{
    return version == 2 ? 64 : 32;
}

static unsigned mask_length(unsigned version)
{
    return version == 2 ? 8 : 4;
}

static size_t labels_length(unsigned version)
{
    return RECORD_HEAD + mask_length(version) + 2;
}

/* A walk along the table.  The first refusal stops it. */
struct reader {
    const uint8_t *table;
    size_t length;
    size_t at;
    struct refusal refusal;
};

static bool refuse(struct reader *r, unsigned number, size_t place)
{
    r->refusal.number = number;
    r->refusal.place = place;
    return false;
}

static bool head_remains(struct reader *r)
{
    return r->length - r->at >= RECORD_HEAD || refuse(r, FLOW_CUT, r->at);
}

/* Causes 2 and 1 (body) of a record that must have this kind and length. */
static bool is_record(struct reader *r, unsigned kind, size_t length)
{
    if (get16(r->table + r->at) != length || get16(r->table + r->at + 2) != kind)
        return refuse(r, FLOW_WRONG_RECORD, r->at);
    return r->length - r->at >= length || refuse(r, FLOW_CUT, r->at);
}

static bool read_header(struct reader *r, struct program *p)
{
    if (!head_remains(r) || !is_record(r, FLOW_HEADER, 10))
        return false;
    const uint8_t *fields = r->table + r->at + RECORD_HEAD;
    p->version = get16(fields);
    p->variables = fields[2];
    p->arrays = fields[3];
    p->nodes = get16(fields + 4);
    if ((p->version != 1 && p->version != 2) || p->variables > most_variables(p->version) || p->arrays > FLOW_MAX_ARRAYS ||
        p->nodes < 1 || p->nodes > FLOW_MAX_NODES)
        return refuse(r, FLOW_BEYOND_LIMITS, r->at);
    r->at += 10;
    return true;
}

/* Has the mask a bit from this number up?  A shift by 64 is not defined. */
static bool has_bit_from(uint64_t mask, unsigned number)
{
    return number < 64 && mask >> number != 0;
}

static bool read_labels(struct reader *r, struct program *p)
{
    size_t mask = mask_length(p->version), length = labels_length(p->version);
    if (!head_remains(r) || !is_record(r, FLOW_LABELS, length))
        return false;
    const uint8_t *fields = r->table + r->at + RECORD_HEAD;
    p->secret_variables = mask == 8 ? get64(fields) : get32(fields);
    p->secret_arrays = get16(fields + mask);
    if (has_bit_from(p->secret_variables, p->variables) || has_bit_from(p->secret_arrays, p->arrays))
        return refuse(r, FLOW_BEYOND_LIMITS, r->at);
    r->at += length;
    return true;
}

static bool read_array(struct reader *r, struct program *p, unsigned array)
{
    if (!head_remains(r) || !is_record(r, FLOW_ARRAY, 6))
        return false;
    uint32_t count = get16(r->table + r->at + RECORD_HEAD);
    if (count < 1 || p->cells + count > FLOW_MAX_CELLS)
        return refuse(r, FLOW_BEYOND_LIMITS, r->at);
    p->counts[array] = count;
    p->first_cell[array] = p->cells;
    p->cells += count;
    r->at += 6;
    return true;
}

static bool field_in_range(const struct program *p, unsigned node, char field, unsigned value)
{
    switch (field) {
    case 'n': return true;
    case 'b': return value <= 1;
    case 'x': return value < p->variables;
    case 'a': return value < p->arrays;
    default: return value < node;
    }
}

static bool read_node(struct reader *r, struct program *p, unsigned node)
{
    if (!head_remains(r))
        return false;
    unsigned kind = get16(r->table + r->at + 2);
    const char *fields = fields_of(kind);
    if (fields == NULL)
        return refuse(r, FLOW_WRONG_RECORD, r->at);
    size_t length = record_length(fields);
    if (!is_record(r, kind, length))
        return false;
    p->place[node] = (uint32_t)r->at;
    p->uses[node] = 0;
    /* range for all fields before sort for any: a child's kind may be looked up only once it is known to be below */
    for (unsigned i = 0; fields[i]; i++)
        if (!field_in_range(p, node, fields[i], field_at(p, node, i)))
            return refuse(r, FLOW_OUT_OF_RANGE, r->at);
    for (unsigned i = 0; fields[i]; i++)
        if (is_child(fields[i]) && sort_of(kind_at(p, field_at(p, node, i))) != fields[i])
            return refuse(r, FLOW_WRONG_SORT, r->at);
    for (unsigned i = 0; fields[i]; i++)
        if (is_child(fields[i]))
            p->uses[field_at(p, node, i)]++;
    r->at += length;
    return true;
}

static bool read_records(struct reader *r, struct program *p)
{
    if (!read_header(r, p) || !read_labels(r, p))
        return false;
    p->cells = 0;
    for (unsigned array = 0; array < p->arrays; array++)
        if (!read_array(r, p, array))
            return false;
    for (unsigned node = 0; node < p->nodes; node++)
        if (!read_node(r, p, node))
            return false;
    return true;
}

static bool breaks_tree_rule(const struct program *p, unsigned node)
{
    if (node + 1 < p->nodes)
        return p->uses[node] != 1;
    return sort_of(kind_at(p, node)) != 'C';
}

static struct refusal read_program(const uint8_t *table, size_t length, struct program *p)
{
    struct reader r = {.table = table, .length = length};
    p->table = table;
    if (!read_records(&r, p))
        return r.refusal;
    for (unsigned node = 0; node < p->nodes; node++) /* P1: the lowest-numbered node that breaks the rule */
        if (breaks_tree_rule(p, node))
            return (struct refusal){FLOW_NOT_A_TREE, p->place[node]};
    if (r.at < length)
        return (struct refusal){FLOW_EXTRA_BYTES, r.at};
    return (struct refusal){FLOW_ACCEPTED, 0};
}

/* ---- Labels ------------------------------------------------------------------------------------------------------------- */

struct labelling {
    uint64_t variables; /* bit n set: variable n is secret */
    uint32_t arrays;
};

static struct labelling join(struct labelling one, struct labelling other)
{
    return (struct labelling){one.variables | other.variables, one.arrays | other.arrays};
}

static bool same_labelling(struct labelling one, struct labelling other)
{
    return one.variables == other.variables && one.arrays == other.arrays;
}

/*
 * What the analysis knows of each node: for an expression, the variables that, where secret, make it secret; for a command, the
 * context, the labelling that enters it and the one that its sheet record is made from.  That is, of a sequence, the one after its
 * first part; of a loop, the settled one; of any other command, the one that enters it.  Inside a loop a later pass overwrites what
 * an earlier one noted, so the settled pass stays.
 */
struct analysis {
    const struct program *program;
    struct labelling final;
    uint64_t telling[FLOW_MAX_NODES];
    struct labelling entering[FLOW_MAX_NODES];
    struct labelling noted[FLOW_MAX_NODES];
    bool context[FLOW_MAX_NODES];
};

static bool is_secret(const struct analysis *a, unsigned expression, struct labelling at)
{
    return (a->telling[expression] & at.variables) != 0;
}

/* A number node of value 0; an expression that comes to 0 is none. */
static bool is_nought(const struct program *p, unsigned node)
{
    return kind_at(p, node) == FLOW_NUMBER && number_at(p, node) == 0;
}

/* P6: a product with such an operand is public, and no variable in it tells anything to an expression around it. */
static bool is_times_nought(const struct program *p, unsigned node)
{
    return kind_at(p, node) == FLOW_MULTIPLY && (is_nought(p, field_at(p, node, 0)) || is_nought(p, field_at(p, node, 1)));
}

/*
 * All variables in an expression count but those in a product with nought.  Children stand below their parents, so one pass in
 * rising order finds them for every expression.
 */
static void collect_variables(struct analysis *a)
{
    const struct program *p = a->program;
    for (unsigned node = 0; node < p->nodes; node++) {
        unsigned kind = kind_at(p, node);
        uint64_t in = 0;
        if (kind == FLOW_VARIABLE)
            in = (uint64_t)1 << field_at(p, node, 0);
        else if (sort_of(kind) != 'C' && !is_times_nought(p, node)) {
            const char *fields = fields_of(kind);
            for (unsigned i = 0; fields[i]; i++)
                if (is_child(fields[i]))
                    in |= a->telling[field_at(p, node, i)];
        }
        a->telling[node] = in;
    }
}

static struct labelling with_variable(struct labelling at, unsigned variable, bool secret)
{
    uint64_t bit = (uint64_t)1 << variable;
    at.variables = secret ? at.variables | bit : at.variables & ~bit;
    return at;
}

static bool read_label(const struct analysis *a, unsigned node, struct labelling at, bool context)
{
    const struct program *p = a->program;
    return is_secret(a, field_at(p, node, 2), at) || (at.arrays >> field_at(p, node, 1) & 1) != 0 || context;
}

static bool write_label(const struct analysis *a, unsigned node, struct labelling at, bool context)
{
    const struct program *p = a->program;
    return is_secret(a, field_at(p, node, 1), at) || is_secret(a, field_at(p, node, 2), at) || context;
}

static struct labelling analyse(struct analysis *a, unsigned node, struct labelling at, bool context);

static struct labelling analyse_if(struct analysis *a, unsigned node, struct labelling at, bool context)
{
    const struct program *p = a->program;
    context = context || is_secret(a, field_at(p, node, 0), at);
    struct labelling taken = analyse(a, field_at(p, node, 1), at, context);
    struct labelling other = analyse(a, field_at(p, node, 2), at, context);
    return join(taken, other);
}

/*
 * A loop inside a loop is analysed once for every pass of the outer one, and would each time climb again from where it was
 * entered: exponential in the nesting.  What enters it only grows during one analysis, and the settled labelling is the least
 * above what enters that a pass does not enlarge, so what it settled at before is below what it settles at now, and is where its
 * passes may as well start.
 */
static struct labelling analyse_while(struct analysis *a, unsigned node, struct labelling at, bool context)
{
    const struct program *p = a->program;
    unsigned condition = field_at(p, node, 0);
    unsigned body = field_at(p, node, 1);
    struct labelling after = join(at, a->noted[node]);
    do {
        at = after;
        after = join(at, analyse(a, body, at, context || is_secret(a, condition, at)));
    } while (!same_labelling(after, at));
    a->noted[node] = at;
    return at;
}

static struct labelling analyse(struct analysis *a, unsigned node, struct labelling at, bool context)
{
    const struct program *p = a->program;
    unsigned kind = kind_at(p, node);
    a->context[node] = context;
    a->entering[node] = at; /* of a loop too: its own passes, and where they start, come after this */
    if (kind == FLOW_WHILE)
        return analyse_while(a, node, at, context);
    a->noted[node] = at;
    switch (kind) {
    case FLOW_ASSIGN:
        return with_variable(at, field_at(p, node, 0), is_secret(a, field_at(p, node, 1), at) || context);
    case FLOW_SEQUENCE:
        at = analyse(a, field_at(p, node, 0), at, context);
        a->noted[node] = at;
        return analyse(a, field_at(p, node, 1), at, context);
    case FLOW_IF:
        return analyse_if(a, node, at, context);
    case FLOW_READ:
        return with_variable(at, field_at(p, node, 0), read_label(a, node, at, context));
    case FLOW_WRITE:
        at.arrays |= (uint32_t)write_label(a, node, at, context) << field_at(p, node, 0);
        return at;
    default: /* skip */
        return at;
    }
}

static void analyse_program(struct analysis *a, const struct program *p)
{
    a->program = p;
    collect_variables(a);
    for (unsigned node = 0; node < p->nodes; node++)
        a->noted[node] = (struct labelling){0, 0};
    a->final = analyse(a, p->nodes - 1, (struct labelling){p->secret_variables, p->secret_arrays}, false);
}

/* Whether the condition of an if or while is secret. */
static bool condition_label(const struct analysis *a, unsigned node)
{
    return is_secret(a, field_at(a->program, node, 0), a->noted[node]);
}

/* Whether the index of a read or write is secret. */
static bool index_label(const struct analysis *a, unsigned node)
{
    unsigned index = kind_at(a->program, node) == FLOW_READ ? 2 : 1;
    return is_secret(a, field_at(a->program, node, index), a->noted[node]);
}

/* Whether the variable that a read sets is secret after it. */
static bool variable_label(const struct analysis *a, unsigned node)
{
    return read_label(a, node, a->noted[node], a->context[node]);
}

/* ---- The label sheet ---------------------------------------------------------------------------------------------------- */

/* Bytes written one after another. */
struct writer {
    uint8_t *at;
};

static void write16(struct writer *w, uint32_t value)
{
    put16(w->at, value);
    w->at += 2;
}

static void write32(struct writer *w, uint32_t value)
{
    put32(w->at, value);
    w->at += 4;
}

static void write64(struct writer *w, uint64_t value)
{
    put64(w->at, value);
    w->at += 8;
}

/* Into a record of a table or sheet of this version. */
static void write_masks(struct writer *w, unsigned version, struct labelling masks)
{
    if (mask_length(version) == 8)
        write64(w, masks.variables);
    else
        write32(w, (uint32_t)masks.variables);
    write16(w, masks.arrays);
}

static void write_head(struct writer *w, uint32_t length, uint32_t kind)
{
    write16(w, length);
    write16(w, kind);
}

/* The length of the sheet's first record, and of the record of a node of this kind: with a mask they depend on the version. */
static uint32_t sheet_header_length(unsigned version)
{
    return 10 + mask_length(version);
}

static uint32_t sheet_record_length(unsigned version, unsigned kind)
{
    switch (kind) {
    case FLOW_SEQUENCE: return 8 + mask_length(version);
    case FLOW_IF: return 8;
    case FLOW_WHILE: return 10 + mask_length(version);
    case FLOW_READ: return 10;
    case FLOW_WRITE: return 8;
    default: return 0;
    }
}

static size_t sheet_length(const struct program *p)
{
    size_t length = sheet_header_length(p->version);
    for (unsigned node = 0; node < p->nodes; node++)
        length += sheet_record_length(p->version, kind_at(p, node));
    return length;
}

static void write_sheet_head(struct writer *w, uint32_t length, uint32_t kind, unsigned node)
{
    write_head(w, length, kind);
    write16(w, node);
}

static void write_sheet_record(struct writer *w, const struct analysis *a, unsigned node)
{
    unsigned version = a->program->version, kind = kind_at(a->program, node);
    uint32_t length = sheet_record_length(version, kind);
    switch (kind) {
    case FLOW_SEQUENCE:
        write_sheet_head(w, length, FLOW_SHEET_SEQUENCE, node);
        write_masks(w, version, a->noted[node]);
        break;
    case FLOW_IF:
        write_sheet_head(w, length, FLOW_SHEET_IF, node);
        write16(w, condition_label(a, node));
        break;
    case FLOW_WHILE:
        write_sheet_head(w, length, FLOW_SHEET_WHILE, node);
        write16(w, condition_label(a, node));
        write_masks(w, version, a->noted[node]);
        break;
    case FLOW_READ:
        write_sheet_head(w, length, FLOW_SHEET_READ, node);
        write16(w, variable_label(a, node));
        write16(w, index_label(a, node));
        break;
    case FLOW_WRITE:
        write_sheet_head(w, length, FLOW_SHEET_WRITE, node);
        write16(w, index_label(a, node));
        break;
    }
}

static void write_sheet(uint8_t *out, const struct analysis *a)
{
    const struct program *p = a->program;
    struct writer w = {out};
    write_head(&w, sheet_header_length(p->version), FLOW_SHEET);
    write16(&w, p->version);
    write16(&w, p->nodes);
    write_masks(&w, p->version, a->final);
    for (unsigned node = 0; node < p->nodes; node++)
        write_sheet_record(&w, a, node);
}

/* ---- The hardened table ------------------------------------------------------------------------------------------------- */

/* A table being written.  Nodes get their numbers in the order in which they are written: parts first, then the parent. */
struct hardener {
    const struct analysis *analysis;
    const struct program *program;
    struct writer out;
    unsigned nodes;
    unsigned flag; /* its variable number */
};

static unsigned put_leaf(struct hardener *h, unsigned kind, unsigned field)
{
    write_head(&h->out, 6, kind);
    write16(&h->out, field);
    return h->nodes++;
}

static unsigned put_pair(struct hardener *h, unsigned kind, unsigned one, unsigned two)
{
    write_head(&h->out, 8, kind);
    write16(&h->out, one);
    write16(&h->out, two);
    return h->nodes++;
}

static unsigned put_triple(struct hardener *h, unsigned kind, unsigned one, unsigned two, unsigned three)
{
    write_head(&h->out, 10, kind);
    write16(&h->out, one);
    write16(&h->out, two);
    write16(&h->out, three);
    return h->nodes++;
}

static unsigned put_number(struct hardener *h, uint32_t value)
{
    write_head(&h->out, 8, FLOW_NUMBER);
    write32(&h->out, value);
    return h->nodes++;
}

static unsigned put_flag(struct hardener *h)
{
    return put_leaf(h, FLOW_VARIABLE, h->flag);
}

/* flag = value */
static unsigned put_flag_test(struct hardener *h, uint32_t value)
{
    unsigned flag = put_flag(h);
    unsigned number = put_number(h, value);
    return put_pair(h, FLOW_EQUAL, flag, number);
}

static unsigned put_copy(struct hardener *h, unsigned node)
{
    const struct program *p = h->program;
    unsigned kind = kind_at(p, node);
    switch (kind) {
    case FLOW_NUMBER:
        return put_number(h, number_at(p, node));
    case FLOW_VARIABLE:
    case FLOW_CONSTANT:
        return put_leaf(h, kind, field_at(p, node, 0));
    case FLOW_NOT:
        return put_leaf(h, kind, put_copy(h, field_at(p, node, 0)));
    case FLOW_CHOICE: {
        unsigned truth = put_copy(h, field_at(p, node, 0));
        unsigned one = put_copy(h, field_at(p, node, 1));
        unsigned two = put_copy(h, field_at(p, node, 2));
        return put_triple(h, kind, truth, one, two);
    }
    default: {
        unsigned one = put_copy(h, field_at(p, node, 0));
        unsigned two = put_copy(h, field_at(p, node, 1));
        return put_pair(h, kind, one, two);
    }
    }
}

/* c' of an if or while: the condition, and where it is secret (flag = 0) and the condition. */
static unsigned put_condition(struct hardener *h, unsigned node)
{
    unsigned condition = field_at(h->program, node, 0);
    if (!condition_label(h->analysis, node))
        return put_copy(h, condition);
    unsigned clear = put_flag_test(h, 0);
    unsigned copy = put_copy(h, condition);
    return put_pair(h, FLOW_AND, clear, copy);
}

/* The index of a read or write, and where it is secret (flag = 1) ? 0 : index. */
static unsigned put_index(struct hardener *h, unsigned node, unsigned index)
{
    if (!index_label(h->analysis, node))
        return put_copy(h, index);
    unsigned set = put_flag_test(h, 1);
    unsigned zero = put_number(h, 0);
    unsigned copy = put_copy(h, index);
    return put_triple(h, FLOW_CHOICE, set, zero, copy);
}

/* flag := c' ? flag : 1, where the condition must have held to come here. */
static unsigned put_flag_where_true(struct hardener *h, unsigned node)
{
    unsigned condition = put_condition(h, node);
    unsigned flag = put_flag(h);
    unsigned one = put_number(h, 1);
    return put_pair(h, FLOW_ASSIGN, h->flag, put_triple(h, FLOW_CHOICE, condition, flag, one));
}

/* flag := c' ? 1 : flag, where the condition must have failed to come here. */
static unsigned put_flag_where_false(struct hardener *h, unsigned node)
{
    unsigned condition = put_condition(h, node);
    unsigned one = put_number(h, 1);
    unsigned flag = put_flag(h);
    return put_pair(h, FLOW_ASSIGN, h->flag, put_triple(h, FLOW_CHOICE, condition, one, flag));
}

/* variable := (flag = 1) ? 0 : variable */
static unsigned put_value_mask(struct hardener *h, unsigned variable)
{
    unsigned set = put_flag_test(h, 1);
    unsigned zero = put_number(h, 0);
    unsigned value = put_leaf(h, FLOW_VARIABLE, variable);
    return put_pair(h, FLOW_ASSIGN, variable, put_triple(h, FLOW_CHOICE, set, zero, value));
}

static unsigned put_command(struct hardener *h, unsigned node);

static unsigned put_if(struct hardener *h, unsigned node)
{
    unsigned condition = put_condition(h, node);
    unsigned update = put_flag_where_true(h, node);
    unsigned side = put_command(h, field_at(h->program, node, 1));
    unsigned taken = put_pair(h, FLOW_SEQUENCE, update, side);
    update = put_flag_where_false(h, node);
    side = put_command(h, field_at(h->program, node, 2));
    unsigned other = put_pair(h, FLOW_SEQUENCE, update, side);
    return put_triple(h, FLOW_IF, condition, taken, other);
}

static unsigned put_while(struct hardener *h, unsigned node)
{
    unsigned condition = put_condition(h, node);
    unsigned update = put_flag_where_true(h, node);
    unsigned body = put_command(h, field_at(h->program, node, 1));
    body = put_pair(h, FLOW_SEQUENCE, update, body);
    unsigned loop = put_pair(h, FLOW_WHILE, condition, body);
    update = put_flag_where_false(h, node);
    return put_pair(h, FLOW_SEQUENCE, loop, update);
}

static unsigned put_read(struct hardener *h, unsigned node)
{
    unsigned variable = field_at(h->program, node, 0);
    unsigned array = field_at(h->program, node, 1);
    unsigned index = put_index(h, node, field_at(h->program, node, 2));
    unsigned read = put_triple(h, FLOW_READ, variable, array, index);
    if (variable_label(h->analysis, node) || index_label(h->analysis, node))
        return read;
    unsigned mask = put_value_mask(h, variable);
    return put_pair(h, FLOW_SEQUENCE, read, mask);
}

static unsigned put_write(struct hardener *h, unsigned node)
{
    unsigned array = field_at(h->program, node, 0);
    unsigned index = put_index(h, node, field_at(h->program, node, 1));
    unsigned value = put_copy(h, field_at(h->program, node, 2));
    return put_triple(h, FLOW_WRITE, array, index, value);
}

static unsigned put_command(struct hardener *h, unsigned node)
{
    const struct program *p = h->program;
    switch (kind_at(p, node)) {
    case FLOW_ASSIGN:
        return put_pair(h, FLOW_ASSIGN, field_at(p, node, 0), put_copy(h, field_at(p, node, 1)));
    case FLOW_SEQUENCE: {
        unsigned first = put_command(h, field_at(p, node, 0));
        unsigned second = put_command(h, field_at(p, node, 1));
        return put_pair(h, FLOW_SEQUENCE, first, second);
    }
    case FLOW_IF: return put_if(h, node);
    case FLOW_WHILE: return put_while(h, node);
    case FLOW_READ: return put_read(h, node);
    case FLOW_WRITE: return put_write(h, node);
    default: /* skip */
        write_head(&h->out, RECORD_HEAD, FLOW_SKIP);
        return h->nodes++;
    }
}

/* P7: version 2 where the input is, or where 33 variables are declared. */
static unsigned hardened_version(const struct program *p)
{
    return p->version == 2 || p->variables + 1 == 33 ? 2 : 1;
}

/* The input's declarations with a variable more.  The header's number of nodes is still to come. */
static void write_declarations(struct writer *w, const struct program *p)
{
    unsigned version = hardened_version(p);
    size_t arrays = 6 * (size_t)p->arrays;
    write_head(w, 10, FLOW_HEADER);
    write16(w, version);
    write16(w, (p->variables + 1) | p->arrays << 8);
    write16(w, 0);
    write_head(w, (uint32_t)labels_length(version), FLOW_LABELS);
    write_masks(w, version, (struct labelling){p->secret_variables, p->secret_arrays});
    memcpy(w->at, p->table + 10 + labels_length(p->version), arrays);
    w->at += arrays;
}

/* Writes the hardened table to `out`, which has FLOW_TABLE_BYTES, and returns its length. */
static size_t write_hardened(uint8_t *out, const struct analysis *a)
{
    const struct program *p = a->program;
    struct hardener h = {.analysis = a, .program = p, .out = {out}, .flag = p->variables};
    write_declarations(&h.out, p);
    put_command(&h, p->nodes - 1);
    put16(out + 8, h.nodes);
    return (size_t)(h.out.at - out);
}

/* ---- The machines ------------------------------------------------------------------------------------------------------- */

struct machine {
    const struct program *program;
    uint8_t *variables, *cells, *pending, *observations;
    const uint8_t *directives; /* the next one; without guessing, NULL */
    const uint8_t *directives_end;
    size_t observations_length, shown;
    uint32_t steps, used, waiting; /* waiting: entries of the pending list */
    bool flag;
};

static bool truth(const struct machine *m, unsigned node);

static uint32_t numeric(const struct machine *m, unsigned node)
{
    const struct program *p = m->program;
    switch (kind_at(p, node)) {
    case FLOW_NUMBER: return number_at(p, node);
    case FLOW_VARIABLE: return get32(m->variables + 4 * field_at(p, node, 0));
    case FLOW_ADD: return numeric(m, field_at(p, node, 0)) + numeric(m, field_at(p, node, 1));
    case FLOW_SUBTRACT: return numeric(m, field_at(p, node, 0)) - numeric(m, field_at(p, node, 1));
    case FLOW_MULTIPLY: return numeric(m, field_at(p, node, 0)) * numeric(m, field_at(p, node, 1));
    default: /* choice */
        return numeric(m, field_at(p, node, truth(m, field_at(p, node, 0)) ? 1 : 2));
    }
}

static bool truth(const struct machine *m, unsigned node)
{
    const struct program *p = m->program;
    switch (kind_at(p, node)) {
    case FLOW_CONSTANT: return field_at(p, node, 0) != 0;
    case FLOW_EQUAL: return numeric(m, field_at(p, node, 0)) == numeric(m, field_at(p, node, 1));
    case FLOW_LESS: return numeric(m, field_at(p, node, 0)) < numeric(m, field_at(p, node, 1));
    case FLOW_NOT: return !truth(m, field_at(p, node, 0));
    default: /* and */
        return truth(m, field_at(p, node, 0)) && truth(m, field_at(p, node, 1));
    }
}

static void push(struct machine *m, unsigned node)
{
    put32(m->pending + 4 * m->waiting, node);
    m->waiting++;
}

static unsigned next_node(const struct machine *m)
{
    return m->waiting == 0 ? 0 : get32(m->pending + 4 * (m->waiting - 1));
}

static unsigned directive_kind(const struct machine *m)
{
    return m->directives == NULL ? FLOW_STEP : get16(m->directives + 2);
}

static void use_directive(struct machine *m)
{
    if (m->directives == NULL)
        return;
    m->directives += get16(m->directives);
    m->used++;
}

static void set_variable(struct machine *m, unsigned variable, uint32_t value)
{
    put32(m->variables + 4 * variable, value);
}

/* Takes a branch off the list and puts back what goes on where its condition counts as `goes`. */
static void go_on(struct machine *m, unsigned node, bool goes)
{
    const struct program *p = m->program;
    m->waiting--;
    if (kind_at(p, node) == FLOW_IF)
        push(m, field_at(p, node, goes ? 1 : 2));
    else if (goes) {
        push(m, node);
        push(m, field_at(p, node, 1));
    }
}

/* A step's answer: 0 if it was taken, else the end that stands in its way, with nothing changed. */
typedef unsigned end_or_none;

static end_or_none step_branch(struct machine *m, unsigned node)
{
    const struct program *p = m->program;
    unsigned directive = directive_kind(m);
    if (directive != FLOW_STEP && directive != FLOW_FORCE)
        return FLOW_STUCK;
    if (m->observations_length - m->shown < 6)
        return FLOW_FULL;
    bool value = truth(m, field_at(p, node, 0));
    struct writer w = {m->observations + m->shown};
    write_head(&w, 6, FLOW_SHOWN_BRANCH);
    write16(&w, value);
    m->shown += 6;
    bool goes = value;
    if (directive == FLOW_FORCE) {
        goes = !value;
        m->flag = true;
    }
    go_on(m, node, goes);
    use_directive(m);
    return 0;
}

/*
 * Finds the cell that a read (other = load) or write (other = store) uses: in bounds its own, whatever the directive names.
 * False: index or directive does not fit.
 */
static bool find_cell(const struct machine *m, unsigned array, uint32_t index, unsigned other, uint32_t *cell)
{
    const struct program *p = m->program;
    unsigned directive = directive_kind(m);
    if (index < p->counts[array]) {
        *cell = p->first_cell[array] + index;
        return directive == FLOW_STEP || directive == other;
    }
    if (directive != other || !m->flag)
        return false;
    unsigned named_array = get16(m->directives + RECORD_HEAD);
    uint32_t named_index = get32(m->directives + RECORD_HEAD + 2);
    if (named_array >= p->arrays || named_index >= p->counts[named_array])
        return false;
    *cell = p->first_cell[named_array] + named_index;
    return true;
}

static void show_access(struct machine *m, unsigned kind, unsigned array, uint32_t index)
{
    struct writer w = {m->observations + m->shown};
    write_head(&w, 10, kind);
    write16(&w, array);
    write32(&w, index);
    m->shown += 10;
}

static end_or_none step_read(struct machine *m, unsigned node)
{
    const struct program *p = m->program;
    unsigned array = field_at(p, node, 1);
    uint32_t index = numeric(m, field_at(p, node, 2));
    uint32_t cell;
    if (!find_cell(m, array, index, FLOW_LOAD, &cell))
        return FLOW_STUCK;
    if (m->observations_length - m->shown < 10)
        return FLOW_FULL;
    show_access(m, FLOW_SHOWN_READ, array, index);
    set_variable(m, field_at(p, node, 0), get32(m->cells + 4 * cell));
    m->waiting--;
    use_directive(m);
    return 0;
}

static end_or_none step_write(struct machine *m, unsigned node)
{
    const struct program *p = m->program;
    unsigned array = field_at(p, node, 0);
    uint32_t index = numeric(m, field_at(p, node, 1));
    uint32_t cell;
    if (!find_cell(m, array, index, FLOW_STORE, &cell))
        return FLOW_STUCK;
    if (m->observations_length - m->shown < 10)
        return FLOW_FULL;
    show_access(m, FLOW_SHOWN_WRITE, array, index);
    put32(m->cells + 4 * cell, numeric(m, field_at(p, node, 2)));
    m->waiting--;
    use_directive(m);
    return 0;
}

static void step_silently(struct machine *m, unsigned node)
{
    const struct program *p = m->program;
    m->waiting--;
    switch (kind_at(p, node)) {
    case FLOW_ASSIGN:
        set_variable(m, field_at(p, node, 0), numeric(m, field_at(p, node, 1)));
        break;
    case FLOW_SEQUENCE:
        push(m, field_at(p, node, 1));
        push(m, field_at(p, node, 0));
        break;
    }
}

static end_or_none step_shown(struct machine *m, unsigned node, unsigned kind)
{
    if (m->directives != NULL && m->directives == m->directives_end)
        return FLOW_OUT_OF_DIRECTIVES;
    switch (kind) {
    case FLOW_READ: return step_read(m, node);
    case FLOW_WRITE: return step_write(m, node);
    default: return step_branch(m, node);
    }
}

static unsigned run_machine(struct machine *m, uint32_t budget)
{
    for (;;) {
        if (m->waiting == 0)
            return FLOW_FINISHED;
        if (m->steps == budget)
            return FLOW_SPENT;
        unsigned node = next_node(m);
        unsigned kind = kind_at(m->program, node);
        if (kind == FLOW_SKIP || kind == FLOW_ASSIGN || kind == FLOW_SEQUENCE)
            step_silently(m, node);
        else {
            end_or_none end = step_shown(m, node, kind);
            if (end != 0)
                return end;
        }
        m->steps++;
    }
}

/* ---- The machine that rolls back ---------------------------------------------------------------------------------------- */

/* A guessing machine and the saves that its forces opened. */
struct rolling {
    struct machine machine;
    uint8_t *saves; /* FLOW_MAX_SAVES places of variables, cells and pending list, the oldest first */
    uint32_t waiting[FLOW_MAX_SAVES]; /* entries of each save's list */
    unsigned open;
};

static size_t place_length(const struct program *p)
{
    return 4 * ((size_t)p->variables + p->cells + p->nodes);
}

/* Any of the pointers may be NULL where there are no words. */
static void copy_words(uint8_t *to, const uint8_t *from, size_t count)
{
    if (count > 0)
        memcpy(to, from, 4 * count);
}

/* Variables, cells and the used part of the list go from one machine's memory to the other's. */
static void copy_state(struct machine *to, const struct machine *from)
{
    const struct program *p = from->program;
    copy_words(to->variables, from->variables, p->variables);
    copy_words(to->cells, from->cells, p->cells);
    copy_words(to->pending, from->pending, from->waiting);
    to->waiting = from->waiting;
}

/* A place of the saves, seen as the memory of a machine. */
static struct machine machine_at_place(const struct rolling *r, unsigned place)
{
    const struct program *p = r->machine.program;
    struct machine saved = {.program = p, .waiting = r->waiting[place]};
    saved.variables = r->saves + place * place_length(p);
    saved.cells = saved.variables + 4 * p->variables;
    saved.pending = saved.cells + 4 * p->cells;
    return saved;
}

static void clear_list(struct machine *m)
{
    memset(m->pending + 4 * m->waiting, 0, 4 * (m->program->nodes - m->waiting));
}

/* Before a force at the branch: puts the state of the right side into the first place that is free. */
static void save_right_side(struct rolling *r, unsigned branch)
{
    struct machine saved = machine_at_place(r, r->open);
    copy_state(&saved, &r->machine);
    go_on(&saved, branch, truth(&saved, field_at(saved.program, branch, 0)));
    clear_list(&saved);
    r->waiting[r->open] = saved.waiting;
}

static end_or_none step_back(struct rolling *r)
{
    struct machine *m = &r->machine;
    if (r->open == 0)
        return FLOW_STUCK;
    if (m->observations_length - m->shown < 4)
        return FLOW_FULL;
    struct writer w = {m->observations + m->shown};
    write_head(&w, 4, FLOW_SHOWN_ROLLBACK);
    m->shown += 4;
    r->open--;
    struct machine saved = machine_at_place(r, r->open);
    copy_state(m, &saved);
    m->flag = r->open > 0;
    use_directive(m);
    m->steps++;
    return 0;
}

static bool is_next(const struct machine *m, unsigned directive)
{
    return m->directives != m->directives_end && directive_kind(m) == directive;
}

/* A step of the guessing machine. */
static end_or_none step_forward(struct rolling *r)
{
    struct machine *m = &r->machine;
    unsigned node = next_node(m), kind = kind_at(m->program, node);
    bool forced = (kind == FLOW_IF || kind == FLOW_WHILE) && is_next(m, FLOW_FORCE);
    if (forced && r->open == FLOW_MAX_SAVES)
        return FLOW_STUCK;
    if (forced)
        save_right_side(r, node);
    uint32_t before = m->steps;
    unsigned end = run_machine(m, before + 1);
    if (m->steps == before)
        return end; /* a place that was filled stays free, and is cleared after the run */
    r->open += forced;
    return 0;
}

static unsigned run_rolling(struct rolling *r, uint32_t budget)
{
    struct machine *m = &r->machine;
    for (;;) {
        bool back = is_next(m, FLOW_ROLLBACK);
        if (!back && m->waiting == 0)
            return FLOW_FINISHED;
        if (m->steps == budget)
            return FLOW_SPENT;
        end_or_none end = back ? step_back(r) : step_forward(r);
        if (end != 0)
            return end;
    }
}

/* ---- The entries -------------------------------------------------------------------------------------------------------- */

static void write_answer(uint8_t *answer, size_t length, const uint64_t *numbers, size_t count)
{
    for (size_t i = 0; i < count && length - 8 * i >= 8; i++)
        put64(answer + 8 * i, numbers[i]);
}

static uint64_t answer_refusal(struct refusal refusal, uint8_t *answer, size_t answer_len)
{
    uint64_t numbers[] = {refusal.number, refusal.place};
    write_answer(answer, answer_len, numbers, 2);
    return refusal.number;
}

static uint64_t answer_number(unsigned number, uint8_t *answer, size_t answer_len)
{
    return answer_refusal((struct refusal){number, 0}, answer, answer_len);
}

static uint64_t answer_length(size_t length, uint8_t *answer, size_t answer_len)
{
    uint64_t numbers[] = {FLOW_ACCEPTED, length};
    write_answer(answer, answer_len, numbers, 2);
    return FLOW_ACCEPTED;
}

uint64_t reference_sheet(const uint8_t *table, size_t table_len,
                         uint8_t *sheet, size_t sheet_len,
                         uint8_t *answer, size_t answer_len)
{
    struct program p;
    struct refusal refusal = read_program(table, table_len, &p);
    if (refusal.number != FLOW_ACCEPTED)
        return answer_refusal(refusal, answer, answer_len);
    size_t length = sheet_length(&p);
    if (length > sheet_len)
        return answer_number(FLOW_OUTPUT_SHORT, answer, answer_len);
    struct analysis a;
    analyse_program(&a, &p);
    write_sheet(sheet, &a);
    return answer_length(length, answer, answer_len);
}

static bool is_question(const struct program *p, unsigned node, unsigned variable)
{
    return node < p->nodes && sort_of(kind_at(p, node)) == 'C' && variable < p->variables;
}

static bool is_question_list(const struct program *p, const uint8_t *questions, size_t length)
{
    if (length > FLOW_MAX_QUESTIONS * FLOW_QUESTION_BYTES || length % FLOW_QUESTION_BYTES != 0)
        return false;
    for (size_t at = 0; at < length; at += FLOW_QUESTION_BYTES)
        if (!is_question(p, get16(questions + at), get16(questions + at + 2)))
            return false;
    return true;
}

uint64_t reference_questions(const uint8_t *table, size_t table_len,
                             const uint8_t *questions, size_t questions_len,
                             uint8_t *labels, size_t labels_len,
                             uint8_t *answer, size_t answer_len)
{
    struct program p;
    struct refusal refusal = read_program(table, table_len, &p);
    if (refusal.number != FLOW_ACCEPTED)
        return answer_refusal(refusal, answer, answer_len);
    if (!is_question_list(&p, questions, questions_len))
        return answer_number(FLOW_BAD_QUESTIONS, answer, answer_len);
    size_t count = questions_len / FLOW_QUESTION_BYTES;
    if (count > labels_len)
        return answer_number(FLOW_OUTPUT_SHORT, answer, answer_len);
    struct analysis a;
    analyse_program(&a, &p);
    for (size_t i = 0; i < count; i++) {
        const uint8_t *pair = questions + i * FLOW_QUESTION_BYTES;
        labels[i] = (uint8_t)(a.entering[get16(pair)].variables >> get16(pair + 2) & 1);
    }
    return answer_length(count, answer, answer_len);
}

uint64_t reference_harden(const uint8_t *table, size_t table_len,
                          uint8_t *out, size_t out_len,
                          uint8_t *answer, size_t answer_len)
{
    struct program p;
    struct refusal refusal = read_program(table, table_len, &p);
    if (refusal.number != FLOW_ACCEPTED)
        return answer_refusal(refusal, answer, answer_len);
    if (p.nodes > FLOW_MAX_HARDENED_NODES)
        return answer_number(FLOW_TOO_MANY_NODES, answer, answer_len);
    if (p.variables == 64)
        return answer_number(FLOW_NO_FREE_VARIABLE, answer, answer_len);
    struct analysis a;
    analyse_program(&a, &p);
    uint8_t hardened[FLOW_TABLE_BYTES]; /* the length is known only when all is written, and a refusal must leave `out` alone */
    size_t length = write_hardened(hardened, &a);
    if (length > out_len)
        return answer_number(FLOW_OUTPUT_SHORT, answer, answer_len);
    memcpy(out, hardened, length);
    return answer_length(length, answer, answer_len);
}

/* `last` is the last kind of directive that the machine knows; the first is step. */
static bool is_directive_list(const uint8_t *directives, size_t length, unsigned last)
{
    size_t at = 0;
    while (at < length) {
        if (length - at < RECORD_HEAD)
            return false;
        unsigned kind = get16(directives + at + 2);
        if (kind < FLOW_STEP || kind > last)
            return false;
        size_t wanted = kind == FLOW_LOAD || kind == FLOW_STORE ? 10 : 4;
        if (get16(directives + at) != wanted || length - at < wanted)
            return false;
        at += wanted;
    }
    return true;
}

/* The refusal of what is lent to a machine, or 0. */
static unsigned refuse_state(const struct program *p, size_t variables_len, size_t cells_len, size_t pending_len)
{
    if (variables_len != 4 * (size_t)p->variables)
        return FLOW_VARIABLES_LENGTH;
    if (cells_len != 4 * (size_t)p->cells)
        return FLOW_CELLS_LENGTH;
    if (pending_len < 4 * (size_t)p->nodes)
        return FLOW_PENDING_SHORT;
    return FLOW_ACCEPTED;
}

static uint64_t answer_run(struct machine *m, unsigned end, uint8_t *answer, size_t answer_len)
{
    clear_list(m);
    uint64_t numbers[] = {FLOW_ACCEPTED, end, m->steps, m->used, m->shown, m->flag, next_node(m)};
    write_answer(answer, answer_len, numbers, 7);
    return FLOW_ACCEPTED;
}

/* What the entries of the plain and the guessing machine do once the table and the directive list are accepted. */
static uint64_t run_from_root(struct machine *m, size_t variables_len, size_t cells_len, size_t pending_len, uint32_t budget,
                              uint8_t *answer, size_t answer_len)
{
    unsigned refusal = refuse_state(m->program, variables_len, cells_len, pending_len);
    if (refusal != FLOW_ACCEPTED)
        return answer_number(refusal, answer, answer_len);
    push(m, m->program->nodes - 1);
    return answer_run(m, run_machine(m, budget), answer, answer_len);
}

uint64_t reference_run(const uint8_t *table, size_t table_len,
                       uint8_t *variables, size_t variables_len,
                       uint8_t *cells, size_t cells_len,
                       uint8_t *pending, size_t pending_len,
                       uint8_t *observations, size_t observations_len,
                       uint32_t budget,
                       uint8_t *answer, size_t answer_len)
{
    struct program p;
    struct refusal refusal = read_program(table, table_len, &p);
    if (refusal.number != FLOW_ACCEPTED)
        return answer_refusal(refusal, answer, answer_len);
    struct machine m = {.program = &p, .variables = variables, .cells = cells, .pending = pending,
                        .observations = observations, .observations_length = observations_len};
    return run_from_root(&m, variables_len, cells_len, pending_len, budget, answer, answer_len);
}

static const uint8_t no_directives[1]; /* an empty list may be NULL, which means no guessing to the machine */

uint64_t reference_guess(const uint8_t *table, size_t table_len,
                         const uint8_t *directives, size_t directives_len,
                         uint8_t *variables, size_t variables_len,
                         uint8_t *cells, size_t cells_len,
                         uint8_t *pending, size_t pending_len,
                         uint8_t *observations, size_t observations_len,
                         uint32_t budget,
                         uint8_t *answer, size_t answer_len)
{
    struct program p;
    struct refusal refusal = read_program(table, table_len, &p);
    if (refusal.number != FLOW_ACCEPTED)
        return answer_refusal(refusal, answer, answer_len);
    if (!is_directive_list(directives, directives_len, FLOW_STORE))
        return answer_number(FLOW_BAD_DIRECTIVES, answer, answer_len);
    if (directives_len == 0)
        directives = no_directives;
    struct machine m = {.program = &p, .variables = variables, .cells = cells, .pending = pending,
                        .observations = observations, .observations_length = observations_len,
                        .directives = directives, .directives_end = directives + directives_len};
    return run_from_root(&m, variables_len, cells_len, pending_len, budget, answer, answer_len);
}

uint64_t reference_rollback(const uint8_t *table, size_t table_len,
                            const uint8_t *directives, size_t directives_len,
                            uint8_t *variables, size_t variables_len,
                            uint8_t *cells, size_t cells_len,
                            uint8_t *pending, size_t pending_len,
                            uint8_t *saves, size_t saves_len,
                            uint8_t *observations, size_t observations_len,
                            uint32_t budget,
                            uint8_t *answer, size_t answer_len)
{
    struct program p;
    struct refusal refusal = read_program(table, table_len, &p);
    if (refusal.number != FLOW_ACCEPTED)
        return answer_refusal(refusal, answer, answer_len);
    if (!is_directive_list(directives, directives_len, FLOW_ROLLBACK))
        return answer_number(FLOW_BAD_DIRECTIVES, answer, answer_len);
    unsigned refused = refuse_state(&p, variables_len, cells_len, pending_len);
    if (refused == FLOW_ACCEPTED && saves_len < FLOW_MAX_SAVES * place_length(&p))
        refused = FLOW_SAVES_SHORT;
    if (refused != FLOW_ACCEPTED)
        return answer_number(refused, answer, answer_len);
    if (directives_len == 0)
        directives = no_directives;
    struct rolling r = {.machine = {.program = &p, .variables = variables, .cells = cells, .pending = pending,
                                    .observations = observations, .observations_length = observations_len,
                                    .directives = directives, .directives_end = directives + directives_len},
                        .saves = saves};
    push(&r.machine, p.nodes - 1);
    unsigned end = run_rolling(&r, budget);
    memset(saves + r.open * place_length(&p), 0, (FLOW_MAX_SAVES - r.open) * place_length(&p));
    return answer_run(&r.machine, end, answer, answer_len);
}
