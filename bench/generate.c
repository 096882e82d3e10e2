#include "generate.h"

#include <stdlib.h>
#include <string.h>

#include "copies.h"
#include "declarations.h"
#include "records/kinds.h"
#include "records/little_endian.h"
#include "reference.h"

/* ---- Chance ------------------------------------------------------------------------------------------------------------- */

/* splitmix64 */
static uint64_t random_next(struct random *r)
{
    uint64_t x = r->state += 0x9e3779b97f4a7c15u;
    x = (x ^ x >> 30) * 0xbf58476d1ce4e5b9u;
    x = (x ^ x >> 27) * 0x94d049bb133111ebu;
    return x ^ x >> 31;
}

struct random random_from(uint64_t seed, uint64_t number)
{
    struct random r = {seed};
    r.state = random_next(&r) ^ number * 0xd1342543de82ef95u;
    r.state = random_next(&r);
    return r;
}

uint32_t random_below(struct random *r, uint32_t bound)
{
    return (uint32_t)(random_next(r) % bound);
}

bool random_percent(struct random *r, unsigned percent)
{
    return random_below(r, 100) < percent;
}

void random_fill(struct random *r, uint8_t *bytes, size_t length)
{
    for (size_t i = 0; i < length; i++)
        bytes[i] = (uint8_t)random_next(r);
}

static uint32_t random_word(struct random *r)
{
    uint32_t chance = random_below(r, 100);
    if (chance < 75)
        return random_below(r, 6);
    if (chance < 85)
        return (uint32_t)0 - random_below(r, 4);
    if (chance < 92)
        return random_below(r, 300);
    return (uint32_t)random_next(r);
}

/* ---- Plans -------------------------------------------------------------------------------------------------------------- */

static uint64_t random_mask(struct random *r, unsigned width)
{
    uint64_t mask = random_next(r);
    switch (random_below(r, 4)) {
    case 0: mask = 0; break;
    case 1: mask &= random_next(r) & random_next(r); break;
    case 2: mask &= random_next(r); break;
    }
    return width == 64 ? mask : mask & (((uint64_t)1 << width) - 1);
}

static void plan_labels(struct random *r, struct plan *plan)
{
    plan->secret_variables = random_mask(r, plan->variables);
    plan->secret_arrays = (uint32_t)random_mask(r, plan->arrays);
}

/* One of so many variables, often the first, the last or one beside the width of a mask of 4 bytes. */
static unsigned notable_variable(struct random *r, unsigned variables)
{
    const unsigned notable[] = {0, 31, 32, 33, variables - 1};
    unsigned one = notable[random_below(r, 5)];
    return one < variables && random_percent(r, 50) ? one : random_below(r, variables);
}

/* A small program of many variables would use each of them once or never, and hardly a label would go from one to another. */
static void choose_variables(struct random *r, struct plan *plan)
{
    plan->chosen_count = plan->variables <= MOST_CHOSEN || random_percent(r, 15) ? 0 : 2 + random_below(r, MOST_CHOSEN - 1);
    for (unsigned i = 0; i < plan->chosen_count; i++)
        plan->chosen[i] = (uint8_t)notable_variable(r, plan->variables);
}

void plan_variables(struct random *r, struct plan *plan, unsigned version, unsigned variables)
{
    plan->version = version;
    plan->variables = variables;
    plan_labels(r, plan);
    choose_variables(r, plan);
}

unsigned planned_variable(struct random *r, const struct plan *plan)
{
    return plan->chosen_count > 0 ? plan->chosen[random_below(r, plan->chosen_count)] : random_below(r, plan->variables);
}

/* Of few variables in version 1, as planned so far, often another number of them, the other version or both. */
static void plan_version(struct random *r, struct plan *plan)
{
    static const uint8_t limits[] = {31, 32, 32, 32, 33, 33, 62, 63, 63, 64, 64, 64};
    unsigned chance = random_below(r, 100), variables = plan->variables;
    if (chance < 45)
        return;
    if (chance >= 57)
        variables = random_percent(r, 70) ? limits[random_below(r, sizeof limits)] : random_below(r, FLOW_MAX_VARIABLES + 1);
    plan_variables(r, plan, chance < 80 ? FLOW_VERSION_2 : FLOW_VERSION, variables);
}

static void plan_style(struct random *r, struct plan *plan)
{
    plan->shape = random_below(r, SHAPES);
    plan->order = random_below(r, ORDERS);
    plan->loops = random_below(r, 4) * 12;
    plan->accesses = 20 + random_below(r, 50);
    plan->long_expressions = random_percent(r, 15) ? random_below(r, 40) : 0;
    plan->factors = 30;
}

struct plan plan_few(struct random *r, unsigned most_nodes)
{
    struct plan plan = {.version = FLOW_VERSION};
    plan.variables = random_percent(r, 5) ? 0 : 1 + random_below(r, 6);
    plan.arrays = random_percent(r, 15) ? 0 : 1 + random_below(r, 3);
    plan.nodes = 1 + random_below(r, most_nodes);
    for (unsigned array = 0; array < plan.arrays; array++)
        plan.counts[array] = (uint16_t)(1 + random_below(r, 5));
    plan_style(r, &plan);
    plan_labels(r, &plan);
    return plan;
}

struct plan plan_small(struct random *r, unsigned most_nodes)
{
    struct plan plan = plan_few(r, most_nodes);
    plan_version(r, &plan);
    return plan;
}

/* Counts that sum to exactly the most cells, or to a few fewer. */
static void plan_most_cells(struct random *r, struct plan *plan)
{
    unsigned left = FLOW_MAX_CELLS - (random_percent(r, 30) ? random_below(r, 3) : 0);
    for (unsigned array = 0; array < plan->arrays; array++) {
        unsigned after = plan->arrays - 1 - array;
        unsigned count = after == 0 ? left : 1 + random_below(r, left - after);
        plan->counts[array] = (uint16_t)count;
        left -= count;
    }
}

struct plan plan_boundary(struct random *r)
{
    static const unsigned nodes[] = {1, 2, 3, 511, 512, 512, 513, 4095, 4096};
    static const unsigned variables[] = {0, 1, 30, 31, 31, 32, 32, 33, 62, 63, 63, 64};
    static const unsigned arrays[] = {0, 1, 15, 16};
    struct plan plan = {0};
    plan.nodes = nodes[random_below(r, sizeof nodes / sizeof *nodes)];
    unsigned declared = variables[random_below(r, sizeof variables / sizeof *variables)];
    plan.arrays = arrays[random_below(r, sizeof arrays / sizeof *arrays)];
    if (random_percent(r, 40))
        plan_most_cells(r, &plan);
    else
        for (unsigned array = 0; array < plan.arrays; array++)
            plan.counts[array] = (uint16_t)(1 + random_below(r, 9));
    plan_style(r, &plan);
    plan_variables(r, &plan, random_percent(r, 60) ? FLOW_VERSION : FLOW_VERSION_2, declared);
    return plan;
}

/* Loops in loops, which a careless analysis takes exponential time for. */
static struct plan plan_loops(struct random *r)
{
    struct plan plan = plan_small(r, 512);
    plan.nodes = 100 + random_below(r, 413);
    plan.shape = SHAPE_DEEP;
    plan.loops = 80;
    return plan;
}

struct plan plan_any(struct random *r)
{
    unsigned chance = random_below(r, 100);
    if (chance < 60)
        return plan_small(r, 40);
    if (chance < 88)
        return plan_small(r, 160);
    if (chance < 94)
        return plan_loops(r);
    return plan_boundary(r);
}

/* ---- Trees -------------------------------------------------------------------------------------------------------------- */

enum { NO_PARENT = 0xffff };

/* A tree that has no numbers yet: children are indices into `nodes`, the root is index 0. */
struct sketch_node {
    unsigned kind;
    uint32_t fields[3];
    unsigned size;           /* of the subtree, to be filled */
    unsigned parent;
    unsigned open_children;  /* those without a number */
    uint32_t number;
};

struct sketch {
    const struct plan *plan;
    struct random *random;
    unsigned count;
    struct sketch_node nodes[FLOW_MAX_NODES];
};

/* Is there a subtree of this sort and exactly this size? */
static bool size_exists(const struct plan *plan, char sort, unsigned size)
{
    if (size != 2)
        return size >= 1;
    return sort == 'T' || (sort == 'C' && plan->variables > 0);
}

static bool kind_possible(const struct plan *plan, unsigned kind)
{
    for (const char *field = fields_of(kind); *field; field++)
        if ((*field == 'x' && plan->variables == 0) || (*field == 'a' && plan->arrays == 0))
            return false;
    return true;
}

static unsigned pick(struct random *r, const uint8_t *kinds, unsigned count)
{
    return kinds[random_below(r, count)];
}

static unsigned pick_command(struct sketch *s, unsigned size)
{
    struct random *r = s->random;
    if (size == 1)
        return FLOW_SKIP;
    if ((size < 12 && random_percent(r, 50)) || random_percent(r, s->plan->long_expressions))
        return !random_percent(r, s->plan->accesses) ? FLOW_ASSIGN : random_percent(r, 60) ? FLOW_READ : FLOW_WRITE;
    if (random_percent(r, s->plan->loops))
        return FLOW_WHILE;
    static const uint8_t larger[] = {FLOW_SEQUENCE, FLOW_SEQUENCE, FLOW_SEQUENCE, FLOW_IF, FLOW_IF, FLOW_WHILE};
    return pick(r, larger, sizeof larger);
}

/* A kind that may suit; whether parts of the right sizes exist for it is tried afterwards. */
static unsigned pick_kind(struct sketch *s, char sort, unsigned size)
{
    static const uint8_t leaves[] = {FLOW_NUMBER, FLOW_VARIABLE, FLOW_VARIABLE};
    static const uint8_t numerics[] = {FLOW_ADD, FLOW_SUBTRACT, FLOW_MULTIPLY, FLOW_CHOICE};
    static const uint8_t truths[] = {FLOW_EQUAL, FLOW_LESS, FLOW_LESS, FLOW_NOT, FLOW_AND};
    if (sort == 'N')
        return size == 1 ? pick(s->random, leaves, sizeof leaves) : pick(s->random, numerics, sizeof numerics);
    if (sort == 'T')
        return size == 1 ? FLOW_CONSTANT : pick(s->random, truths, sizeof truths);
    return pick_command(s, size);
}

/* A kind whose parts have sizes for certain, where the tries above have failed. */
static unsigned fallback_kind(char sort, unsigned size)
{
    switch (sort) {
    case 'N': return size == 1 ? FLOW_NUMBER : size == 4 ? FLOW_CHOICE : FLOW_ADD;
    case 'T': return size == 1 ? FLOW_CONSTANT : FLOW_NOT;
    default: return size == 1 ? FLOW_SKIP : size == 2 ? FLOW_ASSIGN : size == 4 ? FLOW_IF : FLOW_SEQUENCE;
    }
}

/* Shares `total` out among `count` parts of at least 1. */
static void share(struct random *r, enum shape shape, unsigned total, unsigned count, unsigned *parts)
{
    unsigned spare = total - count;
    unsigned favourite = random_below(r, count);
    for (unsigned i = 0; i < count; i++)
        parts[i] = 1;
    if (shape == SHAPE_DEEP)
        parts[favourite] += spare;
    else if (shape == SHAPE_BALANCED)
        for (unsigned i = 0; i < count; i++)
            parts[i] += spare / count + ((i + favourite) % count < spare % count);
    else
        for (unsigned i = 0; i < count; i++) {
            unsigned more = i + 1 == count ? spare : random_below(r, spare + 1);
            parts[i] += more;
            spare -= more;
        }
}

/*
 * Sizes for the children of a node, in `sizes` by field.  An expression beside commands stays small, so that programs are mostly
 * commands.  False: too few nodes.
 */
static bool share_fields(struct sketch *s, const char *fields, unsigned size, unsigned *sizes)
{
    unsigned total = size - 1, which[3], parts[3], children = 0, commands = 0;
    for (unsigned i = 0; fields[i]; i++) {
        children += is_child(fields[i]);
        commands += fields[i] == 'C';
    }
    if (total < children || (children == 0 && total != 0))
        return false;
    unsigned count = 0;
    for (unsigned i = 0; fields[i]; i++) {
        if (!is_child(fields[i]))
            continue;
        if (commands > 0 && fields[i] != 'C' && !random_percent(s->random, s->plan->long_expressions)) {
            unsigned spare = total - children;
            sizes[i] = 1 + random_below(s->random, spare < 6 ? spare + 1 : 7);
            total -= sizes[i];
            children--;
        } else
            which[count++] = i;
    }
    if (count > 0)
        share(s->random, s->plan->shape, total, count, parts);
    for (unsigned i = 0; i < count; i++)
        sizes[which[i]] = parts[i];
    return true;
}

static bool sizes_exist(const struct plan *plan, const char *fields, const unsigned *sizes)
{
    for (unsigned i = 0; fields[i]; i++)
        if (is_child(fields[i]) && !size_exists(plan, fields[i], sizes[i]))
            return false;
    return true;
}

static unsigned choose_kind(struct sketch *s, char sort, unsigned size, unsigned *sizes)
{
    for (unsigned tries = 0; tries < 20; tries++) {
        unsigned kind = pick_kind(s, sort, size);
        if (kind_possible(s->plan, kind) && share_fields(s, fields_of(kind), size, sizes) &&
            sizes_exist(s->plan, fields_of(kind), sizes))
            return kind;
    }
    unsigned kind = fallback_kind(sort, size);
    const char *fields = fields_of(kind);
    unsigned left = size - 1;
    unsigned last = 0;
    for (unsigned i = 0; fields[i]; i++)
        if (is_child(fields[i])) {
            sizes[i] = 1;
            left--;
            last = i;
        }
    if (left > 0 && *fields)
        sizes[last] += left;
    return kind;
}

static uint32_t random_field(struct sketch *s, char field)
{
    switch (field) {
    case 'n': return random_word(s->random);
    case 'b': return random_below(s->random, 2);
    case 'x': return planned_variable(s->random, s->plan);
    default: return random_below(s->random, s->plan->arrays);
    }
}

static unsigned sketch_open(struct sketch *s, unsigned parent, unsigned size)
{
    struct sketch_node *node = &s->nodes[s->count];
    *node = (struct sketch_node){.size = size, .parent = parent};
    return s->count++;
}

/* Fills nodes in the order in which they were opened; each opens its children behind all others. */
static void sketch_tree(struct sketch *s, char sort)
{
    char sorts[FLOW_MAX_NODES];
    sorts[sketch_open(s, NO_PARENT, s->plan->nodes)] = sort;
    for (unsigned at = 0; at < s->count; at++) {
        struct sketch_node *node = &s->nodes[at];
        unsigned sizes[3];
        node->kind = choose_kind(s, sorts[at], node->size, sizes);
        const char *fields = fields_of(node->kind);
        for (unsigned i = 0; fields[i]; i++) {
            if (is_child(fields[i])) {
                node->fields[i] = sketch_open(s, at, sizes[i]);
                sorts[node->fields[i]] = fields[i];
                node->open_children++;
            } else
                node->fields[i] = random_field(s, fields[i]);
        }
    }
}

/* The operand that is a number, or else one that is a variable; the one of two alike by chance.  NULL: both are larger. */
static struct sketch_node *pick_operand(struct sketch *s, const struct sketch_node *node)
{
    unsigned side = random_below(s->random, 2);
    struct sketch_node *one = &s->nodes[node->fields[side]], *other = &s->nodes[node->fields[1 - side]];
    if (one->kind == FLOW_NUMBER || (one->kind == FLOW_VARIABLE && other->kind != FLOW_NUMBER))
        return one;
    return other->size == 1 ? other : NULL;
}

/* 0, or 1, or one that is 0 but for a higher byte. */
static uint32_t random_factor(struct random *r)
{
    if (random_percent(r, 50))
        return 0;
    return (uint32_t)1 << (random_percent(r, 80) ? 0 : 8 * random_below(r, 4));
}

/* Makes products with such a number.  A plan without them draws nothing, so that tables which are timed stay as they were. */
static void put_factors(struct sketch *s)
{
    for (unsigned at = 0; at < s->count && s->plan->factors > 0; at++) {
        struct sketch_node *node = &s->nodes[at];
        bool suits = node->kind == FLOW_ADD || node->kind == FLOW_SUBTRACT || node->kind == FLOW_MULTIPLY;
        struct sketch_node *operand = suits && random_percent(s->random, s->plan->factors) ? pick_operand(s, node) : NULL;
        if (operand != NULL) {
            node->kind = FLOW_MULTIPLY;
            operand->kind = FLOW_NUMBER;
            operand->fields[0] = random_factor(s->random);
        }
    }
}

static unsigned pick_ready(struct sketch *s, unsigned first, unsigned count)
{
    switch (s->plan->order) {
    case ORDER_NEWEST_FIRST: return count - 1;
    case ORDER_OLDEST_FIRST: return first;
    default: return first + random_below(s->random, count - first);
    }
}

/* Gives out numbers and puts the nodes: a node is ready when all its children have numbers. */
static void number_tree(struct sketch *s, struct buffer *table)
{
    unsigned ready[FLOW_MAX_NODES], first = 0, count = 0;
    for (unsigned at = 0; at < s->count; at++)
        if (s->nodes[at].open_children == 0)
            ready[count++] = at;
    while (first < count) {
        unsigned chosen = pick_ready(s, first, count);
        struct sketch_node *node = &s->nodes[ready[chosen]];
        if (s->plan->order == ORDER_NEWEST_FIRST)
            count--;
        else {
            ready[chosen] = ready[first];
            first++;
        }
        const char *fields = fields_of(node->kind);
        for (unsigned i = 0; fields[i]; i++)
            if (is_child(fields[i]))
                node->fields[i] = s->nodes[node->fields[i]].number;
        node->number = assemble_node(table, node->kind, node->fields);
        if (node->parent != NO_PARENT && --s->nodes[node->parent].open_children == 0)
            ready[count++] = node->parent;
    }
}

unsigned generate_part(struct random *r, const struct plan *plan, char sort, struct buffer *table)
{
    struct plan possible = *plan;
    if (!size_exists(&possible, sort, possible.nodes))
        possible.nodes++;
    struct sketch *s = malloc(sizeof *s);
    if (s == NULL)
        abort();
    s->plan = &possible;
    s->random = r;
    s->count = 0;
    sketch_tree(s, sort);
    put_factors(s);
    number_tree(s, table);
    unsigned top = s->nodes[0].number;
    free(s);
    return top;
}

void start_table(const struct plan *plan, struct buffer *table)
{
    unsigned lowest = lowest_version(plan->variables);
    assemble_version(table, plan->version > lowest ? plan->version : lowest, plan->variables, plan->arrays, plan->counts,
                     plan->secret_variables, plan->secret_arrays);
}

void generate_table(struct random *r, const struct plan *plan, struct buffer *table)
{
    start_table(plan, table);
    generate_part(r, plan, 'C', table);
}

void nested_loops_table(unsigned depth, struct buffer *t)
{
    assemble_table(t, 2, 0, NULL, 2, 0);
    unsigned inner = assemble_node0(t, FLOW_SKIP);
    for (unsigned level = 0; level < depth; level++) {
        unsigned condition = assemble_node1(t, FLOW_CONSTANT, 1);
        unsigned clear = assemble_node2(t, FLOW_ASSIGN, 0, assemble_node1(t, FLOW_NUMBER, 0));
        unsigned taint = assemble_node2(t, FLOW_ASSIGN, 0, assemble_node1(t, FLOW_VARIABLE, 1));
        unsigned rest = assemble_node2(t, FLOW_SEQUENCE, inner, taint);
        inner = assemble_node2(t, FLOW_WHILE, condition, assemble_node2(t, FLOW_SEQUENCE, clear, rest));
    }
}

/* Puts the numbers below `count`, in an order by chance. */
static void shuffle(struct random *r, uint8_t *numbers, unsigned count)
{
    for (unsigned i = 0; i < count; i++) {
        unsigned other = random_below(r, i + 1);
        numbers[i] = numbers[other];
        numbers[other] = (uint8_t)i;
    }
}

void shuffled_chain_table(struct random *r, unsigned version, unsigned variables, struct buffer *t)
{
    uint8_t order[FLOW_MAX_VARIABLES] = {0};
    unsigned last = variables - 1;
    shuffle(r, order, variables);
    assemble_version(t, version, variables, 0, NULL, (uint64_t)1 << order[last], 0);
    unsigned condition = assemble_node1(t, FLOW_CONSTANT, 1);
    unsigned body = assemble_node0(t, FLOW_SKIP);
    for (unsigned i = last; i-- > 0;) {
        unsigned move = assemble_node2(t, FLOW_ASSIGN, order[i], assemble_node1(t, FLOW_VARIABLE, order[i + 1]));
        body = assemble_node2(t, FLOW_SEQUENCE, move, body);
    }
    assemble_node2(t, FLOW_WHILE, condition, body);
}

/* ---- Damage ------------------------------------------------------------------------------------------------------------- */

/* The records of a valid table. */
struct records {
    unsigned declarations; /* header, labels, arrays */
    unsigned count;
    size_t places[2 + FLOW_MAX_ARRAYS + FLOW_MAX_NODES];
};

static void find_records(const struct buffer *table, struct records *found)
{
    found->count = 0;
    found->declarations = 2 + arrays_of(table->bytes);
    for (size_t at = 0; at < table->length; at += get16(table->bytes + at))
        found->places[found->count++] = at;
}

static void insert_bytes(struct buffer *b, size_t at, const uint8_t *bytes, size_t length)
{
    buffer_append(b, bytes, length); /* for the room; the contents are moved next */
    memmove(b->bytes + at + length, b->bytes + at, b->length - length - at);
    memcpy(b->bytes + at, bytes, length);
}

static void delete_bytes(struct buffer *b, size_t at, size_t length)
{
    memmove(b->bytes + at, b->bytes + at + length, b->length - at - length);
    b->length -= length;
}

static size_t any_record(struct random *r, const struct records *records)
{
    return records->places[random_below(r, records->count)];
}

static unsigned any_node(struct random *r, const struct records *records)
{
    return random_below(r, records->count - records->declarations);
}

static void damage_bits(struct random *r, struct buffer *table)
{
    for (unsigned times = 1 + random_below(r, 3); times > 0; times--)
        table->bytes[random_below(r, (uint32_t)table->length)] ^= (uint8_t)(1u << random_below(r, 8));
}

static void damage_end(struct random *r, struct buffer *table, const struct records *records)
{
    uint8_t extra[12];
    switch (random_below(r, 4)) {
    case 0:
        table->length = random_below(r, (uint32_t)table->length);
        break;
    case 1:
        table->length = any_record(r, records) + random_below(r, 5);
        break;
    case 2:
        random_fill(r, extra, sizeof extra);
        buffer_append(table, extra, 1 + random_below(r, sizeof extra));
        break;
    default:
        buffer_append16(table, 4);
        buffer_append16(table, FLOW_SKIP);
    }
}

static void damage_length(struct random *r, struct buffer *table, const struct records *records)
{
    uint8_t *at = table->bytes + any_record(r, records);
    static const int changes[] = {-2, -1, 1, 2, 256};
    put16(at, random_percent(r, 20) ? random_below(r, 65536) : get16(at) + (uint32_t)changes[random_below(r, 5)]);
}

static void damage_kind(struct random *r, struct buffer *table, const struct records *records)
{
    static const uint8_t kinds[] = {0, 1, 2, 3, 15, 16, 17, 18, 19, 20, 21, 22, 32, 33, 34, 35, 36, 37, 48, 49, 50, 51, 52, 53, 54, 55};
    uint8_t *at = table->bytes + any_record(r, records);
    unsigned kind = kinds[random_below(r, sizeof kinds)];
    /* mostly one of the same length, so that it is not the length that gets it refused */
    for (unsigned tries = 0; tries < 30 && (fields_of(kind) == NULL || record_length(fields_of(kind)) != get16(at)); tries++)
        kind = kinds[random_below(r, sizeof kinds)];
    put16(at + 2, random_percent(r, 10) ? kind + 256 : kind);
}

/* The lowest number that a field must not have. */
static uint32_t first_refused(const struct buffer *table, unsigned node, char field)
{
    switch (field) {
    case 'b': return 2;
    case 'x': return variables_of(table->bytes);
    case 'a': return arrays_of(table->bytes);
    default: return node;
    }
}

/* A child, variable, array or constant becomes another number: at its limit, a node below, or some other. */
static void damage_field(struct random *r, struct buffer *table, const struct records *records)
{
    unsigned node = any_node(r, records);
    uint8_t *at = table->bytes + records->places[records->declarations + node];
    const char *fields = fields_of(get16(at + 2));
    if (*fields == 0)
        return;
    unsigned which = random_below(r, (uint32_t)strlen(fields));
    uint32_t limit = first_refused(table, node, fields[which]);
    uint32_t below = node == 0 ? 0 : random_below(r, node);
    uint32_t values[] = {limit, limit, limit + 1, below, below, below, 65535, 256, random_below(r, 40)};
    put16(at + RECORD_HEAD + 2 * which, values[random_below(r, sizeof values / sizeof *values)]);
}

static void damage_header(struct random *r, struct buffer *table)
{
    uint8_t *version = table->bytes + 4, *variables = table->bytes + 6, *arrays = table->bytes + 7, *nodes = table->bytes + 8;
    static const uint32_t counts[] = {0, 1, 16, 17, 31, 32, 33, 63, 64, 65, 255};
    unsigned count = counts[random_below(r, sizeof counts / sizeof *counts)];
    switch (random_below(r, 6)) {
    case 0: put16(version, random_percent(r, 50) ? random_below(r, 4) : 257); break;
    case 1: *variables = (uint8_t)count; break;
    case 2: *arrays = (uint8_t)count; break;
    case 3: put16(nodes, get16(nodes) + 1); break;
    case 4: put16(nodes, get16(nodes) - 1); break;
    default: put16(nodes, random_percent(r, 50) ? 0 : 4096 + random_below(r, 3)); break;
    }
}

/* A bit of a mask of so many bits: the first that must not be set, another from there up, or any. */
static unsigned damaging_bit(struct random *r, unsigned declared, unsigned width)
{
    if (declared == width || random_percent(r, 30))
        return random_below(r, width);
    return random_percent(r, 50) ? declared : declared + random_below(r, width - declared);
}

static void damage_masks(struct random *r, struct buffer *table)
{
    unsigned bytes = (unsigned)flow_mask_bytes(version_of(table->bytes));
    bool arrays = random_percent(r, 40);
    uint8_t *mask = table->bytes + MASK_AT + (arrays ? bytes : 0);
    unsigned bit = arrays ? damaging_bit(r, arrays_of(table->bytes), 16) : damaging_bit(r, variables_of(table->bytes), 8 * bytes);
    mask[bit / 8] |= (uint8_t)(1u << bit % 8);
}

static void damage_counts(struct random *r, struct buffer *table)
{
    static const uint32_t counts[] = {0, 1, 16383, 16384, 16385, 65535};
    unsigned arrays = arrays_of(table->bytes);
    if (arrays > 0)
        put16(table->bytes + array_at(table->bytes, random_below(r, arrays)) + RECORD_HEAD, counts[random_below(r, 6)]);
}

static unsigned other_version(const struct buffer *table)
{
    return version_of(table->bytes) == FLOW_VERSION ? FLOW_VERSION_2 : FLOW_VERSION;
}

/* The labels record becomes what it would be in the other version: the higher half of the mask comes, as zeros, or goes. */
static void exchange_labels(struct buffer *table)
{
    static const uint8_t higher[4];
    unsigned other = other_version(table);
    if (other == FLOW_VERSION_2)
        insert_bytes(table, MASK_AT + 4, higher, sizeof higher);
    else
        delete_bytes(table, MASK_AT + 4, sizeof higher);
    put16(table->bytes + LABELS_AT, (uint32_t)labels_length(other));
}

/*
 * What belongs to the version: its number, the variables that it holds, its labels record.  (That of the other version, with the
 * other number, makes a good table where this holds the variables.)
 */
static void damage_version(struct random *r, struct buffer *table)
{
    static const uint32_t unknown[] = {0, 3, 65535, 257, 258, 512};
    unsigned version = version_of(table->bytes), other = other_version(table), way = random_below(r, 8);
    switch (way) {
    case 0: put16(table->bytes + 4, unknown[random_below(r, sizeof unknown / sizeof *unknown)]); break;
    case 1: put16(table->bytes + 4, other); break;
    case 2: put16(table->bytes + LABELS_AT, (uint32_t)labels_length(other)); break;
    case 3: table->length = LABELS_AT + random_below(r, (uint32_t)labels_length(version)); break;
    case 4: table->bytes[6] = (uint8_t)(flow_max_variables(version) + 1); break;
    default:
        exchange_labels(table);
        if (way == 5)
            put16(table->bytes + 4, other);
    }
}

/* A node more, which leaves the old root over. */
static void append_skip(struct buffer *table)
{
    buffer_append16(table, 4);
    buffer_append16(table, FLOW_SKIP);
    put16(table->bytes + 8, get16(table->bytes + 8) + 1);
}

/* Whole records go, come twice or change places. */
static void damage_records(struct random *r, struct buffer *table, const struct records *records)
{
    unsigned which = random_below(r, records->count);
    size_t at = records->places[which];
    size_t length = get16(table->bytes + at);
    uint8_t copy[16];
    memcpy(copy, table->bytes + at, length);
    switch (random_below(r, 4)) {
    case 0:
        delete_bytes(table, at, length);
        break;
    case 1:
        insert_bytes(table, at, copy, length);
        break;
    case 2:
        delete_bytes(table, at, length);
        insert_bytes(table, which == 0 ? 0 : records->places[which - 1], copy, length);
        break;
    default: /* with the header's count in step: orphans, or a child's child at the root */
        if (which >= records->declarations && get16(table->bytes + 8) > 1) {
            delete_bytes(table, at, length);
            put16(table->bytes + 8, get16(table->bytes + 8) - 1);
        } else {
            append_skip(table);
        }
    }
}

/* A child becomes another node of its sort, if one is found below the parent: the one is left over, the other a child once more. */
static void exchange_child(struct random *r, struct buffer *table, const struct records *records)
{
    const size_t *places = records->places + records->declarations;
    unsigned node = any_node(r, records);
    const char *fields = fields_of(get16(table->bytes + places[node] + 2));
    unsigned which = random_below(r, 3);
    if (node == 0 || which >= strlen(fields) || !is_child(fields[which]))
        return;
    for (unsigned tries = 0; tries < 8; tries++) {
        unsigned other = random_below(r, node);
        if (sort_of(get16(table->bytes + places[other] + 2)) == fields[which]) {
            put16(table->bytes + places[node] + RECORD_HEAD + 2 * which, other);
            return;
        }
    }
}

/* Many nodes break the tree rule at once. */
static void damage_tree(struct random *r, struct buffer *table, const struct records *records)
{
    for (unsigned times = 1 + random_below(r, 11); times > 0; times--)
        exchange_child(r, table, records);
    for (unsigned times = random_below(r, 3); times > 0; times--)
        append_skip(table);
}

/* The root becomes both parts of a new one: no node is left over, one is a child twice. */
static void share_root(struct buffer *table)
{
    unsigned root = nodes_of(table->bytes) - 1;
    if (root + 1 < FLOW_MAX_NODES)
        assemble_node2(table, FLOW_SEQUENCE, root, root);
}

void damage_table(struct random *r, struct buffer *table)
{
    struct records records;
    find_records(table, &records);
    if (random_percent(r, 10)) { /* together with the next, a choice among causes */
        damage_field(r, table, &records);
        damage_field(r, table, &records);
    }
    if (random_percent(r, 3))
        share_root(table);
    switch (random_below(r, 19)) {
    case 0: damage_bits(r, table); break;
    case 1: damage_end(r, table, &records); break;
    case 2: damage_length(r, table, &records); break;
    case 3: damage_kind(r, table, &records); break;
    case 4:
    case 5:
    case 6: damage_field(r, table, &records); break;
    case 7: damage_header(r, table); break;
    case 8: damage_masks(r, table); break;
    case 9: damage_counts(r, table); break;
    case 10: share_root(table); break;
    case 11: damage_tree(r, table, &records); break;
    case 12:
    case 13:
    case 14:
    case 15:
    case 16: damage_version(r, table); break;
    default: damage_records(r, table, &records); break;
    }
}

static void generate_noise(struct random *r, struct buffer *table)
{
    uint8_t noise[64];
    random_fill(r, noise, sizeof noise);
    if (random_percent(r, 50)) { /* a head that gets a reader going */
        unsigned version = random_percent(r, 50) ? FLOW_VERSION : FLOW_VERSION_2;
        put16(noise, 10);
        put16(noise + 2, 1);
        put16(noise + 4, version);
        noise[6] &= (uint8_t)(flow_max_variables(version) - 1);
        noise[7] &= 3;
        put16(noise + 8, 1 + (noise[8] & 3));
        put16(noise + LABELS_AT, (uint32_t)labels_length(version));
        put16(noise + LABELS_AT + 2, 3);
        memset(noise + MASK_AT, 0, flow_mask_bytes(version) + 2);
    }
    buffer_append(table, noise, random_below(r, sizeof noise + 1));
}

/* ---- States and directives ---------------------------------------------------------------------------------------------- */

void generate_words(struct random *r, uint8_t *words, size_t count)
{
    for (size_t i = 0; i < count; i++)
        put32(words + 4 * i, random_word(r));
}

void generate_directives(struct random *r, enum entry entry, unsigned most, struct buffer *list)
{
    for (unsigned count = random_below(r, most + 1); count > 0; count--) {
        unsigned chance = random_below(r, 100);
        if (entry == ENTRY_ROLLBACK && chance < 20)
            assemble_directive(list, FLOW_ROLLBACK);
        else if (chance < 50)
            assemble_directive(list, FLOW_STEP);
        else if (chance < 75)
            assemble_directive(list, FLOW_FORCE);
        else
            assemble_redirect(list, random_percent(r, 60) ? FLOW_LOAD : FLOW_STORE, random_below(r, 3), random_below(r, 4));
    }
}

/* A directive with a field that its kind does not have. */
static void lengthen_directive(struct random *r, struct buffer *list, size_t at)
{
    static const uint8_t field[6];
    size_t more = random_percent(r, 50) ? 2 : 6;
    size_t length = get16(list->bytes + at);
    insert_bytes(list, at + length, field, more);
    put16(list->bytes + at, (uint32_t)(length + more));
}

static void damage_directives(struct random *r, struct buffer *list)
{
    static const uint8_t kinds[] = {0, 64, 67, 71, 72, 73, 74, 75, 76, 77, 255};
    if (list->length == 0 || random_percent(r, 30)) {
        uint8_t noise[11];
        random_fill(r, noise, sizeof noise);
        buffer_append(list, noise, 1 + random_below(r, sizeof noise));
        return;
    }
    size_t last = 0;
    for (size_t at = 0; at < list->length; at += get16(list->bytes + at))
        if (random_percent(r, 30))
            last = at;
    switch (random_below(r, 5)) {
    case 0: list->length -= 1 + random_below(r, list->length < 10 ? (uint32_t)list->length : 10); break;
    case 1: put16(list->bytes + last, random_percent(r, 50) ? 4 : random_below(r, 12)); break;
    case 2: put16(list->bytes + last + 2, kinds[random_below(r, sizeof kinds)]); break;
    case 3: lengthen_directive(r, list, last); break;
    default: list->bytes[random_below(r, (uint32_t)list->length)] ^= (uint8_t)(1u << random_below(r, 8)); break;
    }
}

/* A valid table as a script writer sees it. */
struct layout {
    unsigned arrays;
    uint32_t counts[FLOW_MAX_ARRAYS];
    struct records records;
};

static void find_layout(const struct slice *table, struct layout *layout)
{
    struct buffer view = {.bytes = table->bytes, .length = table->length};
    find_records(&view, &layout->records);
    layout->arrays = arrays_of(table->bytes);
    for (unsigned array = 0; array < layout->arrays; array++)
        layout->counts[array] = count_of(table->bytes, array);
}

/* A load at a read, a store at a write; seldom the other one.  `missing`: percent that name a cell or array that does not exist. */
static void append_redirect(struct random *r, const struct layout *layout, unsigned access, unsigned missing, struct buffer *list)
{
    bool load = (access == FLOW_READ) != random_percent(r, 6);
    unsigned array = random_below(r, layout->arrays);
    uint32_t index = random_below(r, layout->counts[array]);
    if (random_percent(r, missing))
        switch (random_below(r, 4)) {
        case 0: index = layout->counts[array] + random_below(r, 2); break;
        case 1: index += (uint32_t)1 << (14 + random_below(r, 18)); break; /* one that exists, but for a high bit */
        case 2: array = layout->arrays + random_below(r, 2); break;
        default: array += 256u << random_below(r, 8); break; /* likewise */
        }
    assemble_redirect(list, load ? FLOW_LOAD : FLOW_STORE, array, index);
}

/* The end, directives used, flag and next node of the guessing call with this list. */
struct outcome {
    uint64_t refusal, end, used, flag, next;
};

static struct outcome try_script(const struct call *call, const struct buffer *list)
{
    struct call trial = call_copy(call);
    slice_free(&trial.slices[SLICE_DIRECTIVES]);
    slice_free(&trial.slices[SLICE_ANSWER]);
    slice_from(&trial.slices[SLICE_DIRECTIVES], list->bytes, list->length);
    slice_new(&trial.slices[SLICE_ANSWER], FLOW_ANSWER_BYTES);
    struct outcome outcome = {.refusal = call_reference(&trial), .end = call_answer(&trial, 1),
                              .used = call_answer(&trial, 3), .flag = call_answer(&trial, 5),
                              .next = call_answer(&trial, 6)};
    call_free(&trial);
    return outcome;
}

/* Is the next directive of a list that was used up to be a rollback?  Seldom it is one where none is open. */
static bool goes_back(struct random *r, const struct call *call, const struct manner *manner, const struct outcome *outcome)
{
    bool ready = outcome->end == FLOW_OUT_OF_DIRECTIVES || outcome->end == FLOW_FINISHED;
    return call->entry == ENTRY_ROLLBACK && ready && random_percent(r, outcome->flag ? manner->rollbacks : 2);
}

/* The next directive for a shown step. */
static void append_next(struct random *r, const struct layout *layout, const struct manner *manner, unsigned kind, struct buffer *list)
{
    bool branch = kind == FLOW_IF || kind == FLOW_WHILE;
    if (!branch && random_percent(r, manner->redirects)) /* in bounds this fits, whatever it names */
        append_redirect(r, layout, kind, 40, list);
    else
        assemble_directive(list, branch && random_percent(r, manner->forces) ? FLOW_FORCE : FLOW_STEP);
}

/* In the place of a directive that did not fit, the last: a redirect or a rollback.  False: nothing else is tried. */
static bool exchange_last(struct random *r, const struct layout *layout, const struct call *call, const struct outcome *outcome,
                          unsigned kind, size_t last, struct buffer *list)
{
    bool branch = kind == FLOW_IF || kind == FLOW_WHILE;
    bool back = call->entry == ENTRY_ROLLBACK && outcome->flag && random_percent(r, branch ? 20 : 50);
    if (get16(list->bytes + last + 2) == FLOW_ROLLBACK || (branch && !back))
        return false;
    list->length = last;
    if (back)
        assemble_directive(list, FLOW_ROLLBACK);
    else
        append_redirect(r, layout, kind, 15, list);
    return true;
}

void generate_script(struct random *r, const struct call *call, const struct manner *manner, struct buffer *list)
{
    struct layout layout;
    bool read_yet = false;
    bool again = false;
    size_t last = 0; /* where the last directive begins */
    for (unsigned count = 0; count < 2 * manner->most; count++) {
        struct outcome outcome = try_script(call, list);
        if (outcome.refusal != FLOW_ACCEPTED)
            return;
        if (!read_yet)
            find_layout(&call->slices[SLICE_TABLE], &layout);
        read_yet = true;
        const uint8_t *node = call->slices[SLICE_TABLE].bytes + layout.records.places[layout.records.declarations + outcome.next];
        unsigned kind = get16(node + 2);
        bool more = outcome.used < manner->most;
        if (more && goes_back(r, call, manner, &outcome)) {
            last = list->length;
            again = false;
            assemble_directive(list, FLOW_ROLLBACK);
        } else if (more && outcome.end == FLOW_OUT_OF_DIRECTIVES) {
            last = list->length;
            again = false;
            append_next(r, &layout, manner, kind, list);
        } else if (outcome.end != FLOW_STUCK || again || list->length == 0 ||
                   !exchange_last(r, &layout, call, &outcome, kind, last, list)) {
            return;
        } else
            again = true;
    }
}

/* ---- Questions ---------------------------------------------------------------------------------------------------------- */

/* A valid table as one who asks sees it. */
struct outline {
    unsigned nodes, variables;
    uint8_t kinds[FLOW_MAX_NODES];
    bool in_loop[FLOW_MAX_NODES];
};

/* Parents stand above their children, so one pass in falling order finds what is inside a loop. */
static void find_outline(const struct slice *table, struct outline *outline)
{
    struct buffer view = {.bytes = table->bytes, .length = table->length};
    struct records records;
    find_records(&view, &records);
    outline->nodes = records.count - records.declarations;
    outline->variables = variables_of(table->bytes);
    outline->in_loop[outline->nodes - 1] = false;
    for (unsigned node = outline->nodes; node-- > 0;) {
        const uint8_t *record = table->bytes + records.places[records.declarations + node];
        unsigned kind = get16(record + 2);
        const char *fields = fields_of(kind);
        outline->kinds[node] = (uint8_t)kind;
        for (unsigned i = 0; fields[i]; i++)
            if (is_child(fields[i]))
                outline->in_loop[get16(record + RECORD_HEAD + 2 * i)] = outline->in_loop[node] || kind == FLOW_WHILE;
    }
}

/* A command: often a loop, a command inside one, or both, where such are found. */
static unsigned pick_asked(struct random *r, const struct outline *outline)
{
    bool loop = random_percent(r, 35), inside = random_percent(r, 55);
    for (unsigned tries = 0; tries < 24; tries++) {
        unsigned node = random_below(r, outline->nodes);
        unsigned kind = outline->kinds[node];
        bool wanted = (!loop || kind == FLOW_WHILE) && (!inside || outline->in_loop[node]);
        if (sort_of(kind) == 'C' && (wanted || tries >= 12))
            return node;
    }
    return outline->nodes - 1;
}

/* A node that is no command, or none at all. */
static unsigned pick_expression(struct random *r, const struct outline *outline)
{
    for (unsigned tries = 0; tries < 24; tries++) {
        unsigned node = random_below(r, outline->nodes);
        if (sort_of(outline->kinds[node]) != 'C')
            return node;
    }
    return outline->nodes;
}

static void append_question(struct buffer *list, unsigned node, unsigned variable)
{
    buffer_append16(list, node);
    buffer_append16(list, variable);
}

/* Good pairs, unless there are no variables; often all variables of a command, from any on, before the next command. */
static void append_questions(struct random *r, const struct outline *outline, unsigned count, struct buffer *list)
{
    unsigned variables = outline->variables > 0 ? outline->variables : 1;
    bool sweep = random_percent(r, 40);
    unsigned node = 0, first = random_below(r, variables);
    for (unsigned i = 0; i < count; i++) {
        if (!sweep || i % variables == 0)
            node = pick_asked(r, outline);
        append_question(list, node, sweep ? (first + i) % variables : notable_variable(r, variables));
    }
}

static unsigned question_count(struct random *r)
{
    unsigned chance = random_below(r, 100);
    if (chance < 5)
        return 0;
    if (chance < 60)
        return 1 + random_below(r, 8);
    if (chance < 75)
        return 1 + random_below(r, 40);
    return chance < 90 ? random_below(r, FLOW_MAX_QUESTIONS + 1) : FLOW_MAX_QUESTIONS;
}

/* One cause of 11, at any pair. */
static void damage_questions(struct random *r, const struct outline *outline, struct buffer *list)
{
    if (list->length == 0)
        append_questions(r, outline, 1, list);
    unsigned count = (unsigned)(list->length / FLOW_QUESTION_BYTES);
    uint8_t *node = list->bytes + random_below(r, count) * FLOW_QUESTION_BYTES;
    uint8_t *variable = node + 2;
    static const uint32_t far[] = {64, 128, 256, 512, 32768, 65472};
    switch (random_below(r, 8)) {
    case 0:
    case 1: put16(node, pick_expression(r, outline)); break;
    case 2: put16(node, outline->nodes + random_below(r, 2)); break;
    case 3: put16(node, get16(node) + FLOW_MAX_NODES * (1 + random_below(r, 15))); break; /* a command, but for the high bits */
    case 4: put16(variable, outline->variables + random_below(r, 2)); break;
    case 5: put16(variable, get16(variable) + far[random_below(r, 6)]); break;
    case 6: list->length -= 1 + random_below(r, 3); break;
    default: /* one pair too many, or some more; now and then the last is cut too */
        append_questions(r, outline, FLOW_MAX_QUESTIONS + 1 - count + (random_percent(r, 50) ? 0 : random_below(r, 260)), list);
        list->length -= random_percent(r, 20) ? 1 + random_below(r, 3) : 0;
    }
}

/* Pairs for a table that is refused: whatever they are, it must not show. */
static void append_blind_questions(struct random *r, struct buffer *list)
{
    for (unsigned count = random_below(r, random_percent(r, 10) ? 300 : 6); count > 0; count--)
        append_question(list, random_below(r, 40), random_below(r, 70));
    if (list->length > 0 && random_percent(r, 20))
        list->length -= 1 + random_below(r, 3);
}

static void generate_questions(struct random *r, const struct slice *table, struct buffer *list)
{
    if (reference_questions(table->bytes, table->length, NULL, 0, NULL, 0, NULL, 0) != FLOW_ACCEPTED) {
        append_blind_questions(r, list);
        return;
    }
    struct outline outline;
    find_outline(table, &outline);
    if (outline.variables > 0 || random_percent(r, 20))
        append_questions(r, &outline, question_count(r), list);
    if (random_percent(r, 20))
        damage_questions(r, &outline, list);
}

/* ---- Calls -------------------------------------------------------------------------------------------------------------- */

static void fill_slice(struct random *r, struct slice *s, size_t length)
{
    if (length == 0 && random_percent(r, 50)) {
        *s = (struct slice){0};
        return;
    }
    slice_new(s, length);
    random_fill(r, s->bytes, length);
}

/* A length that is right, or now and then not. */
static size_t odd_length(struct random *r, size_t right, unsigned percent)
{
    if (!random_percent(r, percent))
        return right;
    switch (random_below(r, 6)) {
    case 0: return 0;
    case 1: return right == 0 ? 1 : right - 1;
    case 2: return right + 1;
    case 3: return right < 4 ? right + 4 : right - 4;
    case 4: return right + 4;
    default: return random_below(r, 2 * (uint32_t)right + 9);
    }
}

static void fill_words(struct random *r, struct slice *s, size_t right)
{
    fill_slice(r, s, odd_length(r, right, 4));
    generate_words(r, s->bytes, s->length / 4);
}

static uint32_t generate_budget(struct random *r)
{
    switch (random_below(r, 8)) {
    case 0: return random_below(r, 3);
    case 1: return UINT32_MAX; /* the run ends when the observation buffer is full, since every loop shows its condition */
    case 2:
    case 3: return random_below(r, 30);
    default: return random_below(r, 1500);
    }
}

static size_t generate_room(struct random *r)
{
    switch (random_below(r, 4)) {
    case 0: return random_below(r, 8);
    case 1: return random_below(r, 61);
    case 2: return random_below(r, 400);
    default: return 3000;
    }
}

size_t output_length(const struct call *call)
{
    struct call trial = {.entry = call->entry};
    const struct slice *table = &call->slices[SLICE_TABLE];
    slice_from(&trial.slices[SLICE_TABLE], table->bytes, table->length);
    slice_new(&trial.slices[SLICE_OUTPUT], FLOW_SHEET_BYTES);
    slice_new(&trial.slices[SLICE_ANSWER], FLOW_ANSWER_BYTES);
    size_t length = call_reference(&trial) == FLOW_ACCEPTED ? call_answer(&trial, 1) : 40;
    call_free(&trial);
    return length;
}

static void lend_output(struct random *r, struct call *call)
{
    size_t right = output_length(call);
    fill_slice(r, &call->slices[SLICE_OUTPUT], random_percent(r, 40) ? right : odd_length(r, right, 100));
}

/* A length that tells whether the hardened table was sized right, or one at or beside that from which on nothing is sized. */
static size_t length_that_tells(struct random *r, size_t right, size_t unsized)
{
    switch (random_below(r, 10)) {
    case 0:
    case 1:
    case 2: return right;
    case 3:
    case 4: return right - 1;
    case 5: return right + 1;
    case 6: return right - 2 - random_below(r, 40);
    case 7: return unsized - 1;
    case 8: return unsized + random_below(r, 2);
    default: return FLOW_TABLE_BYTES;
    }
}

/* A table that hardens, with large expressions: most in conditions, some in values, some in any place. */
static void generate_large_expressions(struct random *r, struct plan *plan, struct buffer *table)
{
    unsigned chance = random_below(r, 100);
    unsigned level = COPIES_LEAST_LEVEL + random_below(r, plan->nodes);
    if (plan->variables == 0 || plan->variables == FLOW_MAX_VARIABLES)
        plan_variables(r, plan, plan->version, plan->variables == 0 ? 1 : FLOW_MAX_VARIABLES - 1);
    plan->long_expressions = 60;
    if (chance < 80)
        copies_table(r, plan, chance < 60 ? COPIES_MANY : COPIES_FEW, level, table);
    else
        generate_table(r, plan, table);
}

/* Hardening such a table into an output whose length depends on these expressions. */
static void lend_large_expressions(struct random *r, bool small, struct call *call)
{
    struct plan plan = plan_small(r, 1);
    struct buffer table = {0};
    unsigned most = small ? 60 : FLOW_MAX_HARDENED_NODES;
    plan.nodes = random_percent(r, 25) ? most : COPIES_LEAST_NODES + random_below(r, most - COPIES_LEAST_NODES);
    generate_large_expressions(r, &plan, &table);
    slice_free(&call->slices[SLICE_TABLE]);
    slice_free(&call->slices[SLICE_OUTPUT]);
    slice_from(&call->slices[SLICE_TABLE], table.bytes, table.length);
    buffer_free(&table);
    bool second = version_of(call->slices[SLICE_TABLE].bytes) == 2 || plan.variables == 32; /* is the output of version 2? */
    size_t unsized = (second ? 24 : 20) + 6 * (size_t)plan.arrays + 80 * (size_t)plan.nodes;
    fill_slice(r, &call->slices[SLICE_OUTPUT], length_that_tells(r, output_length(call), unsized));
}

static void lend_questions(struct random *r, struct call *call)
{
    struct buffer list = {0};
    generate_questions(r, &call->slices[SLICE_TABLE], &list);
    size_t right = list.length / FLOW_QUESTION_BYTES;
    if (list.length > 0 || random_percent(r, 50))
        slice_from(&call->slices[SLICE_QUESTIONS], list.bytes, list.length);
    fill_slice(r, &call->slices[SLICE_OUTPUT], random_percent(r, 50) ? right : odd_length(r, right, 100));
    buffer_free(&list);
}

/* The last directive of a list that fits becomes one that may not: a store at a read, a load at a branch, a force at a write. */
static void spoil_last_directive(struct random *r, struct buffer *list)
{
    size_t last = 0;
    for (size_t at = 0; at < list->length; at += get16(list->bytes + at))
        last = at;
    if (list->length == 0)
        return;
    unsigned kind = get16(list->bytes + last + 2);
    if (kind == FLOW_LOAD || kind == FLOW_STORE) {
        put16(list->bytes + last + 2, kind == FLOW_LOAD ? FLOW_STORE : FLOW_LOAD);
        return;
    }
    list->length = last;
    if (random_percent(r, 30))
        assemble_directive(list, FLOW_FORCE);
    else
        assemble_redirect(list, random_percent(r, 50) ? FLOW_LOAD : FLOW_STORE, 0, 0);
}

/* A rollback, somewhere: the guessing machine knows none and refuses the list, and on the other one most often no save is open. */
static void put_in_rollback(struct random *r, struct buffer *list)
{
    static const uint8_t rollback[] = {4, 0, FLOW_ROLLBACK, 0};
    size_t at = list->length;
    if (random_percent(r, 50))
        for (at = 0; at < list->length && random_percent(r, 70);)
            at += get16(list->bytes + at);
    insert_bytes(list, at, rollback, sizeof rollback);
}

static void lend_directives(struct random *r, struct call *call)
{
    struct buffer list = {0};
    if (random_percent(r, 70)) {
        unsigned most = random_below(r, 30), forces = random_below(r, 60), redirects = random_below(r, 60), rollbacks = random_below(r, 60);
        generate_script(r, call, &(struct manner){most, forces, redirects, rollbacks}, &list);
    }
    if (random_percent(r, 8))
        spoil_last_directive(r, &list);
    if (random_percent(r, 30))
        generate_directives(r, call->entry, 8, &list);
    if (random_percent(r, call->entry == ENTRY_GUESS ? 3 : 25))
        put_in_rollback(r, &list);
    if (random_percent(r, 8))
        damage_directives(r, &list);
    if (list.length > 0 || random_percent(r, 50))
        slice_from(&call->slices[SLICE_DIRECTIVES], list.bytes, list.length);
    buffer_free(&list);
}

/* As many bytes as are needed, or some more, or now and then another number. */
static void lend_saves(struct random *r, size_t right, struct call *call)
{
    size_t length = random_percent(r, 60) ? right : right + random_below(r, 40);
    fill_slice(r, &call->slices[SLICE_SAVES], odd_length(r, length, 10));
}

/* The call with other room for its observations, and an answer slice that suffices. */
static struct call with_room(const struct call *call, size_t room)
{
    struct call trial = call_copy(call);
    slice_free(&trial.slices[SLICE_OBSERVATIONS]);
    slice_free(&trial.slices[SLICE_ANSWER]);
    slice_new(&trial.slices[SLICE_OBSERVATIONS], room);
    slice_new(&trial.slices[SLICE_ANSWER], FLOW_ANSWER_BYTES);
    return trial;
}

/* The byte at which a rollback of the call is shown, one of them by chance, where there is room for all; or none, SIZE_MAX. */
static size_t find_rollback(struct random *r, const struct call *call)
{
    size_t found = SIZE_MAX;
    unsigned count = 0;
    struct call trial = with_room(call, 3000);
    const uint8_t *shown = trial.slices[SLICE_OBSERVATIONS].bytes;
    if (call_reference(&trial) == FLOW_ACCEPTED)
        for (size_t at = 0; at < call_answer(&trial, 4); at += get16(shown + at))
            if (get16(shown + at + 2) == FLOW_SHOWN_ROLLBACK && random_below(r, ++count) == 0)
                found = at;
    call_free(&trial);
    return found;
}

/* The steps before the rollback that is shown at this byte. */
static uint32_t steps_before(const struct call *call, size_t at)
{
    struct call trial = with_room(call, at);
    call_reference(&trial);
    uint32_t steps = (uint32_t)call_answer(&trial, 2);
    call_free(&trial);
    return steps;
}

/* Budget or room end at a rollback of the run, or just behind it. */
static void cut_at_rollback(struct random *r, struct call *call)
{
    size_t at = find_rollback(r, call);
    if (at == SIZE_MAX)
        return;
    slice_free(&call->slices[SLICE_OBSERVATIONS]);
    if (random_percent(r, 50)) {
        call->budget = steps_before(call, at) + (random_percent(r, 20) ? 1 : 0);
        fill_slice(r, &call->slices[SLICE_OBSERVATIONS], at + random_below(r, 30));
    } else
        fill_slice(r, &call->slices[SLICE_OBSERVATIONS], at + random_below(r, 5));
}

/* In the place of its list, one that guesses wrong nearly everywhere and undoes few of these or many, with budget and room for it. */
static void lend_deep_guesses(struct random *r, struct call *call)
{
    struct buffer list = {0};
    unsigned most = 10 + random_below(r, 20), rollbacks = random_percent(r, 50) ? 2 : 30;
    slice_free(&call->slices[SLICE_DIRECTIVES]);
    slice_free(&call->slices[SLICE_OBSERVATIONS]);
    fill_slice(r, &call->slices[SLICE_OBSERVATIONS], random_percent(r, 70) ? 3000 : 40 + random_below(r, 60));
    call->budget = 40 + random_below(r, 1000);
    generate_script(r, call, &(struct manner){.most = most, .forces = 97, .redirects = 50, .rollbacks = rollbacks}, &list);
    slice_from(&call->slices[SLICE_DIRECTIVES], list.bytes, list.length);
    buffer_free(&list);
}

static void lend_state(struct random *r, const struct plan *plan, struct call *call)
{
    size_t cells = 0;
    for (unsigned array = 0; array < plan->arrays; array++)
        cells += plan->counts[array];
    size_t nodes = 4 * (size_t)plan->nodes;
    fill_words(r, &call->slices[SLICE_VARIABLES], 4 * (size_t)plan->variables);
    fill_words(r, &call->slices[SLICE_CELLS], 4 * cells);
    fill_slice(r, &call->slices[SLICE_PENDING], random_percent(r, 60) ? nodes : nodes + random_below(r, 30));
    if (random_percent(r, 5)) {
        slice_free(&call->slices[SLICE_PENDING]);
        fill_slice(r, &call->slices[SLICE_PENDING], odd_length(r, nodes, 100));
    }
    fill_slice(r, &call->slices[SLICE_OBSERVATIONS], generate_room(r));
    call->budget = generate_budget(r);
    if (call->entry == ENTRY_ROLLBACK)
        lend_saves(r, flow_saves_bytes(plan->variables, cells, plan->nodes), call);
    if (call->entry == ENTRY_GUESS || call->entry == ENTRY_ROLLBACK)
        lend_directives(r, call);
    if (call->entry == ENTRY_ROLLBACK && random_percent(r, 60))
        lend_deep_guesses(r, call);
    if (call->entry == ENTRY_ROLLBACK && random_percent(r, 60))
        cut_at_rollback(r, call);
}

/* A variable, or a number that as an index of the array is mostly in bounds. */
static unsigned put_index(struct random *r, const struct plan *plan, unsigned array, struct buffer *t)
{
    if (random_percent(r, 25))
        return assemble_node1(t, FLOW_VARIABLE, planned_variable(r, plan));
    return assemble_node1(t, FLOW_NUMBER, random_below(r, plan->counts[array] + (random_percent(r, 25) ? 2u : 0u)));
}

static unsigned put_access(struct random *r, const struct plan *plan, struct buffer *t)
{
    unsigned array = random_below(r, plan->arrays), variable = planned_variable(r, plan);
    unsigned index = put_index(r, plan, array, t);
    if (random_percent(r, 55))
        return assemble_node3(t, FLOW_READ, variable, array, index);
    return assemble_node3(t, FLOW_WRITE, array, index, assemble_node1(t, FLOW_VARIABLE, variable));
}

/* if x<n then access else access */
static unsigned put_branch(struct random *r, const struct plan *plan, struct buffer *t)
{
    unsigned x = assemble_node1(t, FLOW_VARIABLE, planned_variable(r, plan));
    unsigned condition = assemble_node2(t, FLOW_LESS, x, assemble_node1(t, FLOW_NUMBER, random_below(r, 6)));
    unsigned one = put_access(r, plan, t);
    return assemble_node3(t, FLOW_IF, condition, one, put_access(r, plan, t));
}

/* x := x + 1 */
static unsigned put_count(struct buffer *t, unsigned variable)
{
    unsigned x = assemble_node1(t, FLOW_VARIABLE, variable);
    return assemble_node2(t, FLOW_ASSIGN, variable, assemble_node2(t, FLOW_ADD, x, assemble_node1(t, FLOW_NUMBER, 1)));
}

/* while x<n do access, or x := x + 1 */
static unsigned put_loop(struct random *r, const struct plan *plan, struct buffer *t)
{
    unsigned variable = planned_variable(r, plan);
    unsigned x = assemble_node1(t, FLOW_VARIABLE, variable);
    unsigned condition = assemble_node2(t, FLOW_LESS, x, assemble_node1(t, FLOW_NUMBER, random_below(r, 4)));
    unsigned body = random_percent(r, 25) ? put_access(r, plan, t) : put_count(t, variable);
    return assemble_node2(t, FLOW_WHILE, condition, body);
}

/*
 * In the place of the table, one of reads and writes one after another, of which `branches` percent stand behind branches, and of
 * these `loops` percent in loops, and a state for it: most runs of other tables come to no read or write, and here redirects and
 * rollbacks of each sort are used.
 */
static void lend_accesses(struct random *r, unsigned branches, unsigned loops, struct call *call)
{
    struct plan plan = {.variables = 1 + random_below(r, 4), .arrays = 1 + random_below(r, 3)};
    struct buffer table = {0};
    for (unsigned array = 0; array < plan.arrays; array++)
        plan.counts[array] = (uint16_t)(1 + random_below(r, 5));
    plan_version(r, &plan);
    plan.variables = plan.variables == 0 ? 1 : plan.variables;
    start_table(&plan, &table);
    unsigned all = put_branch(r, &plan, &table);
    for (unsigned more = random_below(r, 12); more > 0; more--) {
        unsigned next = !random_percent(r, branches) ? put_access(r, &plan, &table)
                        : random_percent(r, loops)   ? put_loop(r, &plan, &table)
                                                     : put_branch(r, &plan, &table);
        all = assemble_node2(&table, FLOW_SEQUENCE, all, next);
    }
    plan.nodes = all + 1;
    slice_free(&call->slices[SLICE_TABLE]);
    slice_from(&call->slices[SLICE_TABLE], table.bytes, table.length);
    buffer_free(&table);
    lend_state(r, &plan, call);
}

/* In the place of a table, the hardened one, where it hardens. */
static void harden_input(struct buffer *table)
{
    static uint8_t hardened[FLOW_TABLE_BYTES];
    uint8_t answer[16];
    if (reference_harden(table->bytes, table->length, hardened, sizeof hardened, answer, sizeof answer) != FLOW_ACCEPTED)
        return;
    table->length = 0;
    buffer_append(table, hardened, (size_t)get64(answer + 8));
}

/* A hardened table as an input, often that of a version 1 table with all its variables, which is one of version 2. */
static void generate_hardened(struct random *r, bool small, struct plan *plan, struct buffer *table)
{
    *plan = plan_small(r, small ? 8 : 60);
    if (random_percent(r, 40))
        plan_variables(r, plan, FLOW_VERSION, FLOW_MAX_VARIABLES_1);
    generate_table(r, plan, table);
    harden_input(table);
}

static void generate_chain(struct random *r, struct plan *plan, struct buffer *table)
{
    unsigned variables = 2 + random_below(r, FLOW_MAX_VARIABLES - 1), lowest = lowest_version(variables);
    shuffled_chain_table(r, random_percent(r, 50) ? lowest : FLOW_VERSION_2, variables, table);
    plan->arrays = 0;
}

static void generate_nested(struct random *r, struct plan *plan, struct buffer *table)
{
    nested_loops_table(1 + random_below(r, random_percent(r, 50) ? 62 : 510), table);
    plan->arrays = 0;
}

/* Any valid table, and the plan of the state that goes with it. */
static void generate_valid(struct random *r, bool small, struct plan *plan, struct buffer *table)
{
    unsigned chance = random_below(r, 100);
    if (!small && chance < 1)
        generate_nested(r, plan, table);
    else if (!small && chance < 2)
        generate_chain(r, plan, table);
    else if (chance < 10)
        generate_hardened(r, small, plan, table);
    else
        generate_table(r, plan, table);
    plan->variables = variables_of(table->bytes);
    plan->nodes = nodes_of(table->bytes);
}

/* As many variables as leave just one for the flag, in either version, or one more. */
static void plan_flag(struct random *r, struct plan *plan)
{
    static const uint8_t limits[] = {31, 32, 32, 32, 63, 64, 64};
    unsigned variables = limits[random_below(r, sizeof limits)];
    plan_variables(r, plan, random_percent(r, 80) ? FLOW_VERSION : FLOW_VERSION_2, variables);
}

/* Any table, and the plan of the state that goes with it. */
static void generate_input(struct random *r, bool small, enum entry entry, struct plan *plan, struct buffer *table)
{
    *plan = small ? plan_small(r, 60) : plan_any(r);
    if (random_percent(r, 3)) {
        generate_noise(r, table);
        return;
    }
    if (entry == ENTRY_HARDEN && random_percent(r, 30))
        plan_flag(r, plan);
    generate_valid(r, small, plan, table);
    if (random_percent(r, 25))
        damage_table(r, table);
}

void generate_call(struct random *r, bool small, struct call *call)
{
    struct buffer table = {0};
    struct plan plan;
    *call = (struct call){.entry = random_below(r, ENTRIES)};
    generate_input(r, small, call->entry, &plan, &table);
    if (table.length > 0 || random_percent(r, 50))
        slice_from(&call->slices[SLICE_TABLE], table.bytes, table.length);
    buffer_free(&table);
    unsigned whole = call->entry == ENTRY_ROLLBACK ? 85 : 50; /* percent; how a run ended is counted by its answer */
    fill_slice(r, &call->slices[SLICE_ANSWER], random_percent(r, whole) ? FLOW_ANSWER_BYTES : random_below(r, 61));
    if (call->entry == ENTRY_SHEET || call->entry == ENTRY_HARDEN)
        lend_output(r, call);
    else if (call->entry == ENTRY_QUESTIONS)
        lend_questions(r, call);
    else if (call->entry == ENTRY_GUESS && random_percent(r, 30))
        lend_accesses(r, 30, 0, call);
    else if (call->entry == ENTRY_ROLLBACK && random_percent(r, 75))
        lend_accesses(r, 75, 80, call);
    else
        lend_state(r, &plan, call);
    if (call->entry == ENTRY_HARDEN && random_percent(r, 20))
        lend_large_expressions(r, small, call);
}
