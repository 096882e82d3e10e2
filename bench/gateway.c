#include "gateway.h"

#include "declarations.h"
#include "flow.h"
#include "records/kinds.h"

enum { DEEPEST = 64 }; /* nodes that wait for their parent, at most */

/* ---- Nodes in post-order ------------------------------------------------------------------------------------------------ */

/* Takes the children of a node, the last nodes that wait, and puts it with them; `own` are its fields that are no child. */
static const uint32_t *put_node(struct buffer *t, unsigned kind, const uint32_t *own, unsigned *waiting, unsigned *count)
{
    const char *letters = fields_of(kind);
    uint32_t fields[3];
    unsigned children = 0, taken = 0;
    for (unsigned i = 0; letters[i]; i++)
        children += is_child(letters[i]);
    for (unsigned i = 0; letters[i]; i++)
        fields[i] = is_child(letters[i]) ? waiting[*count - children + taken++] : *own++;
    *count -= children;
    waiting[(*count)++] = assemble_node(t, kind, fields);
    return own;
}

/* Each node is given by its kind and its fields that are no child, after its children; behind the last stands 0. */
static void put_nodes(struct buffer *t, const uint32_t *nodes)
{
    unsigned waiting[DEEPEST], count = 0;
    while (*nodes != 0) {
        unsigned kind = *nodes++;
        nodes = put_node(t, kind, nodes, waiting, &count);
    }
}

/* ---- Programs ----------------------------------------------------------------------------------------------------------- */

/*
 * Document 01's bounds check, then a look-up (examples/bounds.flow):
 * if i<4 then (j:=sizes[i]; x:=page[j]) else skip
 */
static void bounds_check(struct buffer *t)
{
    enum { I, J, X, VARIABLES };
    enum { SIZES, PAGE, KEYS, ARRAYS };
    static const uint32_t nodes[] = {
        FLOW_VARIABLE, I, FLOW_NUMBER, 4, FLOW_LESS,
        FLOW_VARIABLE, I, FLOW_READ, J, SIZES,
        FLOW_VARIABLE, J, FLOW_READ, X, PAGE, FLOW_SEQUENCE,
        FLOW_SKIP, FLOW_IF, 0};
    assemble_table(t, VARIABLES, ARRAYS, (const uint16_t[ARRAYS]){4, 256, 1}, 0, 1u << KEYS);
    put_nodes(t, nodes);
}

/*
 * A select in constant time: x and y are exchanged where a secret bit says so.
 * z:=(bit=1) ? y : x; (y:=(bit=1) ? x : y; x:=z)
 */
static void secret_select(struct buffer *t)
{
    enum { BIT, X, Y, Z, VARIABLES };
    static const uint32_t nodes[] = {
        FLOW_VARIABLE, BIT, FLOW_NUMBER, 1, FLOW_EQUAL, FLOW_VARIABLE, Y, FLOW_VARIABLE, X, FLOW_CHOICE, FLOW_ASSIGN, Z,
        FLOW_VARIABLE, BIT, FLOW_NUMBER, 1, FLOW_EQUAL, FLOW_VARIABLE, X, FLOW_VARIABLE, Y, FLOW_CHOICE, FLOW_ASSIGN, Y,
        FLOW_VARIABLE, Z, FLOW_ASSIGN, X, FLOW_SEQUENCE, FLOW_SEQUENCE, 0};
    assemble_table(t, VARIABLES, 0, NULL, 1u << BIT, 0);
    put_nodes(t, nodes);
}

/*
 * A counter of each unit, which stays at its limit:
 * if unit<8 then (c:=counts[unit]; ((if c<limit then c:=c+1 else full:=1); counts[unit]:=c)) else skip
 */
static void saturating_counter(struct buffer *t)
{
    enum { UNIT, C, LIMIT, FULL, VARIABLES };
    enum { COUNTS, KEYS, ARRAYS };
    static const uint32_t nodes[] = {
        FLOW_VARIABLE, UNIT, FLOW_NUMBER, 8, FLOW_LESS,
        FLOW_VARIABLE, UNIT, FLOW_READ, C, COUNTS,
        FLOW_VARIABLE, C, FLOW_VARIABLE, LIMIT, FLOW_LESS,
        FLOW_VARIABLE, C, FLOW_NUMBER, 1, FLOW_ADD, FLOW_ASSIGN, C,
        FLOW_NUMBER, 1, FLOW_ASSIGN, FULL, FLOW_IF,
        FLOW_VARIABLE, UNIT, FLOW_VARIABLE, C, FLOW_WRITE, COUNTS, FLOW_SEQUENCE, FLOW_SEQUENCE,
        FLOW_SKIP, FLOW_IF, 0};
    assemble_table(t, VARIABLES, ARRAYS, (const uint16_t[ARRAYS]){8, 4}, 0, 1u << KEYS);
    put_nodes(t, nodes);
}

/*
 * A look-up through two tables, the price of a tariff:
 * if meter<16 then (tariff:=tariffs[meter]; if tariff<8 then (price:=prices[tariff]; cost:=cost+price*energy)
 *   else faults:=faults+1) else faults:=faults+1
 */
static void two_tables(struct buffer *t)
{
    enum { METER, TARIFF, PRICE, ENERGY, COST, FAULTS, VARIABLES };
    enum { TARIFFS, PRICES, KEYS, ARRAYS };
    static const uint32_t nodes[] = {
        FLOW_VARIABLE, METER, FLOW_NUMBER, 16, FLOW_LESS,
        FLOW_VARIABLE, METER, FLOW_READ, TARIFF, TARIFFS,
        FLOW_VARIABLE, TARIFF, FLOW_NUMBER, 8, FLOW_LESS,
        FLOW_VARIABLE, TARIFF, FLOW_READ, PRICE, PRICES,
        FLOW_VARIABLE, COST, FLOW_VARIABLE, PRICE, FLOW_VARIABLE, ENERGY, FLOW_MULTIPLY, FLOW_ADD, FLOW_ASSIGN, COST,
        FLOW_SEQUENCE,
        FLOW_VARIABLE, FAULTS, FLOW_NUMBER, 1, FLOW_ADD, FLOW_ASSIGN, FAULTS, FLOW_IF, FLOW_SEQUENCE,
        FLOW_VARIABLE, FAULTS, FLOW_NUMBER, 1, FLOW_ADD, FLOW_ASSIGN, FAULTS, FLOW_IF, 0};
    assemble_table(t, VARIABLES, ARRAYS, (const uint16_t[ARRAYS]){16, 8, 4}, 0, 1u << KEYS);
    put_nodes(t, nodes);
}

/*
 * A copy whose length is checked, into a frame behind a head of four words:
 * (if length<65 then while i<length do (byte:=received[i]; (frame[i+4]:=byte; i:=i+1))
 *   else (dropped:=dropped+1; length:=0)); frame[0]:=length
 */
static void checked_copy(struct buffer *t)
{
    enum { LENGTH, I, BYTE, DROPPED, VARIABLES };
    enum { RECEIVED, FRAME, KEYS, ARRAYS };
    static const uint32_t nodes[] = {
        FLOW_VARIABLE, LENGTH, FLOW_NUMBER, 65, FLOW_LESS,
        FLOW_VARIABLE, I, FLOW_VARIABLE, LENGTH, FLOW_LESS,
        FLOW_VARIABLE, I, FLOW_READ, BYTE, RECEIVED,
        FLOW_VARIABLE, I, FLOW_NUMBER, 4, FLOW_ADD, FLOW_VARIABLE, BYTE, FLOW_WRITE, FRAME,
        FLOW_VARIABLE, I, FLOW_NUMBER, 1, FLOW_ADD, FLOW_ASSIGN, I, FLOW_SEQUENCE, FLOW_SEQUENCE, FLOW_WHILE,
        FLOW_VARIABLE, DROPPED, FLOW_NUMBER, 1, FLOW_ADD, FLOW_ASSIGN, DROPPED,
        FLOW_NUMBER, 0, FLOW_ASSIGN, LENGTH, FLOW_SEQUENCE, FLOW_IF,
        FLOW_NUMBER, 0, FLOW_VARIABLE, LENGTH, FLOW_WRITE, FRAME, FLOW_SEQUENCE, 0};
    assemble_table(t, VARIABLES, ARRAYS, (const uint16_t[ARRAYS]){64, 68, 4}, 0, 1u << KEYS);
    put_nodes(t, nodes);
}

/*
 * A PIN is compared, of which three wrong ones are allowed:
 * if tries<3 then ((while i<4 do (digit:=entered[i]; (right:=pin[i]; (wrong:=(digit=right) ? wrong : 1; i:=i+1))));
 *   if wrong=0 then (open:=1; tries:=0) else tries:=tries+1) else skip
 */
static void pin_compare(struct buffer *t)
{
    enum { TRIES, I, DIGIT, RIGHT, WRONG, OPEN, VARIABLES };
    enum { ENTERED, PIN, ARRAYS };
    static const uint32_t nodes[] = {
        FLOW_VARIABLE, TRIES, FLOW_NUMBER, 3, FLOW_LESS,
        FLOW_VARIABLE, I, FLOW_NUMBER, 4, FLOW_LESS,
        FLOW_VARIABLE, I, FLOW_READ, DIGIT, ENTERED,
        FLOW_VARIABLE, I, FLOW_READ, RIGHT, PIN,
        FLOW_VARIABLE, DIGIT, FLOW_VARIABLE, RIGHT, FLOW_EQUAL, FLOW_VARIABLE, WRONG, FLOW_NUMBER, 1, FLOW_CHOICE,
        FLOW_ASSIGN, WRONG,
        FLOW_VARIABLE, I, FLOW_NUMBER, 1, FLOW_ADD, FLOW_ASSIGN, I,
        FLOW_SEQUENCE, FLOW_SEQUENCE, FLOW_SEQUENCE, FLOW_WHILE,
        FLOW_VARIABLE, WRONG, FLOW_NUMBER, 0, FLOW_EQUAL,
        FLOW_NUMBER, 1, FLOW_ASSIGN, OPEN, FLOW_NUMBER, 0, FLOW_ASSIGN, TRIES, FLOW_SEQUENCE,
        FLOW_VARIABLE, TRIES, FLOW_NUMBER, 1, FLOW_ADD, FLOW_ASSIGN, TRIES, FLOW_IF, FLOW_SEQUENCE,
        FLOW_SKIP, FLOW_IF, 0};
    assemble_table(t, VARIABLES, ARRAYS, (const uint16_t[ARRAYS]){4, 4}, 0, 1u << PIN);
    put_nodes(t, nodes);
}

/*
 * The words of a key schedule from the fifth on; to each fourth the round is added:
 * while i<44 do (word:=words[i-1]; (old:=words[i-4]; ((if part=4 then (word:=word*256+round; (round:=round*2; part:=0))
 *   else skip); (words[i]:=old+word; (i:=i+1; part:=part+1)))))
 */
static void key_schedule(struct buffer *t)
{
    enum { I, PART, ROUND, WORD, OLD, VARIABLES };
    enum { WORDS, ARRAYS };
    static const uint32_t nodes[] = {
        FLOW_VARIABLE, I, FLOW_NUMBER, 44, FLOW_LESS,
        FLOW_VARIABLE, I, FLOW_NUMBER, 1, FLOW_SUBTRACT, FLOW_READ, WORD, WORDS,
        FLOW_VARIABLE, I, FLOW_NUMBER, 4, FLOW_SUBTRACT, FLOW_READ, OLD, WORDS,
        FLOW_VARIABLE, PART, FLOW_NUMBER, 4, FLOW_EQUAL,
        FLOW_VARIABLE, WORD, FLOW_NUMBER, 256, FLOW_MULTIPLY, FLOW_VARIABLE, ROUND, FLOW_ADD, FLOW_ASSIGN, WORD,
        FLOW_VARIABLE, ROUND, FLOW_NUMBER, 2, FLOW_MULTIPLY, FLOW_ASSIGN, ROUND,
        FLOW_NUMBER, 0, FLOW_ASSIGN, PART, FLOW_SEQUENCE, FLOW_SEQUENCE, FLOW_SKIP, FLOW_IF,
        FLOW_VARIABLE, I, FLOW_VARIABLE, OLD, FLOW_VARIABLE, WORD, FLOW_ADD, FLOW_WRITE, WORDS,
        FLOW_VARIABLE, I, FLOW_NUMBER, 1, FLOW_ADD, FLOW_ASSIGN, I,
        FLOW_VARIABLE, PART, FLOW_NUMBER, 1, FLOW_ADD, FLOW_ASSIGN, PART,
        FLOW_SEQUENCE, FLOW_SEQUENCE, FLOW_SEQUENCE, FLOW_SEQUENCE, FLOW_SEQUENCE, FLOW_WHILE, 0};
    assemble_table(t, VARIABLES, ARRAYS, (const uint16_t[ARRAYS]){44}, 1u << WORD | 1u << OLD, 1u << WORDS);
    put_nodes(t, nodes);
}

/*
 * Messages of the kinds that a rule allows are passed on:
 * while i<count and i<32 do (kind:=kinds[i]; ((if kind<8 then (rule:=rules[kind]; if rule=1 and sent<16
 *   then (value:=values[i]; (out[sent]:=value; sent:=sent+1)) else dropped:=dropped+1) else dropped:=dropped+1); i:=i+1))
 */
static void message_filter(struct buffer *t)
{
    enum { I, COUNT, KIND, RULE, VALUE, SENT, DROPPED, VARIABLES };
    enum { KINDS, RULES, VALUES, OUT, ARRAYS };
    static const uint32_t nodes[] = {
        FLOW_VARIABLE, I, FLOW_VARIABLE, COUNT, FLOW_LESS, FLOW_VARIABLE, I, FLOW_NUMBER, 32, FLOW_LESS, FLOW_AND,
        FLOW_VARIABLE, I, FLOW_READ, KIND, KINDS,
        FLOW_VARIABLE, KIND, FLOW_NUMBER, 8, FLOW_LESS,
        FLOW_VARIABLE, KIND, FLOW_READ, RULE, RULES,
        FLOW_VARIABLE, RULE, FLOW_NUMBER, 1, FLOW_EQUAL, FLOW_VARIABLE, SENT, FLOW_NUMBER, 16, FLOW_LESS, FLOW_AND,
        FLOW_VARIABLE, I, FLOW_READ, VALUE, VALUES,
        FLOW_VARIABLE, SENT, FLOW_VARIABLE, VALUE, FLOW_WRITE, OUT,
        FLOW_VARIABLE, SENT, FLOW_NUMBER, 1, FLOW_ADD, FLOW_ASSIGN, SENT, FLOW_SEQUENCE, FLOW_SEQUENCE,
        FLOW_VARIABLE, DROPPED, FLOW_NUMBER, 1, FLOW_ADD, FLOW_ASSIGN, DROPPED, FLOW_IF, FLOW_SEQUENCE,
        FLOW_VARIABLE, DROPPED, FLOW_NUMBER, 1, FLOW_ADD, FLOW_ASSIGN, DROPPED, FLOW_IF,
        FLOW_VARIABLE, I, FLOW_NUMBER, 1, FLOW_ADD, FLOW_ASSIGN, I, FLOW_SEQUENCE, FLOW_SEQUENCE, FLOW_WHILE, 0};
    assemble_table(t, VARIABLES, ARRAYS, (const uint16_t[ARRAYS]){32, 8, 32, 16}, 1u << VALUE, 1u << VALUES | 1u << OUT);
    put_nodes(t, nodes);
}

/* ---- All of them -------------------------------------------------------------------------------------------------------- */

static void (*const programs[SAMPLES])(struct buffer *t) = {
    bounds_check, secret_select, saturating_counter, two_tables, checked_copy, pin_compare, key_schedule, message_filter};

void gateway_table(unsigned nodes, unsigned sample, struct buffer *table)
{
    (void)nodes;
    programs[sample](table);
}

unsigned gateway_mean_nodes(void)
{
    unsigned sum = 0;
    for (unsigned sample = 0; sample < SAMPLES; sample++) {
        struct buffer table = {0};
        programs[sample](&table);
        sum += nodes_of(table.bytes);
        buffer_free(&table);
    }
    return sum / SAMPLES;
}
