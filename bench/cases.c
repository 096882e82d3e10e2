#include "cases.h"

#include <stdio.h>
#include <string.h>

#include "records/assemble.h"
#include "flow.h"
#include "records/little_endian.h"

static bool all_hold;

static void expect(bool holds, const char *what)
{
    if (holds)
        return;
    all_hold = false;
    printf("case fails: %s\n", what);
}

/* ---- Small programs ----------------------------------------------------------------------------------------------------- */

static unsigned number(struct buffer *t, uint32_t value)
{
    return assemble_node1(t, FLOW_NUMBER, value);
}

static unsigned variable(struct buffer *t, unsigned x)
{
    return assemble_node1(t, FLOW_VARIABLE, x);
}

static unsigned skip(struct buffer *t)
{
    return assemble_node0(t, FLOW_SKIP);
}

/* x := y */
static unsigned move(struct buffer *t, unsigned x, unsigned y)
{
    unsigned from = variable(t, y);
    return assemble_node2(t, FLOW_ASSIGN, x, from);
}

static unsigned set(struct buffer *t, unsigned x, uint32_t value)
{
    unsigned to = number(t, value);
    return assemble_node2(t, FLOW_ASSIGN, x, to);
}

/* x = value, or x < value */
static unsigned compare(struct buffer *t, unsigned kind, unsigned x, uint32_t value)
{
    unsigned left = variable(t, x);
    unsigned right = number(t, value);
    return assemble_node2(t, kind, left, right);
}

static unsigned sequence(struct buffer *t, unsigned first, unsigned second)
{
    return assemble_node2(t, FLOW_SEQUENCE, first, second);
}

/* x:=y; (y:=z; z:=s), numbers 0 to 3, s secret; in a loop while x<3, if wanted */
static void chain_table(struct buffer *t, bool in_loop)
{
    assemble_table(t, 4, 0, NULL, 8, 0);
    unsigned condition = in_loop ? compare(t, FLOW_LESS, 0, 3) : 0;
    unsigned first = move(t, 0, 1);
    unsigned second = move(t, 1, 2);
    unsigned third = move(t, 2, 3);
    unsigned body = sequence(t, first, sequence(t, second, third));
    if (in_loop)
        assemble_node2(t, FLOW_WHILE, condition, body);
}

/* v0:=v1; (v1:=v2; ..) through so many variables, the last secret; in a loop while v0<3, if wanted */
static void long_chain_table(struct buffer *t, unsigned variables, bool in_loop)
{
    unsigned last = variables - 1;
    assemble_version(t, FLOW_VERSION_2, variables, 0, NULL, (uint64_t)1 << last, 0);
    unsigned condition = in_loop ? compare(t, FLOW_LESS, 0, 3) : 0;
    unsigned body = move(t, last - 1, last);
    for (unsigned v = last - 1; v-- > 0;) {
        unsigned first = move(t, v, v + 1);
        body = sequence(t, first, body);
    }
    if (in_loop)
        assemble_node2(t, FLOW_WHILE, condition, body);
}

/* while true do (v63:=v62; (v62:=v61; ..)), v0 secret: the last pass but one adds the highest bit alone */
static void falling_chain_table(struct buffer *t)
{
    assemble_version(t, FLOW_VERSION_2, 64, 0, NULL, 1, 0);
    unsigned condition = assemble_node1(t, FLOW_CONSTANT, 1);
    unsigned body = move(t, 1, 0);
    for (unsigned v = 2; v < 64; v++) {
        unsigned first = move(t, v, v - 1);
        body = sequence(t, first, body);
    }
    assemble_node2(t, FLOW_WHILE, condition, body);
}

/* while true do (q:=0; ((while true do (p:=q; q:=s)); x:=p)), q p x s numbers 0 to 3, s secret; hands the inner loop's node back */
static unsigned inner_loop_table(struct buffer *t)
{
    assemble_table(t, 4, 0, NULL, 8, 0);
    unsigned outer_condition = assemble_node1(t, FLOW_CONSTANT, 1);
    unsigned clear = set(t, 0, 0);
    unsigned inner_condition = assemble_node1(t, FLOW_CONSTANT, 1);
    unsigned first = move(t, 1, 0);
    unsigned second = move(t, 0, 3);
    unsigned inner = assemble_node2(t, FLOW_WHILE, inner_condition, sequence(t, first, second));
    unsigned last = move(t, 2, 1);
    unsigned body = sequence(t, clear, sequence(t, inner, last));
    assemble_node2(t, FLOW_WHILE, outer_condition, body);
    return inner;
}

/* if s=0 then x:=1 else skip, x 0, s 1 and secret; then x:=2, if wanted */
static void branch_table(struct buffer *t, bool then_assign)
{
    assemble_table(t, 2, 0, NULL, 2, 0);
    unsigned condition = compare(t, FLOW_EQUAL, 1, 0);
    unsigned one = set(t, 0, 1);
    unsigned other = skip(t);
    unsigned branch = assemble_node3(t, FLOW_IF, condition, one, other);
    if (then_assign)
        sequence(t, branch, set(t, 0, 2));
}

/* if x=0 then skip else skip */
static void skips_table(struct buffer *t, uint32_t secret, unsigned variables)
{
    assemble_table(t, variables, 0, NULL, secret, 0);
    unsigned condition = compare(t, FLOW_EQUAL, 0, 0);
    unsigned one = skip(t);
    unsigned other = skip(t);
    assemble_node3(t, FLOW_IF, condition, one, other);
}

/* Puts an expression given operands first, and answers its top: s is variable 0, a digit a number, m 65,536. */
static unsigned expression(struct buffer *t, const char *form)
{
    unsigned tops[8], count = 0;
    for (; *form; form++) {
        if (*form == '*' || *form == '+') {
            count--;
            tops[count - 1] = assemble_node2(t, *form == '*' ? FLOW_MULTIPLY : FLOW_ADD, tops[count - 1], tops[count]);
        } else if (*form == 's')
            tops[count++] = variable(t, 0);
        else
            tops[count++] = number(t, *form == 'm' ? 65536 : (uint32_t)(*form - '0'));
    }
    return tops[0];
}

/* if s*0=0 then skip else skip, s 0 and secret */
static void cleared_condition_table(struct buffer *t)
{
    assemble_table(t, 1, 0, NULL, 1, 0);
    unsigned left = expression(t, "s0*");
    unsigned condition = assemble_node2(t, FLOW_EQUAL, left, number(t, 0));
    unsigned one = skip(t);
    assemble_node3(t, FLOW_IF, condition, one, skip(t));
}

/* x:=a0[s*0], s 0 and secret, x 1, a0 public */
static void cleared_index_table(struct buffer *t)
{
    static const uint16_t counts[] = {4};
    assemble_table(t, 2, 1, counts, 1, 0);
    assemble_node3(t, FLOW_READ, 1, 0, expression(t, "s0*"));
}

/* i, j, x are variables 0, 1, 2 */
static void bounds_check_table(struct buffer *t)
{
    static const uint16_t counts[] = {4, 256, 1};
    assemble_table(t, 3, 3, counts, 0, 4);
    unsigned condition = compare(t, FLOW_LESS, 0, 4);
    unsigned i = variable(t, 0);
    unsigned first = assemble_node3(t, FLOW_READ, 1, 0, i);
    unsigned j = variable(t, 1);
    unsigned second = assemble_node3(t, FLOW_READ, 2, 1, j);
    unsigned reads = sequence(t, first, second);
    assemble_node3(t, FLOW_IF, condition, reads, skip(t));
}

/* As many skips as make this many nodes (odd), or one more by a loop that never turns. */
static void skip_chain_table(struct buffer *t, unsigned nodes, unsigned variables)
{
    assemble_table(t, variables, 0, NULL, 1, 0);
    unsigned condition = nodes % 2 == 0 ? assemble_node1(t, FLOW_NOT, assemble_node1(t, FLOW_CONSTANT, 1)) : 0;
    unsigned last = skip(t);
    if (nodes % 2 == 0)
        last = assemble_node2(t, FLOW_WHILE, condition, last);
    while (last + 1 < nodes)
        last = sequence(t, last, skip(t));
}

/* ---- The cases ---------------------------------------------------------------------------------------------------------- */

static uint8_t output[FLOW_SHEET_BYTES];
static uint8_t answer[FLOW_ANSWER_BYTES];

static uint64_t answered(unsigned number)
{
    return get64(answer + 8 * number);
}

static uint64_t sheet(const struct buffer *t)
{
    return flow_sheet(t->bytes, t->length, output, sizeof output, answer, sizeof answer);
}

static uint64_t harden(const struct buffer *t)
{
    return flow_harden(t->bytes, t->length, output, sizeof output, answer, sizeof answer);
}

static uint64_t ask(const struct buffer *t, const uint8_t *list, size_t length, uint8_t *labels, size_t room)
{
    return flow_questions(t->bytes, t->length, list, length, labels, room, answer, sizeof answer);
}

/* Puts a list of so many pairs: node and variable of each in turn. */
static void put_questions(uint8_t *list, const uint16_t *pairs, unsigned count)
{
    for (unsigned i = 0; i < 2 * count; i++)
        put16(list + 2 * i, pairs[i]);
}

/* Asks four pairs in one list and each alone, all with buffers of exact length. */
static bool answers(const struct buffer *t, const uint16_t *pairs, const uint8_t *wanted)
{
    uint8_t list[4 * FLOW_QUESTION_BYTES], labels[4], label;
    put_questions(list, pairs, 4);
    bool same = ask(t, list, sizeof list, labels, sizeof labels) == FLOW_ACCEPTED && answered(0) == FLOW_ACCEPTED &&
                answered(1) == 4 && memcmp(labels, wanted, sizeof labels) == 0;
    for (unsigned i = 0; i < 4; i++)
        same = same && ask(t, list + i * FLOW_QUESTION_BYTES, FLOW_QUESTION_BYTES, &label, 1) == FLOW_ACCEPTED &&
               answered(1) == 1 && label == wanted[i];
    return same;
}

static uint8_t room[FLOW_MAX_QUESTIONS + 1]; /* for labels */
enum { UNTOUCHED = 77 };

/* Asks a list that is to be refused where this much room is lent: by the number, place 0, and no label is written. */
static bool refuses(const struct buffer *t, const uint8_t *list, size_t length, size_t lent, uint64_t refusal)
{
    memset(room, UNTOUCHED, sizeof room);
    bool refused = ask(t, list, length, room, lent) == refusal && answered(0) == refusal && answered(1) == 0;
    for (size_t i = 0; i < sizeof room; i++)
        refused = refused && room[i] == UNTOUCHED;
    return refused;
}

/* The pair stands second, after a good one. */
static bool refuses_pair(const struct buffer *t, uint16_t node, uint16_t x)
{
    const uint16_t pairs[] = {11, 0, node, x};
    uint8_t list[2 * FLOW_QUESTION_BYTES];
    put_questions(list, pairs, 2);
    return refuses(t, list, sizeof list, sizeof room, FLOW_BAD_QUESTIONS);
}

static void case_no_bytes(void)
{
    expect(flow_sheet(NULL, 0, NULL, 0, answer, sizeof answer) == FLOW_CUT && answered(1) == 0, "no bytes: 1 at 0");
    expect(flow_harden(NULL, 0, NULL, 0, NULL, 0) == FLOW_CUT, "no bytes, nothing lent: 1");
    expect(flow_questions(NULL, 0, NULL, 0, NULL, 0, NULL, 0) == FLOW_CUT, "no bytes, nothing asked: 1");
}

static void case_limits(void)
{
    struct buffer t = {0};
    skip_chain_table(&t, 512, 1);
    expect(harden(&t) == FLOW_ACCEPTED, "N 512 hardens");
    buffer_free(&t);
    skip_chain_table(&t, 513, 1);
    expect(harden(&t) == FLOW_TOO_MANY_NODES && answered(1) == 0, "N 513 is 8");
    buffer_free(&t);
    skips_table(&t, 0, 63);
    expect(harden(&t) == FLOW_ACCEPTED, "V 63 hardens");
    buffer_free(&t);
    skips_table(&t, 0, 64);
    expect(harden(&t) == FLOW_NO_FREE_VARIABLE && answered(1) == 0, "V 64 is 9");
    buffer_free(&t);
    skip_chain_table(&t, 513, 64);
    expect(harden(&t) == FLOW_TOO_MANY_NODES && answered(1) == 0, "N 513 with V 64 is 8");
    buffer_free(&t);
}

static void case_chain(void)
{
    struct buffer t = {0};
    chain_table(&t, true);
    expect(sheet(&t) == FLOW_ACCEPTED && get32(output + 8) == 15, "the chain in a loop: variable mask 15");
    const uint8_t *loop = output + answered(1) - 14; /* the last record */
    expect(get16(loop + 2) == FLOW_SHEET_WHILE && get16(loop + 6) == 1 && get32(loop + 8) == 15, "its condition is secret");
    buffer_free(&t);
    chain_table(&t, false);
    expect(sheet(&t) == FLOW_ACCEPTED && get32(output + 8) == 12, "the chain without the loop: variable mask 12");
    buffer_free(&t);
}

static void case_branch(void)
{
    struct buffer t = {0};
    branch_table(&t, false);
    expect(sheet(&t) == FLOW_ACCEPTED && get32(output + 8) == 3, "assigned under a secret condition: secret");
    buffer_free(&t);
    branch_table(&t, true);
    expect(sheet(&t) == FLOW_ACCEPTED && get32(output + 8) == 2, "then assigned a number: public");
    buffer_free(&t);
}

static void case_sizes(void)
{
    struct buffer t = {0};
    skips_table(&t, 1, 1);
    expect(t.length == 60 && harden(&t) == FLOW_ACCEPTED && answered(1) == 274 && get16(output + 8) == 34,
           "6 nodes and 60 bytes become 34 nodes and 274 bytes");
    buffer_free(&t);
    skips_table(&t, 0, 1);
    expect(harden(&t) == FLOW_ACCEPTED && get16(output + 8) == 22, "x public: 22 nodes");
    buffer_free(&t);
}

/* The variable mask after y := the expression, s 0 and secret, y 1. */
static uint32_t mask_after(const char *form)
{
    struct buffer t = {0};
    assemble_table(&t, 2, 0, NULL, 1, 0);
    assemble_node2(&t, FLOW_ASSIGN, 1, expression(&t, form));
    expect(sheet(&t) == FLOW_ACCEPTED, form);
    buffer_free(&t);
    return get32(output + 8);
}

static void case_times_nought(void)
{
    expect(mask_after("s0*") == 1, "y:=s*0: y public");
    expect(mask_after("0s*") == 1, "y:=0*s: y public");
    expect(mask_after("s1+0*") == 1, "y:=(s+1)*0: y public");
    expect(mask_after("s0*s0**") == 1, "y:=(s*0)*(s*0): y public");
    expect(mask_after("s0*s*") == 3, "y:=(s*0)*s: y secret");
    expect(mask_after("s00+*") == 3, "y:=s*(0+0): y secret");
    expect(mask_after("s0*s+") == 3, "y:=s*0+s: y secret");
    expect(mask_after("s1*") == 3, "y:=s*1: y secret");
    expect(mask_after("sm*") == 3, "y:=s*65536, a number whose low 2 bytes are 0: y secret");
}

/* Where the product is not masked, the condition is copied three times as it is, and a read is followed by 8 nodes of mask. */
static void case_nought_hardened(void)
{
    struct buffer t = {0};
    cleared_condition_table(&t);
    expect(t.length == 76 && harden(&t) == FLOW_ACCEPTED && answered(1) == 232 && get16(output + 8) == 28,
           "if s*0=0: 8 nodes and 76 bytes become 28 nodes and 232 bytes");
    buffer_free(&t);
    cleared_index_table(&t);
    expect(sheet(&t) == FLOW_ACCEPTED && get32(output + 8) == 1 && get16(output + 20) == 0 && get16(output + 22) == 0,
           "x:=a0[s*0]: variable and index public");
    expect(t.length == 58 && harden(&t) == FLOW_ACCEPTED && answered(1) == 120 && get16(output + 8) == 12,
           "x:=a0[s*0]: 4 nodes and 58 bytes become 12 nodes and 120 bytes");
    buffer_free(&t);
}

/* A sequence of two skips, and between these eleven nodes that are no one's children. */
static void orphans_table(struct buffer *t)
{
    assemble_table(t, 0, 0, NULL, 0, 0);
    unsigned first = skip(t);
    for (unsigned orphans = 0; orphans < 11; orphans++)
        number(t, orphans);
    sequence(t, first, skip(t));
}

static void case_orphans(void)
{
    struct buffer t = {0};
    orphans_table(&t);
    expect(sheet(&t) == FLOW_NOT_A_TREE && answered(1) == 24, "eleven orphans: 6 at the record of the lowest-numbered");
    expect(harden(&t) == FLOW_NOT_A_TREE && answered(1) == 24, "eleven orphans, hardened: the same");
    buffer_free(&t);
}

static void case_questions(void)
{
    static const uint16_t in_chain[] = {11, 0, 11, 3, 4, 0, 10, 2};
    static const uint8_t chain_labels[] = {0, 1, 1, 1};
    struct buffer t = {0};
    chain_table(&t, true);
    expect(answers(&t, in_chain, chain_labels), "the chain asked: the loop as it is entered, what is inside as it settles");
    buffer_free(&t);
    static const uint16_t in_branch[] = {4, 0, 6, 1, 8, 0, 9, 0}; /* x before x:=1, s before the if, x before x:=2 and before all */
    static const uint8_t branch_labels[] = {0, 1, 1, 0};
    branch_table(&t, true);
    expect(answers(&t, in_branch, branch_labels), "the branch asked: the context is left out, a sequence is as it is entered");
    buffer_free(&t);
}

static void case_questions_of_loops(void)
{
    struct buffer t = {0};
    uint16_t inner = (uint16_t)inner_loop_table(&t);
    uint16_t outer = (uint16_t)(get16(t.bytes + 8) - 1);
    const uint16_t at_inner[] = {inner, 0, inner, 1, inner, 2, inner, 3};
    const uint16_t at_outer[] = {outer, 0, outer, 1, outer, 2, outer, 3};
    static const uint8_t inner_labels[] = {0, 1, 1, 1}, outer_labels[] = {0, 0, 0, 1};
    expect(answers(&t, at_inner, inner_labels), "a loop in a loop: its entry in the settled pass, before it settles itself");
    expect(answers(&t, at_outer, outer_labels), "the loop around it: as it is entered");
    buffer_free(&t);
}

/* On the chain in a loop, which has 12 nodes and 4 variables. */
static void case_questions_refused(void)
{
    uint8_t list[(FLOW_MAX_QUESTIONS + 1) * FLOW_QUESTION_BYTES];
    struct buffer t = {0};
    chain_table(&t, true);
    for (unsigned i = 0; i <= FLOW_MAX_QUESTIONS; i++)
        put_questions(list + i * FLOW_QUESTION_BYTES, (const uint16_t[]){11, 3}, 1);
    memset(room, UNTOUCHED, sizeof room);
    expect(ask(&t, list, 1024, room, sizeof room) == FLOW_ACCEPTED && answered(1) == 256 && room[0] == 1 && room[255] == 1 &&
               room[256] == UNTOUCHED,
           "256 pairs are accepted, and no byte beyond theirs is written");
    expect(ask(&t, NULL, 0, NULL, 0) == FLOW_ACCEPTED && answered(1) == 0, "no pairs: accepted, 0 bytes");
    expect(refuses(&t, list, 1028, sizeof room, FLOW_BAD_QUESTIONS), "257 pairs, 1,028 bytes: 11");
    expect(refuses(&t, list, 5, sizeof room, FLOW_BAD_QUESTIONS), "5 bytes, a list that ends inside a pair: 11");
    expect(refuses_pair(&t, 2, 0), "a node that is an expression: 11");
    expect(refuses_pair(&t, 12, 0), "a node not below N: 11");
    expect(refuses_pair(&t, 11 + 256, 0), "a node far above, whose low byte is a command's: 11");
    expect(refuses_pair(&t, 11, 4), "a variable not below V: 11");
    expect(refuses_pair(&t, 11, 256), "a variable far above, whose low byte is one's: 11");
    expect(refuses(&t, list, 16, 3, FLOW_OUTPUT_SHORT), "four pairs into 3 bytes: 23");
    expect(refuses(&t, list, 15, 0, FLOW_BAD_QUESTIONS), "11 comes before 23");
    buffer_append16(&t, 0);
    expect(ask(&t, list, 5, NULL, 0) == FLOW_EXTRA_BYTES && answered(1) == t.length - 2, "7 comes before 11");
    buffer_free(&t);
}

/* One run of the bounds check, on a table and with i as given.  Array 2 holds 77. */
static size_t guess_bounds_check(const uint8_t *table, size_t length, uint32_t i, const struct buffer *list, uint8_t *seen)
{
    uint8_t variables[4 * 4] = {0}, cells[4 * 261] = {0}, pending[4 * 256];
    size_t words = table[6];
    put32(variables, i);
    put32(cells + 4 * 260, 77);
    flow_guess(table, length, list->bytes, list->length, variables, 4 * words, cells, sizeof cells, pending, sizeof pending,
               seen, 60, 1000, answer, sizeof answer);
    return answered(4);
}

/* branch whether i<4, read 0 i, read 1 and the last index */
static bool shows_bounds_check(const uint8_t *seen, size_t length, uint8_t i, uint8_t last)
{
    const uint8_t shown[26] = {6, 0, 64, 0, i < 4, 0, 10, 0, 65, 0, 0, 0, i, 0, 0, 0, 10, 0, 65, 0, 1, 0, last};
    return length == sizeof shown && memcmp(seen, shown, sizeof shown) == 0;
}

static void case_bounds_check(void)
{
    struct buffer t = {0}, list = {0}, short_list = {0};
    uint8_t seen[60];
    bounds_check_table(&t);
    assemble_directive(&list, FLOW_FORCE);
    assemble_redirect(&list, FLOW_LOAD, 2, 0);
    assemble_directive(&list, FLOW_STEP);
    size_t length = guess_bounds_check(t.bytes, t.length, 4, &list, seen);
    expect(shows_bounds_check(seen, length, 4, 77), "bounds check, plain: branch 0, read 0 4, read 1 77");
    expect(harden(&t) == FLOW_ACCEPTED, "the bounds check hardens");
    size_t hardened = answered(1);
    length = guess_bounds_check(output, hardened, 4, &list, seen);
    expect(shows_bounds_check(seen, length, 4, 0), "bounds check, hardened: branch 0, read 0 4, read 1 0");
    assemble_directive(&short_list, FLOW_FORCE);
    assemble_redirect(&short_list, FLOW_LOAD, 2, 0);
    length = guess_bounds_check(t.bytes, t.length, 3, &short_list, seen);
    expect(length == 6 && get16(seen + 4) == 1 && answered(1) == FLOW_FINISHED && answered(3) == 1,
           "i = 3 with force, load: branch 1, finished, one directive used");
    buffer_free(&t);
    buffer_free(&list);
    buffer_free(&short_list);
}

/* A step or force for the branch, then load 2 0 and load 9 9: a cell that exists and one that does not. */
static void redirecting_script(struct buffer *list, unsigned branch)
{
    assemble_directive(list, branch);
    assemble_redirect(list, FLOW_LOAD, 2, 0);
    assemble_redirect(list, FLOW_LOAD, 9, 9);
}

static void case_redirects_in_bounds(void)
{
    struct buffer t = {0}, step = {0}, force = {0}, missing = {0};
    uint8_t seen[60];
    bounds_check_table(&t);
    redirecting_script(&step, FLOW_STEP);
    redirecting_script(&force, FLOW_FORCE);
    assemble_directive(&missing, FLOW_FORCE);
    assemble_redirect(&missing, FLOW_LOAD, 9, 9);
    size_t length = guess_bounds_check(t.bytes, t.length, 3, &step, seen);
    expect(shows_bounds_check(seen, length, 3, 0) && answered(1) == FLOW_FINISHED && answered(3) == 3 && answered(5) == 0,
           "i = 3 with step, load 2 0, load 9 9: the program's own cells, the flag clear, three directives used");
    length = guess_bounds_check(t.bytes, t.length, 4, &force, seen);
    expect(shows_bounds_check(seen, length, 4, 77) && answered(1) == FLOW_FINISHED && answered(3) == 3 && answered(5) == 1,
           "i = 4 with force, load 2 0, load 9 9: the secret cell, then array 1's own, the flag set");
    length = guess_bounds_check(t.bytes, t.length, 4, &missing, seen);
    expect(length == 6 && answered(1) == FLOW_STUCK && answered(3) == 1, "i = 4 with force, load 9 9: stuck, one directive used");
    expect(harden(&t) == FLOW_ACCEPTED, "the bounds check hardens");
    length = guess_bounds_check(output, answered(1), 4, &force, seen);
    expect(shows_bounds_check(seen, length, 4, 0), "i = 4 with force, load 2 0, load 9 9, hardened: branch 0, read 0 4, read 1 0");
    buffer_free(&t);
    buffer_free(&step);
    buffer_free(&force);
    buffer_free(&missing);
}

static uint8_t saves[4 * FLOW_MAX_SAVES * (4 + 261 + 64) + 1]; /* for the bounds check and its hardened table, and a byte more */

static size_t saves_needed(const uint8_t *table)
{
    return flow_saves_bytes(table[6], 261, get16(table + 8));
}

/* The same run on the machine that rolls back, with i = 4 and save words of exact length; `variables` has room for 4. */
static size_t roll_bounds_check(const uint8_t *table, size_t length, const struct buffer *list, uint8_t *variables, uint8_t *seen)
{
    uint8_t cells[4 * 261] = {0}, pending[4 * 64];
    size_t words = table[6];
    memset(variables, 0, 4 * words);
    put32(variables, 4);
    put32(cells + 4 * 260, 77);
    memset(saves, UNTOUCHED, sizeof saves);
    flow_rollback(table, length, list->bytes, list->length, variables, 4 * words, cells, sizeof cells, pending, sizeof pending,
                  saves, saves_needed(table), seen, 60, 1000, answer, sizeof answer);
    return answered(4);
}

static bool answers_run(uint64_t end, uint64_t steps, uint64_t used, uint64_t shown, uint64_t flag, uint64_t next)
{
    return answered(0) == FLOW_ACCEPTED && answered(1) == end && answered(2) == steps && answered(3) == used &&
           answered(4) == shown && answered(5) == flag && answered(6) == next;
}

/* These words from a place of the save words on, and zeros up to the end of what the table needs; then nothing is written. */
static bool saves_end(const uint8_t *table, size_t word, const uint32_t *words, size_t count)
{
    size_t needed = saves_needed(table);
    bool same = saves[needed] == UNTOUCHED;
    for (size_t i = 0; i < count; i++)
        same = same && get32(saves + 4 * (word + i)) == words[i];
    for (size_t at = 4 * (word + count); at < needed; at++)
        same = same && saves[at] == 0;
    return same;
}

static void case_rollback(void)
{
    static const uint8_t rolled_back[] = {4, 0, 67, 0};
    struct buffer t = {0}, list = {0};
    uint8_t variables[16], seen[60];
    bounds_check_table(&t);
    assemble_directive(&list, FLOW_FORCE);
    assemble_redirect(&list, FLOW_LOAD, 2, 0);
    assemble_directive(&list, FLOW_STEP);
    size_t length = roll_bounds_check(t.bytes, t.length, &list, variables, seen);
    expect(shows_bounds_check(seen, length, 4, 77) && answers_run(FLOW_FINISHED, 4, 3, 26, 1, 0) && get32(variables + 4) == 77,
           "force, load 2 0, step where guesses are undone: finished with the save open");
    expect(get32(saves) == 4 && get32(saves + 4) == 0 && get32(saves + 4 * 262) == 0 && saves_end(t.bytes, 263, (uint32_t[]){77, 8}, 2),
           "place 0 holds i = 4, the cells and the skip; all else is zeros");
    assemble_directive(&list, FLOW_ROLLBACK);
    length = roll_bounds_check(t.bytes, t.length, &list, variables, seen);
    expect(length == 30 && shows_bounds_check(seen, 26, 4, 77) && memcmp(seen + 26, rolled_back, 4) == 0 &&
               answers_run(FLOW_FINISHED, 6, 4, 30, 0, 0),
           "force, load 2 0, step, rollback: branch 0, read 0 4, read 1 77, rollback");
    expect(get32(variables) == 4 && get32(variables + 4) == 0 && get32(variables + 8) == 0 && saves_end(t.bytes, 0, NULL, 0),
           "the guess is undone: variables 4, 0, 0 and no save");
    expect(harden(&t) == FLOW_ACCEPTED, "the bounds check hardens");
    length = roll_bounds_check(output, answered(1), &list, variables, seen);
    expect(length == 30 && shows_bounds_check(seen, 26, 4, 0) && memcmp(seen + 26, rolled_back, 4) == 0 &&
               answers_run(FLOW_FINISHED, 13, 4, 30, 0, 0),
           "the same, hardened: branch 0, read 0 4, read 1 0, rollback");
    guess_bounds_check(t.bytes, t.length, 4, &list, seen);
    expect(answered(0) == FLOW_BAD_DIRECTIVES && answered(1) == 0, "the guessing machine refuses a rollback by 10");
    buffer_free(&t);
    buffer_free(&list);
}

/* while 0 do x:=x+1, played so many forces; `lent` bytes of save words */
static uint64_t force_loop(unsigned forces, size_t lent, uint8_t *variables)
{
    struct buffer t = {0}, list = {0};
    uint8_t pending[4 * 6];
    assemble_table(&t, 1, 0, NULL, 0, 0);
    unsigned condition = assemble_node1(&t, FLOW_CONSTANT, 0);
    unsigned x = variable(&t, 0);
    unsigned sum = assemble_node2(&t, FLOW_ADD, x, number(&t, 1));
    assemble_node2(&t, FLOW_WHILE, condition, assemble_node2(&t, FLOW_ASSIGN, 0, sum));
    for (unsigned i = 0; i < forces; i++)
        assemble_directive(&list, FLOW_FORCE);
    put32(variables, 0);
    memset(saves, UNTOUCHED, sizeof saves);
    uint64_t refusal = flow_rollback(t.bytes, t.length, list.bytes, list.length, variables, 4, NULL, 0, pending, sizeof pending,
                                     saves, lent, output, sizeof output, 1000, answer, sizeof answer);
    buffer_free(&t);
    buffer_free(&list);
    return refusal;
}

static void case_nine_forces(void)
{
    uint8_t variables[4];
    size_t needed = flow_saves_bytes(1, 0, 6);
    expect(force_loop(9, needed, variables) == FLOW_ACCEPTED && answers_run(FLOW_STUCK, 16, 8, 48, 1, 5) && get32(variables) == 8,
           "nine forces: the ninth is stuck");
    bool held = saves[needed] == UNTOUCHED;
    for (unsigned word = 0; word < 8 * 7; word++)
        held = held && get32(saves + 4 * word) == (word % 7 == 0 ? word / 7 : 0);
    expect(held, "eight saves, oldest first: x = 0 to 7, with empty lists");
    expect(force_loop(9, needed - 1, variables) == FLOW_SAVES_SHORT && answered(0) == FLOW_SAVES_SHORT && answered(1) == 0 &&
               get32(variables) == 0 && saves[0] == UNTOUCHED && saves[needed - 2] == UNTOUCHED,
           "save words a byte short: 24, and nothing is written");
}

static void case_budget_zero(void)
{
    struct buffer t = {0};
    uint8_t variables[12] = {0}, cells[4 * 261] = {0}, pending[4 * 32];
    bounds_check_table(&t);
    expect(flow_run(t.bytes, t.length, variables, sizeof variables, cells, sizeof cells, pending, sizeof pending, NULL, 0, 0,
                    answer, sizeof answer) == FLOW_ACCEPTED &&
               answered(1) == FLOW_SPENT && answered(2) == 0,
           "budget 0: spent, 0 steps");
    buffer_free(&t);
}

static void case_skip(void)
{
    static const uint8_t input[] = {10, 0, 1, 0, 1, 0, 0, 0, 1, 0, 10, 0, 3, 0, 0, 0, 0, 0, 0, 0, 4, 0, 48, 0};
    static const uint8_t wanted[] = {10, 0, 1, 0, 1, 0, 1, 0, 1, 0, 10, 0, 3, 0, 0, 0, 0, 0, 0, 0, 4, 0, 48, 0};
    expect(flow_harden(input, sizeof input, output, sizeof output, answer, sizeof answer) == FLOW_ACCEPTED &&
               answered(1) == sizeof wanted && memcmp(output, wanted, sizeof wanted) == 0,
           "skip hardens to the bytes that document 01 gives");
}

/* ---- Versions, by their bytes ------------------------------------------------------------------------------------------- */

/* Bytes as document 01 writes them: in hexadecimal, with spaces and bars between. */
static void written(const char *hex, struct buffer *bytes)
{
    unsigned value;
    for (; *hex; hex++)
        if (*hex != ' ' && *hex != '|') {
            uint8_t byte = sscanf(hex, "%2x", &value) == 1 ? (uint8_t)value : 0;
            buffer_append(bytes, &byte, 1);
            hex++;
        }
}

/* Is this what the call has written, all of it and nothing behind it? */
static bool is_written(const struct buffer *wanted)
{
    return answered(0) == FLOW_ACCEPTED && answered(1) == wanted->length && memcmp(output, wanted->bytes, wanted->length) == 0 &&
           output[wanted->length] == UNTOUCHED;
}

static void expect_sheet(const char *table, const char *wanted, const char *what)
{
    struct buffer t = {0}, w = {0};
    written(table, &t);
    written(wanted, &w);
    memset(output, UNTOUCHED, sizeof output);
    sheet(&t);
    expect(is_written(&w), what);
    buffer_free(&t);
    buffer_free(&w);
}

static void expect_hardened(const char *table, const char *wanted, const char *what)
{
    struct buffer t = {0}, w = {0};
    written(table, &t);
    written(wanted, &w);
    memset(output, UNTOUCHED, sizeof output);
    harden(&t);
    expect(is_written(&w), what);
    buffer_free(&t);
    buffer_free(&w);
}

/* By every entry, whatever else is lent. */
static void expect_refused(const char *table, uint64_t refusal, uint64_t place, const char *what)
{
    struct buffer t = {0};
    written(table, &t);
    expect(sheet(&t) == refusal && answered(1) == place, what);
    expect(ask(&t, NULL, 0, NULL, 0) == refusal && answered(1) == place, what);
    expect(harden(&t) == refusal && answered(1) == place, what);
    expect(flow_run(t.bytes, t.length, NULL, 0, NULL, 0, NULL, 0, NULL, 0, 0, answer, sizeof answer) == refusal &&
               answered(1) == place, what);
    expect(flow_guess(t.bytes, t.length, NULL, 0, NULL, 0, NULL, 0, NULL, 0, NULL, 0, 0, answer, sizeof answer) == refusal &&
               answered(1) == place, what);
    expect(flow_rollback(t.bytes, t.length, NULL, 0, NULL, 0, NULL, 0, NULL, 0, NULL, 0, NULL, 0, 0, answer, sizeof answer) ==
               refusal && answered(1) == place, what);
    buffer_free(&t);
}

static void case_versions_hardened(void)
{
    expect_hardened("0a00 0100 0100 1f 00 0100 | 0a00 0300 00000000 0000 | 0400 3000",
                    "0a00 0100 0100 20 00 0100 | 0a00 0300 00000000 0000 | 0400 3000", "version 1, V 31: version 1, V 32");
    expect_hardened("0a00 0100 0100 20 00 0100 | 0a00 0300 00000000 0000 | 0400 3000",
                    "0a00 0100 0200 21 00 0100 | 0e00 0300 0000000000000000 0000 | 0400 3000", "version 1, V 32: version 2, V 33");
    expect_hardened("0a00 0100 0200 05 00 0100 | 0e00 0300 1000000000000000 0000 | 0400 3000",
                    "0a00 0100 0200 06 00 0100 | 0e00 0300 1000000000000000 0000 | 0400 3000", "version 2, V 5: version 2, V 6");
    expect_hardened("0a00 0100 0200 3f 00 0100 | 0e00 0300 0000000000000040 0000 | 0400 3000",
                    "0a00 0100 0200 40 00 0100 | 0e00 0300 0000000000000040 0000 | 0400 3000", "version 2, V 63: version 2, V 64");
    /* x31 := a1[x0], x31 and a1 secret: nothing is masked, and the counts stand four bytes on */
    static const char declared_33[] = "0a00 0100 0200 21 02 0200 | 0e00 0300 0000008000000000 0200 | 0600 0200 0500 |"
                                      "0600 0200 0300 | 0600 1100 0000 | 0a00 3500 1f00 0100 0000";
    expect_hardened("0a00 0100 0100 20 02 0200 | 0a00 0300 00000080 0200 | 0600 0200 0500 | 0600 0200 0300 |"
                    "0600 1100 0000 | 0a00 3500 1f00 0100 0000",
                    declared_33, "version 1, V 32 with arrays: version 2, V 33, the same arrays and nodes");
    expect_hardened(declared_33,
                    "0a00 0100 0200 22 02 0200 | 0e00 0300 0000008000000000 0200 | 0600 0200 0500 | 0600 0200 0300 |"
                    "0600 1100 0000 | 0a00 3500 1f00 0100 0000",
                    "the same, hardened once more: version 2, V 34");
    /* x0 := a0[0], all public: it is followed by x0 := (x32 = 1) ? 0 : x0 */
    expect_hardened("0a00 0100 0100 20 01 0200 | 0a00 0300 00000000 0000 | 0600 0200 0400 | 0800 1000 00000000 |"
                    "0a00 3500 0000 0000 0000",
                    "0a00 0100 0200 21 01 0a00 | 0e00 0300 0000000000000000 0000 | 0600 0200 0400 | 0800 1000 00000000 |"
                    "0a00 3500 0000 0000 0000 | 0600 1100 2000 | 0800 1000 01000000 | 0800 2100 0200 0300 | 0800 1000 00000000 |"
                    "0600 1100 0000 | 0a00 1500 0400 0500 0600 | 0800 3100 0000 0700 | 0800 3200 0100 0800",
                    "version 1, V 32 with a read to mask: the flag is 32");
}

static void case_versions_labelled(void)
{
    expect_sheet("0a00 0100 0200 40 00 0100 | 0e00 0300 0000000000000080 0000 | 0400 3000",
                 "1200 8000 0200 0100 0000000000000080 0000", "version 2, V 64, v63 secret: a sheet of version 2");
    expect_sheet("0a00 0100 0200 21 00 0100 | 0e00 0300 0000000001000000 0000 | 0400 3000",
                 "1200 8000 0200 0100 0000000001000000 0000", "version 2, V 33, v32 secret: accepted");
    expect_sheet("0a00 0100 0100 20 00 0100 | 0a00 0300 00000000 0000 | 0400 3000",
                 "0e00 8000 0100 0100 00000000 0000", "version 1, V 32: a sheet of version 1");
}

static void case_versions_refused(void)
{
    expect_refused("0a00 0100 0100 21 00 0100 | 0a00 0300 00000000 0000 | 0400 3000", 3, 0, "V 33 in version 1: 3 at 0");
    expect_refused("0a00 0100 0200 41 00 0100 | 0e00 0300 0000000000000000 0000 | 0400 3000", 3, 0, "V 65 in version 2: 3 at 0");
    expect_refused("0a00 0100 0000 00 00 0100 | 0a00 0300 00000000 0000 | 0400 3000", 3, 0, "version 0: 3 at 0");
    expect_refused("0a00 0100 0300 00 00 0100 | 0e00 0300 0000000000000000 0000 | 0400 3000", 3, 0, "version 3: 3 at 0");
    expect_refused("0a00 0100 ffff 00 00 0100 | 0e00 0300 0000000000000000 0000 | 0400 3000", 3, 0, "version 65,535: 3 at 0");
    expect_refused("0a00 0100 0100 00 00 0100 | 0e00 0300 0000000000000000 0000 | 0400 3000", 2, 10,
                   "version 1 with a labels record of 14 bytes: 2 at 10");
    expect_refused("0a00 0100 0200 00 00 0100 | 0a00 0300 00000000 0000 | 0400 3000", 2, 10,
                   "version 2 with a labels record of 10 bytes: 2 at 10");
    expect_refused("0a00 0100 0200 21 00 0100 | 0e00 0300 0000000002000000 0000 | 0400 3000", 3, 10, "V 33, mask bit 33: 3 at 10");
    expect_refused("0a00 0100 0200 3f 00 0100 | 0e00 0300 0000000000000080 0000 | 0400 3000", 3, 10, "V 63, mask bit 63: 3 at 10");
    expect_refused("0a00 0100 0100 1f 00 0100 | 0a00 0300 00000080 0000 | 0400 3000", 3, 10, "V 31, mask bit 31: 3 at 10");
    expect_refused("0a00 0100 0200 00 00 0100 | 0e00 0300 00000000000000", 1, 10, "version 2, cut in the labels record: 1 at 10");
}

/* Every mask of a sheet of version 2 that has loops and sequences alone. */
static bool all_masks_are(uint64_t mask)
{
    size_t length = answered(1), at = 0;
    bool all = true;
    for (; at < length; at += get16(output + at)) {
        const uint8_t *masks = output + at + get16(output + at) - 10; /* at the end of each record */
        all = all && get64(masks) == mask && get16(masks + 8) == 0;
    }
    return all && at == length;
}

/* 63 moves and 62 sequences in a loop: 3 + 126 + 62 + 1 nodes; its sheet has 18 + 62 * 16 + 18 bytes. */
static void case_long_chain(void)
{
    static const uint16_t pairs[] = {191, 32, 191, 63, 189, 0, 189, 33}; /* before the loop, and before v0:=v1 in it */
    static const uint8_t labels[] = {0, 1, 1, 1};
    struct buffer t = {0};
    long_chain_table(&t, 64, true);
    expect(get16(t.bytes + 8) == 192 && sheet(&t) == FLOW_ACCEPTED && answered(1) == 1028 && all_masks_are(UINT64_MAX),
           "a chain through 64 variables in a loop: all of them secret");
    const uint8_t *loop = output + 1010; /* the last record */
    expect(get16(loop + 2) == FLOW_SHEET_WHILE && get16(loop + 6) == 1, "its condition is secret");
    expect(answers(&t, pairs, labels), "the chain asked: v32 as the loop is entered is public");
    expect(harden(&t) == FLOW_NO_FREE_VARIABLE, "it has no variable left for the flag");
    buffer_free(&t);
    falling_chain_table(&t);
    expect(sheet(&t) == FLOW_ACCEPTED && answered(1) == 1028 && all_masks_are(UINT64_MAX), "the other way round: all of them secret");
    buffer_free(&t);
    long_chain_table(&t, 64, false);
    expect(sheet(&t) == FLOW_ACCEPTED && answered(1) == 18 + 62 * 16 && get64(output + 8) == (uint64_t)3 << 62,
           "the same without the loop: v62 and v63 secret");
    buffer_free(&t);
    /* a condition of 7 nodes and 52 bytes, two updates of 11 and 84, the body's 185 and 1,356, and sequence, loop, sequence */
    long_chain_table(&t, 63, true);
    expect(t.length == 1410 && harden(&t) == FLOW_ACCEPTED && answered(1) == 1624 && get16(output + 4) == 2 && output[6] == 64 &&
               get16(output + 8) == 217,
           "through 63 variables: 189 nodes and 1,410 bytes become 217 nodes and 1,624 bytes, and 64 variables");
    expect(get16(output + 26) == FLOW_VARIABLE && get16(output + 28) == 63, "the first node is the flag, variable 63");
    buffer_free(&t);
}

/* Each of 64 variables gets the next one's value: 63 moves and 62 sequences. */
static void case_long_run(void)
{
    struct buffer t = {0};
    uint8_t variables[4 * FLOW_MAX_VARIABLES], pending[4 * 256];
    bool moved = true;
    long_chain_table(&t, 64, false);
    for (unsigned v = 0; v < 64; v++)
        put32(variables + 4 * v, 100 + v);
    uint64_t refusal = flow_run(t.bytes, t.length, variables, sizeof variables, NULL, 0, pending, sizeof pending, NULL, 0, 1000,
                                answer, sizeof answer);
    for (unsigned v = 0; v < 64; v++)
        moved = moved && get32(variables + 4 * v) == (v < 63 ? 101 + v : 163);
    expect(refusal == FLOW_ACCEPTED && answered(1) == FLOW_FINISHED && answered(2) == 125 && moved,
           "the chain through 64 variables run: each has the next one's value, after 125 steps");
    expect(flow_run(t.bytes, t.length, variables, 4 * 63, NULL, 0, pending, sizeof pending, NULL, 0, 1000, answer, sizeof answer) ==
               FLOW_VARIABLES_LENGTH, "63 variable words for 64 variables: 20");
    buffer_free(&t);
}

/* ---- All ----------------------------------------------------------------------------------------------------------------- */

bool cases_hold(void)
{
    all_hold = true;
    case_no_bytes();
    case_limits();
    case_chain();
    case_branch();
    case_sizes();
    case_times_nought();
    case_nought_hardened();
    case_orphans();
    case_questions();
    case_questions_of_loops();
    case_questions_refused();
    case_bounds_check();
    case_redirects_in_bounds();
    case_rollback();
    case_nine_forces();
    case_budget_zero();
    case_skip();
    case_versions_hardened();
    case_versions_labelled();
    case_versions_refused();
    case_long_chain();
    case_long_run();
    return all_hold;
}
