#include "settling.h"

#include <stdbool.h>

#include "declarations.h"
#include "flow.h"

enum { CHAIN = 30, Y = CHAIN, VARIABLES }; /* x0 to x29, and y */
enum { LONGEST_COMMAND = 6 };

/* The commands of a loop's body, before they are joined. */
struct body {
    struct buffer *table;
    unsigned commands[FLOW_MAX_NODES], count;
};

static void add_command(struct body *body, unsigned command)
{
    body->commands[body->count++] = command;
}

/* How many nodes the table will have with the sequences that join the commands, and the loop. */
static unsigned nodes_when_joined(const struct body *body)
{
    return nodes_of(body->table->bytes) + body->count;
}

static void add_chain(struct body *body)
{
    struct buffer *t = body->table;
    for (unsigned x = 0; x + 1 < CHAIN; x++)
        add_command(body, assemble_node2(t, FLOW_ASSIGN, x, assemble_node1(t, FLOW_VARIABLE, x + 1)));
}

/* skip; y:=y+1; y:=a0[y]; a0[y]:=1; if y<9 then skip else skip: one of them, the next in turn. */
static unsigned put_command(struct buffer *t, unsigned turn)
{
    if (turn % 5 == 0)
        return assemble_node0(t, FLOW_SKIP);
    unsigned y = assemble_node1(t, FLOW_VARIABLE, Y);
    if (turn % 5 == 1)
        return assemble_node2(t, FLOW_ASSIGN, Y, assemble_node2(t, FLOW_ADD, y, assemble_node1(t, FLOW_NUMBER, 1)));
    if (turn % 5 == 2)
        return assemble_node3(t, FLOW_READ, Y, 0, y);
    if (turn % 5 == 3)
        return assemble_node3(t, FLOW_WRITE, 0, y, assemble_node1(t, FLOW_NUMBER, 1));
    unsigned condition = assemble_node2(t, FLOW_LESS, y, assemble_node1(t, FLOW_NUMBER, 9));
    unsigned skip = assemble_node0(t, FLOW_SKIP);
    return assemble_node3(t, FLOW_IF, condition, skip, assemble_node0(t, FLOW_SKIP));
}

/* Room is left for what an odd number of nodes takes. */
static void add_mixed(struct body *body, unsigned nodes, unsigned turn)
{
    while (nodes_when_joined(body) + 2 * (LONGEST_COMMAND + 1) <= nodes)
        add_command(body, put_command(body->table, turn++));
}

/* Fills up with skips, each two nodes with its sequence, behind y:=1, three nodes, where an odd number is left. */
static void add_skips(struct body *body, unsigned nodes)
{
    struct buffer *t = body->table;
    if ((nodes - nodes_when_joined(body)) % 2 == 1)
        add_command(body, assemble_node2(t, FLOW_ASSIGN, Y, assemble_node1(t, FLOW_NUMBER, 1)));
    while (nodes_when_joined(body) < nodes)
        add_command(body, assemble_node0(t, FLOW_SKIP));
}

/* As `first; second; third` is read: first; (second; third). */
static unsigned join_commands(struct body *body)
{
    unsigned joined = body->commands[--body->count];
    while (body->count > 0)
        joined = assemble_node2(body->table, FLOW_SEQUENCE, body->commands[--body->count], joined);
    return joined;
}

static void put_loop(unsigned nodes, unsigned sample, bool mixed, struct buffer *t)
{
    const uint16_t cells = 16;
    struct body body = {.table = t};
    assemble_table(t, VARIABLES, 1, &cells, 1u << (CHAIN - 1), 0);
    unsigned y = assemble_node1(t, FLOW_VARIABLE, Y);
    unsigned condition = assemble_node2(t, FLOW_LESS, y, assemble_node1(t, FLOW_NUMBER, 100));
    add_chain(&body);
    if (mixed)
        add_mixed(&body, nodes, sample);
    add_skips(&body, nodes);
    assemble_node2(t, FLOW_WHILE, condition, join_commands(&body));
}

void settling_table(unsigned nodes, unsigned sample, struct buffer *table)
{
    put_loop(nodes, sample, true, table);
}

void settling_skips_table(unsigned nodes, unsigned sample, struct buffer *table)
{
    put_loop(nodes, sample, false, table);
}
