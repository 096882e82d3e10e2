/*
 * Text and tables, there and back: on generated tables, on what hardening makes of them and on the deepest tables.
 * round_trips [SEED [COUNT]]
 *   a table in post-order:  the table assembled from its listing is the table, byte for byte;
 *   any other:              the listing of the table assembled from its listing is its listing.
 * Generated tables come in three orders of nodes; hardened and assembled ones are in post-order.  Tables are of both versions, and
 * a listing begins with `version 2` just where version 1 declares as many variables.
 */
#include <stdbool.h>
#include <stdlib.h>
#include <string.h>

#include "../../bench/generate.h"
#include "library/calls.h"
#include "memory.h"
#include "records/kinds.h"
#include "text/source.h"
#include "widen.h"

enum { TABLES = 10000 };

struct counts {
    unsigned post_order, other, hardened; /* tables listed and assembled, those assembled from others among the first */
    unsigned version_told, version_2;     /* of version 2: with a listing that says so, and with more variables */
};

static void die(const char *what, const struct buffer *table)
{
    fprintf(stderr, "round trips: %s\n", what);
    print_hex(stderr, table->bytes, table->length);
    fputc('\n', stderr);
    exit(1);
}

static void list(const struct buffer *bytes, bool flag, struct buffer *text)
{
    if (!listing_of(bytes, flag, text))
        die("the library refuses this table", bytes);
}

/* Does each node stand right behind its parts, from left to right, each with all that is in it? */
static bool in_post_order(const struct table *table)
{
    unsigned first[FLOW_MAX_NODES]; /* of each node: where what is in it begins */
    for (unsigned node = 0; node < table->nodes; node++) {
        const char *letters = fields_of(table_kind(table, node));
        unsigned behind = node; /* the last part ends right before the node, and each other right before the next one begins */
        for (size_t i = strlen(letters); i-- > 0;) {
            if (!is_child(letters[i]))
                continue;
            unsigned child = table_field(table, node, (unsigned)i);
            if (child + 1 != behind)
                return false;
            behind = first[child];
        }
        first[node] = behind;
    }
    return true;
}

static void check_version(const struct buffer *bytes, const struct buffer *text, struct counts *counts)
{
    static const char told[] = "version 2\n";
    unsigned version = bytes->bytes[4], variables = bytes->bytes[6]; /* of the header */
    bool tells = text->length >= strlen(told) && memcmp(text->bytes, told, strlen(told)) == 0;
    if (tells != (version == 2 && variables <= 32))
        die("the listing of this table says a version that it need not, or does not say one that it must", bytes);
    counts->version_told += tells;
    counts->version_2 += version == 2 && !tells;
}

static void there_and_back(const struct buffer *bytes, bool hardened, struct counts *counts)
{
    struct buffer text = {0}, again = {0};
    struct source source;
    struct table table;
    list(bytes, hardened, &text);
    check_version(bytes, &text, counts);
    if (!assemble_source(&source, "listing", &text, stderr))
        die("the listing of this table does not read", bytes);
    table_open(&table, bytes);
    bool post_order = in_post_order(&table);
    if (post_order && !same_bytes(bytes, &source.table))
        die("the listing of this table, in post-order, gives another table", bytes);
    if (hardened && !post_order)
        die("this hardened table is not in post-order", bytes);
    list(&source.table, hardened, &again);
    if (!same_bytes(&text, &again))
        die("the listing of this table gives a table that lists differently", bytes);
    counts->post_order += post_order && !hardened;
    counts->other += !post_order;
    counts->hardened += hardened;
    if (!post_order)
        there_and_back(&source.table, false, counts);
    buffer_free(&text);
    buffer_free(&again);
    source_free(&source);
}

static void generated(uint64_t seed, unsigned number, struct counts *counts)
{
    struct random random = random_from(seed, number);
    struct plan plan = number % 50 == 0 ? plan_boundary(&random) : number % 3 == 0 ? plan_any(&random) : plan_small(&random, 40);
    struct buffer table = {0}, hardened = {0};
    generate_table(&random, &plan, &table);
    if (random_percent(&random, 60))
        widen_by_chance(&random, &table);
    there_and_back(&table, false, counts);
    if (harden_table(&table, &hardened).refusal == FLOW_ACCEPTED)
        there_and_back(&hardened, true, counts);
    buffer_free(&table);
    buffer_free(&hardened);
}

/* ---- The deepest tables ---- */

static unsigned put_leaf(struct buffer *table, char sort)
{
    return sort == 'N' ? assemble_node1(table, FLOW_VARIABLE, 0) : sort == 'T' ? assemble_node1(table, FLOW_CONSTANT, 1)
                                                                               : assemble_node0(table, FLOW_SKIP);
}

/* Nodes of one kind, each inside the next as this field of it, as many as a table takes; then a command around an expression. */
static void deepest(unsigned version, unsigned kind, unsigned side, struct counts *counts)
{
    struct buffer table = {0};
    const char *letters = fields_of(kind);
    assemble_version(&table, version, 1, 0, NULL, 0, 0);
    unsigned inner = put_leaf(&table, letters[side]);
    while (inner + strlen(letters) + 2 < FLOW_MAX_NODES) {
        uint32_t fields[3];
        for (unsigned i = 0; letters[i]; i++)
            fields[i] = i == side ? inner : put_leaf(&table, letters[i]);
        inner = assemble_node(&table, kind, fields);
    }
    if (sort_of(kind) == 'N')
        assemble_node2(&table, FLOW_ASSIGN, 0, inner);
    else if (sort_of(kind) == 'T')
        assemble_node2(&table, FLOW_WHILE, inner, put_leaf(&table, 'C'));
    there_and_back(&table, false, counts);
    buffer_free(&table);
}

static void all_deepest(unsigned version, struct counts *counts)
{
    for (unsigned kind = FLOW_NUMBER; kind <= FLOW_WRITE; kind++)
        for (unsigned side = 0; fields_of(kind) != NULL && side < strlen(fields_of(kind)); side++)
            if (fields_of(kind)[side] == sort_of(kind))
                deepest(version, kind, side, counts);
}

int main(int argc, char **argv)
{
    uint64_t seed = argc > 1 ? strtoull(argv[1], NULL, 10) : 1;
    unsigned count = argc > 2 ? (unsigned)strtoul(argv[2], NULL, 10) : TABLES;
    struct counts counts = {0};
    all_deepest(FLOW_VERSION, &counts);
    all_deepest(FLOW_VERSION_2, &counts);
    for (unsigned number = 0; number < count; number++)
        generated(seed, number, &counts);
    printf("round trips: %u tables in post-order, %u in other orders, %u hardened ones; of version 2 %u with up to 32 variables "
           "and %u with more\n",
           counts.post_order, counts.other, counts.hardened, counts.version_told, counts.version_2);
    bool met = counts.post_order > 0 && counts.other > 0 && counts.hardened > 0 && counts.version_told > 0 && counts.version_2 > 0;
    return met ? 0 : 1;
}
