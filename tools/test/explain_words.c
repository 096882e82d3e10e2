/*
 * Damaged tables and what is said of them, for explain_check.py: a line each, with tabs between table in hex, refusal, place,
 * whose these are ("library", or "wrong" where they were changed on purpose), the line of print_refusal and those of
 * print_faults, with | between them.  The last line is "end" and how many there are.
 */
#include <errno.h>
#include <inttypes.h>
#include <stdio.h>
#include <stdlib.h>
#include <string.h>

#include "../../bench/generate.h"
#include "library/calls.h"
#include "records/kinds.h"
#include "records/little_endian.h"
#include "records/table.h"
#include "text/faults.h"
#include "widen.h"

/* ---- Damage of one record or a whole tree, on top of the bench's ---- */

static uint8_t *node_record(struct buffer *table, const struct table *opened, unsigned node)
{
    return table->bytes + opened->places[node];
}

/* The lowest number that a field must not have, or one above it. */
static uint32_t out_of_range(struct random *r, const struct table *opened, unsigned node, char letter)
{
    uint32_t first = letter == 'x'   ? opened->variables
                     : letter == 'a' ? opened->arrays
                     : letter == 'b' ? 2
                                     : node;
    return random_percent(r, 60) ? first : first + random_below(r, 60000);
}

static void spoil_fields(struct random *r, struct buffer *table, const struct table *opened)
{
    unsigned node = random_below(r, opened->nodes);
    const char *letters = fields_of(table_kind(opened, node));
    uint8_t *fields = node_record(table, opened, node) + RECORD_HEAD;
    for (unsigned i = 0; letters[i]; i++)
        if (letters[i] != 'n' && random_percent(r, 70))
            put16(fields + 2 * i, out_of_range(r, opened, node, letters[i]));
}

static void spoil_sorts(struct random *r, struct buffer *table, const struct table *opened)
{
    unsigned node = random_below(r, opened->nodes);
    const char *letters = fields_of(table_kind(opened, node));
    uint8_t *fields = node_record(table, opened, node) + RECORD_HEAD;
    for (unsigned i = 0; letters[i] && node > 0; i++)
        if (is_child(letters[i]))
            put16(fields + 2 * i, random_below(r, node));
}

/* Of a node's children of the sort that `child` has, so many percent become it. */
static void share_at(struct random *r, uint8_t *record, unsigned node, unsigned child, char sort, unsigned percent)
{
    const char *letters = fields_of(get16(record + 2));
    for (unsigned i = 0; letters[i] && child < node; i++)
        if (letters[i] == sort && random_percent(r, percent))
            put16(record + RECORD_HEAD + 2 * i, child);
}

/* One node has many parents, and as many nodes have none. */
static void share_child(struct random *r, struct buffer *table, const struct table *opened)
{
    unsigned child = random_below(r, opened->nodes), percent = 20 + random_below(r, 81);
    for (unsigned node = 0; node < opened->nodes; node++)
        share_at(r, node_record(table, opened, node), node, child, sort_of(table_kind(opened, child)), percent);
}

static void share_children(struct random *r, struct buffer *table, const struct table *opened)
{
    for (unsigned times = 1 + random_below(r, 4); times > 0; times--)
        share_child(r, table, opened);
}

/* The last node is an expression: a number, or a sum of others. */
static void end_in_expression(struct random *r, struct buffer *table, const struct table *opened)
{
    unsigned number = assemble_node1(table, FLOW_NUMBER, random_below(r, 9));
    (void)opened;
    if (random_percent(r, 50))
        assemble_node2(table, FLOW_ADD, number, number);
}

/* One at a limit of one of the versions, or any. */
static uint32_t near_limit(struct random *r, uint32_t any_below)
{
    static const uint32_t limits[] = {32, 33, 34, 63, 64, 65};
    return random_percent(r, 70) ? limits[random_below(r, sizeof limits / sizeof *limits)] : random_below(r, any_below);
}

static void spoil_header(struct random *r, struct buffer *table, const struct table *opened)
{
    (void)opened;
    if (random_percent(r, 50))
        put16(table->bytes + 4, random_percent(r, 70) ? random_below(r, 4) : random_below(r, 65536));
    if (random_percent(r, 50))
        table->bytes[6] = (uint8_t)near_limit(r, 256);
    if (random_percent(r, 50))
        table->bytes[7] = (uint8_t)(17 + random_below(r, random_percent(r, 50) ? 1 : 239));
    if (random_percent(r, 50))
        put16(table->bytes + 8, random_percent(r, 50) ? 0 : 4097 + random_below(r, 61439));
}

/* The length of the labels record: its mask of variables has 4 bytes in version 1, and 8 in version 2. */
static size_t labels_length(unsigned version)
{
    return version == 1 ? 10 : 14;
}

static uint8_t *array_record(struct buffer *table, const struct table *opened, unsigned array)
{
    return table->bytes + 10 + labels_length(opened->version) + 6 * array;
}

static void mark_any(struct random *r, uint8_t *mask, size_t length)
{
    unsigned bit = random_below(r, (uint32_t)(8 * length));
    mask[bit / 8] |= (uint8_t)(1u << bit % 8);
}

static void spoil_masks(struct random *r, struct buffer *table, const struct table *opened)
{
    size_t length = labels_length(opened->version) - 6;
    uint8_t *masks = table->bytes + 14;
    if (random_percent(r, 70))
        memset(masks, 0, length + 2);
    for (unsigned times = random_below(r, 3); times > 0; times--) {
        mark_any(r, masks, length);
        mark_any(r, masks + length, 2);
    }
    if (random_percent(r, 50))
        mark_any(r, random_percent(r, 50) ? masks : masks + length, 2);
}

static void spoil_counts(struct random *r, struct buffer *table, const struct table *opened)
{
    static const uint32_t counts[] = {0, 1, 8192, 8193, 16384, 16385, 65535};
    for (unsigned array = 0; array < opened->arrays; array++)
        if (random_percent(r, 60))
            put16(array_record(table, opened, array) + RECORD_HEAD, counts[random_below(r, sizeof counts / sizeof *counts)]);
}

/* The header says the other version, and the labels record stays; or it becomes the other's, and the header stays; or both. */
static void exchange_version(struct random *r, struct buffer *table, const struct table *opened)
{
    unsigned other = 3 - opened->version, which = 1 + random_below(r, 3);
    struct buffer exchanged = {0};
    size_t behind = 10 + labels_length(opened->version);
    buffer_append(&exchanged, table->bytes, 10);
    if (which & 1)
        put16(exchanged.bytes + 4, other);
    if (which & 2) {
        buffer_append16(&exchanged, (uint32_t)labels_length(other));
        buffer_append(&exchanged, table->bytes + 12, labels_length(other) - 2);
        buffer_append(&exchanged, table->bytes + behind, table->length - behind);
    } else
        buffer_append(&exchanged, table->bytes + 10, table->length - 10);
    buffer_free(table);
    *table = exchanged;
}

/* Kind or length of a record, or both. */
static void spoil_head(struct random *r, uint8_t *record)
{
    static const uint32_t kinds[] = {0, 1, 2, 3, 16, 32, 48, 49, 51, 99, 128, 65535};
    unsigned which = 1 + random_below(r, 3);
    if (which & 1)
        put16(record, random_percent(r, 50) ? random_below(r, 16) : random_below(r, 65536));
    if (which & 2)
        put16(record + 2, kinds[random_below(r, sizeof kinds / sizeof *kinds)]);
}

static void spoil_declaration(struct random *r, struct buffer *table, const struct table *opened)
{
    unsigned record = random_below(r, 2 + opened->arrays);
    spoil_head(r, record < 2 ? table->bytes + 10 * record : array_record(table, opened, record - 2));
}

static void spoil_node(struct random *r, struct buffer *table, const struct table *opened)
{
    spoil_head(r, node_record(table, opened, random_below(r, opened->nodes)));
}

static void cut(struct random *r, struct buffer *table, const struct table *opened)
{
    (void)opened;
    table->length = random_below(r, (uint32_t)table->length);
}

static void add_bytes(struct random *r, struct buffer *table, const struct table *opened)
{
    uint8_t extra[20];
    (void)opened;
    random_fill(r, extra, sizeof extra);
    buffer_append(table, extra, 1 + random_below(r, random_percent(r, 30) ? 1 : sizeof extra));
}

typedef void damage(struct random *r, struct buffer *table, const struct table *opened);

/* Those that have many ways to go stand here twice. */
static damage *const damages[] = {spoil_fields, spoil_fields,   spoil_sorts,    spoil_sorts,       spoil_counts,     spoil_counts,
                                  spoil_masks,  share_children, share_children, end_in_expression, spoil_header,     spoil_header,
                                  spoil_masks,  spoil_node,     cut,            spoil_declaration, exchange_version, add_bytes};

/* ---- Tables ---- */

static void generate_damaged(struct random *r, struct buffer *table)
{
    struct plan plan = random_percent(r, 85) ? plan_small(r, 40) : plan_any(r);
    struct table opened;
    generate_table(r, &plan, table);
    if (random_percent(r, 60))
        widen_by_chance(r, table);
    if (random_percent(r, 40)) {
        damage_table(r, table);
        return;
    }
    table_open(&opened, table);
    damages[random_below(r, sizeof damages / sizeof *damages)](r, table, &opened);
}

/* At and beyond what can be hardened: 512 nodes, 63 variables. */
static void generate_large(struct random *r, struct buffer *table)
{
    struct plan plan = plan_small(r, 1);
    struct buffer generated = {0};
    struct table opened;
    plan.nodes = random_percent(r, 50) ? 511 + random_below(r, 3) : 500 + random_below(r, 600);
    generate_table(r, &plan, &generated);
    table_open(&opened, &generated);
    widen_table(&opened, (struct front){.version = FLOW_VERSION_2, .variables = 62 + random_below(r, 3)}, table);
    buffer_free(&generated);
}

static void generate(struct random *r, struct buffer *table)
{
    if (random_percent(r, 2))
        generate_large(r, table);
    else
        generate_damaged(r, table);
}

/* ---- Lines ---- */

static void check_output(bool good)
{
    if (good)
        return;
    fprintf(stderr, "explain_words: standard output: %s\n", strerror(errno));
    exit(2);
}

static void print_faults_on_line(const struct buffer *table, struct answer answer)
{
    char *words;
    size_t length;
    FILE *stream = open_memstream(&words, &length);
    check_output(stream != NULL);
    print_refusal(stream, "-", table, answer);
    print_faults(stream, "", table, answer);
    check_output(fclose(stream) == 0);
    char *faults = strchr(words, '\n') + 1;
    for (char *at = faults; *at; at++)
        *at = *at != '\n' ? *at : at[1] ? '|' : 0;
    printf("%.*s\t%s\n", (int)(faults - words - 1), words, faults);
    free(words);
}

static size_t lines_printed;

static void print_line(const struct buffer *table, struct answer answer, const char *whose)
{
    lines_printed++;
    print_hex(stdout, table->bytes, table->length);
    printf("\t%" PRIu64 "\t%" PRIu64 "\t%s\t", answer.refusal, answer.second, whose);
    if (answer.refusal == FLOW_ACCEPTED)
        check_output(printf("\t\n") > 0);
    else
        print_faults_on_line(table, answer);
    check_output(!ferror(stdout));
}

/* A byte at which a record begins, as far as the lengths lead, or one beside it. */
static uint64_t any_place(struct random *r, const struct buffer *table)
{
    size_t place = 0;
    for (unsigned steps = random_below(r, 20); steps > 0 && table->length - place >= RECORD_HEAD; steps--) {
        size_t length = get16(table->bytes + place);
        place += length <= table->length - place ? length : 0;
    }
    return random_percent(r, 70) ? place : place + random_below(r, 12);
}

/* Another number, mostly one of those that concern a record. */
static uint64_t any_refusal(struct random *r)
{
    static const uint64_t others[] = {10, 11, 12, 20, 21, 22, 23, 24, 25, UINT64_MAX};
    if (random_percent(r, 5))
        return others[random_below(r, sizeof others / sizeof *others)];
    return 1 + random_below(r, random_percent(r, 60) ? FLOW_WRONG_SORT : FLOW_NO_FREE_VARIABLE);
}

/* Another number at the same place, the same number at another place, or both by chance. */
static struct answer wrong_answer(struct random *r, const struct buffer *table, struct answer right)
{
    struct answer answer = right;
    unsigned which = right.refusal == FLOW_ACCEPTED ? 2 : random_below(r, 3);
    if (which != 1)
        answer.refusal = any_refusal(r);
    if (which != 0)
        answer.second = random_percent(r, 95) ? any_place(r, table) : UINT64_MAX - random_below(r, 3);
    return answer;
}

static bool same_answer(struct answer one, struct answer other)
{
    return one.refusal == other.refusal && (one.second == other.second || one.refusal > FLOW_EXTRA_BYTES);
}

/* Behind the table comes noise, so that words which look there are seen to be untrue. */
static void print_lines(struct random *r, struct buffer *table, unsigned percent_wrong)
{
    enum { NOISE = 32 };
    struct buffer hardened = {0};
    buffer_reserve(table, NOISE);
    random_fill(r, table->bytes + table->length, NOISE);
    struct answer answer = harden_table(table, &hardened), wrong = wrong_answer(r, table, answer);
    buffer_free(&hardened);
    print_line(table, answer, "library");
    if (random_percent(r, percent_wrong) && !same_answer(answer, wrong))
        print_line(table, wrong, "wrong");
}

/* A small table that has records of all parts, whole and then cut at every byte. */
static void print_cuts(struct random *r, unsigned version)
{
    static const uint16_t counts[] = {4, 256};
    struct buffer table = {0};
    assemble_version(&table, version, 2, 2, counts, 1, 2);
    unsigned index = assemble_node1(&table, FLOW_VARIABLE, 0);
    unsigned read = assemble_node3(&table, FLOW_READ, 1, 0, index);
    unsigned skip = assemble_node0(&table, FLOW_SKIP);
    assemble_node2(&table, FLOW_SEQUENCE, read, skip);
    for (; table.length > 0; table.length--)
        print_lines(r, &table, 100);
    print_lines(r, &table, 100);
    buffer_free(&table);
}

/* A node is a child three times only where sorts are wrong, which is refused by 5: so 6 is handed in, on purpose. */
static void print_three_times(bool another_parent)
{
    struct buffer table = {0};
    assemble_table(&table, 1, 0, NULL, 0, 0);
    unsigned number = assemble_node1(&table, FLOW_NUMBER, 7);
    unsigned value = assemble_node3(&table, FLOW_CHOICE, number, number, number);
    if (another_parent)
        value = assemble_node2(&table, FLOW_ADD, value, number);
    assemble_node2(&table, FLOW_ASSIGN, 0, value);
    print_line(&table, (struct answer){FLOW_NOT_A_TREE, 20}, "wrong");
    buffer_free(&table);
}

/*
 * Behind a header that is beyond the limits nothing is said of a labels record as of version 2, nor that all 64 variables are
 * taken: such answers are handed in, on purpose.
 */
static void print_behind_header(unsigned version)
{
    struct buffer table = {0};
    assemble_version(&table, FLOW_VERSION_2, 64, 0, NULL, 0, 0);
    assemble_node0(&table, FLOW_SKIP);
    put16(table.bytes + 4, version);
    print_line(&table, (struct answer){FLOW_WRONG_RECORD, 10}, "wrong");
    print_line(&table, (struct answer){FLOW_NO_FREE_VARIABLE, 0}, "wrong");
    buffer_free(&table);
}

static uint64_t number_from(const char *argument)
{
    char *end;
    errno = 0;
    uint64_t number = strtoull(argument, &end, 10);
    if (errno == 0 && end != argument && *end == 0)
        return number;
    fprintf(stderr, "explain_words: %s is no number\nexplain_words [SEED [COUNT]]\n", argument);
    exit(2);
}

int main(int argc, char **argv)
{
    uint64_t seed = argc > 1 ? number_from(argv[1]) : 1, count = argc > 2 ? number_from(argv[2]) : 20000;
    struct random cuts = random_from(seed, count);
    for (unsigned times = 0; times < 40; times++) /* each time with other wrong answers */
        print_cuts(&cuts, 1 + times % 2);
    print_three_times(false);
    print_three_times(true);
    print_behind_header(1);
    print_behind_header(3);
    for (uint64_t number = 0; number < count; number++) {
        struct random r = random_from(seed, number);
        struct buffer table = {0};
        generate(&r, &table);
        print_lines(&r, &table, 40);
        buffer_free(&table);
    }
    printf("end\t%zu\n", lines_printed); /* so that lines which break off are seen */
    check_output(fflush(stdout) == 0);
    return 0;
}
