#include "text/faults.h"

#include <inttypes.h>
#include <stdarg.h>
#include <stdbool.h>
#include <string.h>

#include "files/messages.h"
#include "flow_words.h"
#include "library/refusals.h"
#include "records/kinds.h"
#include "records/little_endian.h"
#include "records/parents.h"
#include "records/versions.h"
#include "records/walk.h"
#include "text/words.h"

/* ---- Lines ---- */

struct lines {
    FILE *to;
    const char *indent, *end; /* of each line */
    size_t most;              /* lines to print; those beyond are only counted */
    size_t count;
};

/* Begins a line.  False: it is not to be printed. */
static bool begin_line(struct lines *lines)
{
    if (lines->count++ >= lines->most)
        return false;
    fputs(lines->indent, lines->to);
    return true;
}

static void end_line(struct lines *lines)
{
    fputs(lines->end, lines->to);
}

static void say(struct lines *lines, const char *format, ...)
{
    va_list arguments;
    if (!begin_line(lines))
        return;
    va_start(arguments, format);
    vfprintf(lines->to, format, arguments);
    va_end(arguments);
    end_line(lines);
}

/* ---- Parts of lines ---- */

struct phrase {
    char words[64];
};

static const char *article(const char *noun)
{
    return strchr("aeiou", noun[0]) != NULL ? "an" : "a";
}

static struct phrase declared(unsigned count)
{
    struct phrase words = {"none is declared"};
    if (count > 0)
        snprintf(words.words, sizeof words.words, "%u %s declared", count, count == 1 ? "is" : "are");
    return words;
}

static struct phrase node_in_words(const struct table *table, unsigned node)
{
    struct phrase words;
    snprintf(words.words, sizeof words.words, "node %u (%s, byte %zu)", node, kind_in_words(table_kind(table, node)),
             table->places[node]);
    return words;
}

/* The next record of a walk, by its section. */
static struct phrase section_in_words(const struct walk *walk)
{
    struct phrase words = {"the end"};
    switch (walk->section) {
    case SECTION_HEADER: strcpy(words.words, "the header record"); break;
    case SECTION_LABELS: strcpy(words.words, "the labels record"); break;
    case SECTION_ARRAYS: snprintf(words.words, sizeof words.words, "array record %u", walk->number); break;
    case SECTION_NODES: snprintf(words.words, sizeof words.words, "node %u", walk->number); break;
    case SECTION_END: break;
    }
    return words;
}

/* The same with its place and, where it has the kind of a node and should, with this.  Its head must be there. */
static struct phrase record_in_words(const struct walk *walk)
{
    struct phrase words, name = section_in_words(walk);
    bool is_node = walk->section == SECTION_NODES && fields_of(walk_kind(walk)) != NULL;
    snprintf(words.words, sizeof words.words, "%.24s (%s%sbyte %zu)", name.words, is_node ? kind_in_words(walk_kind(walk)) : "",
             is_node ? ", " : "", walk->place);
    return words;
}

/* ---- Refusals 1 and 2: the next record of a walk as a whole ---- */

/* For the end of a line: how many records the header declares of the sort that the next one is, an array or a node. */
static struct phrase due_in_words(const struct walk *walk)
{
    struct phrase words = {""};
    bool is_node = walk->section == SECTION_NODES;
    unsigned count = is_node ? walk->table.nodes : walk->table.arrays;
    if (is_node || walk->section == SECTION_ARRAYS)
        snprintf(words.words, sizeof words.words, " (the header declares %u %s%s)", count, is_node ? "node" : "array",
                 plural(count));
    return words;
}

static void say_cut(struct lines *lines, struct walk *walk)
{
    size_t left = walk_left(walk);
    struct phrase due = due_in_words(walk);
    if (left < RECORD_HEAD)
        say(lines, "%zu byte%s remain%s at byte %zu, where %s begins; its head takes %d%s", left, plural(left),
            left == 1 ? "s" : "", walk->place, section_in_words(walk).words, RECORD_HEAD, due.words);
    else if (left < walk_length(walk))
        say(lines, "%s is %zu bytes long, and %zu remain%s", record_in_words(walk).words, walk_length(walk), left, due.words);
}

static void say_wrong_node(struct lines *lines, const struct walk *walk)
{
    size_t length = walk_length(walk);
    unsigned kind = walk_kind(walk);
    const char *fields = fields_of(kind), *name = kind_in_words(kind);
    if (fields == NULL)
        say(lines, "%s has kind %u, which no node has", record_in_words(walk).words, kind);
    else if (length != record_length(fields))
        say(lines, "%s is %zu byte%s long, and %s %s takes %zu", record_in_words(walk).words, length, plural(length),
            article(name), name, record_length(fields));
}

/* For the end of a line: that a labels record is as long as those of the other version. */
static struct phrase other_version_in_words(const struct walk *walk)
{
    struct phrase words = {""};
    unsigned version = walk->table.version, other = version == FLOW_VERSION ? FLOW_VERSION_2 : FLOW_VERSION;
    size_t length = length_of_section(SECTION_LABELS, other);
    if (walk->section == SECTION_LABELS && walk_kind(walk) == FLOW_LABELS && walk_length(walk) == length)
        snprintf(words.words, sizeof words.words, ": %zu belongs to version %u, and the header says %u", length, other, version);
    return words;
}

static void say_wrong_declaration(struct lines *lines, const struct walk *walk)
{
    size_t length = walk_length(walk), wanted = length_of_section(walk->section, walk->table.version);
    unsigned kind = walk_kind(walk);
    struct phrase record = record_in_words(walk), name = {""};
    if (fields_of(kind) != NULL)
        snprintf(name.words, sizeof name.words, " (%s)", kind_in_words(kind));
    if (kind != kind_of_section(walk->section))
        say(lines, "%s has kind %u%s, and kind %u is wanted here", record.words, kind, name.words,
            kind_of_section(walk->section));
    if (length != wanted)
        say(lines, "%s is %zu byte%s long, and takes %zu%s", record.words, length, plural(length), wanted,
            other_version_in_words(walk).words);
}

static void say_wrong_record(struct lines *lines, struct walk *walk)
{
    if (walk_left(walk) < RECORD_HEAD)
        return;
    if (walk->section == SECTION_NODES)
        say_wrong_node(lines, walk);
    else
        say_wrong_declaration(lines, walk);
}

/* ---- Refusal 3: what the header, the labels and the arrays declare ---- */

/* A version that is not known has the most variables that any has. */
static void say_variable_limit(struct lines *lines, unsigned version, unsigned variables)
{
    unsigned most = flow_max_variables(version);
    struct phrase here = {""}, more = {""};
    if (is_known_version(version))
        snprintf(here.words, sizeof here.words, " in version %u", version);
    if (variables <= FLOW_MAX_VARIABLES)
        snprintf(more.words, sizeof more.words, "; version %d declares up to %d", FLOW_VERSION_2, FLOW_MAX_VARIABLES);
    if (variables > most)
        say(lines, "%u variables, at most %u%s%s", variables, most, here.words, more.words);
}

static void say_header_limits(struct lines *lines, const uint8_t *fields)
{
    unsigned version = get16(fields), arrays = fields[3], nodes = get16(fields + 4);
    if (!is_known_version(version))
        say(lines, "version %u, only %d and %d are known", version, FLOW_VERSION, FLOW_VERSION_2);
    say_variable_limit(lines, version, fields[2]);
    if (arrays > FLOW_MAX_ARRAYS)
        say(lines, "%u arrays, at most %d", arrays, FLOW_MAX_ARRAYS);
    if (nodes < 1)
        say(lines, "%u nodes, at least 1", nodes);
    if (nodes > FLOW_MAX_NODES)
        say(lines, "%u nodes, at most %d", nodes, FLOW_MAX_NODES);
}

/* A mask that marks more than there is: by the lowest such bit, and how many there are above it. */
static void say_mask(struct lines *lines, const char *what, uint64_t mask, unsigned count)
{
    unsigned lowest = 0, marked = 0;
    struct phrase more = {" is"};
    for (unsigned bit = 64; bit-- > count;)
        if (mask >> bit & 1) {
            lowest = bit;
            marked++;
        }
    if (marked > 1)
        snprintf(more.words, sizeof more.words, " and %u more are", marked - 1);
    if (marked > 0)
        say(lines, "%s %u%s marked secret, but %s", what, lowest, more.words, declared(count).words);
}

static void say_cells(struct lines *lines, const struct table *table, unsigned array)
{
    if (table->counts[array] < 1)
        say(lines, "array %u has %u cells, at least 1", array, (unsigned)table->counts[array]);
    if (table->cells > FLOW_MAX_CELLS)
        say(lines, "the cells sum to %zu at array %u, at most %d", table->cells, array, FLOW_MAX_CELLS);
}

static void say_beyond_limits(struct lines *lines, struct walk *walk)
{
    const struct table *table = &walk->table;
    enum section section = walk->section;
    unsigned number = walk->number;
    if (section == SECTION_HEADER && walk_fits(walk))
        say_header_limits(lines, table->bytes + walk->place + RECORD_HEAD);
    if (section == SECTION_HEADER || section == SECTION_NODES || !walk_on(walk))
        return;
    if (section == SECTION_LABELS) {
        say_mask(lines, "variable", table->secret.variables, table->variables);
        say_mask(lines, "array", table->secret.arrays, table->arrays);
    } else
        say_cells(lines, table, number);
}

/* ---- Refusals 4 and 5: the fields of a node ---- */

static void say_field_range(struct lines *lines, const struct table *table, unsigned node, unsigned field)
{
    char letter = fields_of(table_kind(table, node))[field];
    uint32_t value = table_field(table, node, field);
    struct phrase name = node_in_words(table, node);
    if (letter == 'x' && value >= table->variables)
        say(lines, "%s: variable %" PRIu32 ", but %s", name.words, value, declared(table->variables).words);
    else if (letter == 'a' && value >= table->arrays)
        say(lines, "%s: array %" PRIu32 ", but %s", name.words, value, declared(table->arrays).words);
    else if (letter == 'b' && value > 1)
        say(lines, "%s: constant %" PRIu32 ", at most 1", name.words, value);
    else if (is_child(letter) && value >= node)
        say(lines, "%s: child %" PRIu32 " is not below the node itself", name.words, value);
}

static const char *sort_in_words(char sort)
{
    return sort == 'N' ? "a number" : sort == 'T' ? "a truth" : "a command";
}

static void say_field_sort(struct lines *lines, const struct table *table, unsigned node, unsigned field)
{
    char letter = fields_of(table_kind(table, node))[field];
    uint32_t child = table_field(table, node, field);
    if (!is_child(letter) || child >= node)
        return;
    unsigned kind = table_kind(table, child);
    const char *name = kind_in_words(kind);
    if (sort_of(kind) != letter)
        say(lines, "%s: node %" PRIu32 " is %s %s where %s is wanted", node_in_words(table, node).words, child, article(name),
            name, sort_in_words(letter));
}

typedef void field_sayer(struct lines *lines, const struct table *table, unsigned node, unsigned field);

static void say_of_fields(struct lines *lines, struct walk *walk, field_sayer *say_of_field)
{
    const struct table *table = &walk->table;
    unsigned node = walk->number;
    if (walk->section != SECTION_NODES || !walk_on(walk))
        return;
    size_t fields = strlen(fields_of(table_kind(table, node)));
    for (unsigned field = 0; field < fields; field++)
        say_of_field(lines, table, node, field);
}

static void say_out_of_range(struct lines *lines, struct walk *walk)
{
    say_of_fields(lines, walk, say_field_range);
}

static void say_wrong_sort(struct lines *lines, struct walk *walk)
{
    say_of_fields(lines, walk, say_field_sort);
}

/* ---- Refusal 6: who is whose child ---- */

static const char *times_in_words(unsigned times)
{
    return times == 2 ? "twice" : "three times";
}

/* "nodes 1, 4 (twice) and 6" */
static void print_parents(FILE *to, const struct parents *parents)
{
    unsigned named = parents->count < MOST_NAMED ? parents->count : MOST_NAMED;
    if (parents->count == 1) {
        fprintf(to, "node %u %s", parents->named[0].node, times_in_words(parents->named[0].times));
        return;
    }
    for (unsigned i = 0; i < named; i++) {
        fprintf(to, "%s%u", i == 0 ? "nodes " : i + 1 == parents->count ? " and " : ", ", parents->named[i].node);
        if (parents->named[i].times > 1)
            fprintf(to, " (%s)", times_in_words(parents->named[i].times));
    }
    if (parents->count > named)
        fprintf(to, " and %u more", parents->count - named);
}

static void say_parents(struct lines *lines, const struct table *table, unsigned node, const struct parents *parents)
{
    if (!begin_line(lines))
        return;
    fprintf(lines->to, "%s is a child of ", node_in_words(table, node).words);
    print_parents(lines->to, parents);
    end_line(lines);
}

static bool breaks_tree(const struct table *table, unsigned node, const struct parents *parents)
{
    if (node + 1 == table->nodes)
        return sort_of(table_kind(table, node)) != 'C';
    return parents->count != 1 || parents->named[0].times != 1;
}

static void say_tree_fault(struct lines *lines, const struct table *table, unsigned node, const struct parents *parents)
{
    if (node + 1 == table->nodes)
        say(lines, "%s is the last and no command", node_in_words(table, node).words);
    else if (parents->count == 0)
        say(lines, "%s is a child of no node", node_in_words(table, node).words);
    else
        say_parents(lines, table, node, parents);
}

/* The library's place is that of the lowest such node; another one is a disagreement, which is said first. */
static void say_not_a_tree(struct lines *lines, struct walk *walk, uint64_t place)
{
    struct family family;
    const struct table *table = &walk->table;
    walk_to(walk, UINT64_MAX);
    if (walk->section != SECTION_END)
        return;
    find_parents(&family, table);
    for (unsigned node = 0; node < table->nodes; node++) {
        struct parents parents = parents_of(&family, node);
        if (!breaks_tree(table, node, &parents))
            continue;
        if (lines->count == 0 && table->places[node] != place)
            say(lines, "the first such node stands at byte %zu, not at byte %" PRIu64 ": please report this table",
                table->places[node], place);
        say_tree_fault(lines, table, node, &parents);
    }
}

/* ---- Refusals 7 to 9: the table as a whole ---- */

static void say_extra_bytes(struct lines *lines, struct walk *walk, uint64_t place)
{
    size_t left;
    if (walk_to(walk, place) && walk->section == SECTION_END && (left = walk_left(walk)) > 0)
        say(lines, "%zu byte%s after the last node, from byte %zu on", left, plural(left), walk->place);
}

static void say_no_free_variable(struct lines *lines, const struct table *table)
{
    if (table->variables >= FLOW_MAX_VARIABLES)
        say(lines, "%u variables, at most %d can be hardened: none is left for the flag", table->variables,
            FLOW_MAX_VARIABLES - 1);
}

static void say_not_hardened(struct lines *lines, struct walk *walk, uint64_t refusal)
{
    if (!walk_on(walk))
        return;
    if (refusal == FLOW_TOO_MANY_NODES && walk->table.nodes <= FLOW_MAX_HARDENED_NODES)
        return;
    if (refusal == FLOW_TOO_MANY_NODES)
        say(lines, "%u nodes, at most %d can be hardened", walk->table.nodes, FLOW_MAX_HARDENED_NODES);
    say_no_free_variable(lines, &walk->table);
}

/* ---- All ---- */

typedef void record_sayer(struct lines *lines, struct walk *walk);

/* Of the refusals for what stands in one record: who looks for the faults there. */
static record_sayer *const record_sayers[] = {[FLOW_CUT] = say_cut,
                                              [FLOW_WRONG_RECORD] = say_wrong_record,
                                              [FLOW_BEYOND_LIMITS] = say_beyond_limits,
                                              [FLOW_OUT_OF_RANGE] = say_out_of_range,
                                              [FLOW_WRONG_SORT] = say_wrong_sort};

static bool has_place(uint64_t refusal)
{
    return concern_of(refusal) == CONCERN_TABLE;
}

static void say_table_faults(struct lines *lines, const struct buffer *table, struct answer answer)
{
    struct walk walk;
    walk_open(&walk, table);
    if (answer.refusal == FLOW_NOT_A_TREE)
        say_not_a_tree(lines, &walk, answer.second);
    else if (answer.refusal == FLOW_EXTRA_BYTES)
        say_extra_bytes(lines, &walk, answer.second);
    else if (concern_of(answer.refusal) == CONCERN_HARDENING)
        say_not_hardened(lines, &walk, answer.refusal);
    else if (walk_to(&walk, answer.second) && walk.section != SECTION_END)
        record_sayers[answer.refusal](lines, &walk);
    if (lines->count > 0)
        return;
    if (has_place(answer.refusal))
        say(lines, "no fault of this sort is found at byte %" PRIu64 ": please report this table", answer.second);
    else
        say(lines, "no fault of this sort is found: please report this table");
}

static void say_faults(struct lines *lines, const struct buffer *table, struct answer answer)
{
    enum concern concern = concern_of(answer.refusal);
    if (concern == CONCERN_TABLE || concern == CONCERN_HARDENING)
        say_table_faults(lines, table, answer);
    else
        say(lines, "%s", flow_refusal_words(answer.refusal));
}

void print_faults(FILE *to, const char *indent, const struct buffer *table, struct answer answer)
{
    struct lines lines = {.to = to, .indent = indent, .end = "\n", .most = SIZE_MAX};
    say_faults(&lines, table, answer);
}

/* At least a word of it. */
bool is_text(const struct buffer *bytes)
{
    size_t letters = 0;
    for (size_t i = 0; i < bytes->length; i++) {
        uint8_t byte = bytes->bytes[i];
        if (byte < ' ' && byte != '\t' && byte != '\n' && byte != '\r')
            return false;
        letters += (byte | 32) >= 'a' && (byte | 32) <= 'z';
    }
    return letters >= 4;
}

void print_refusal(FILE *to, const char *name, const struct buffer *table, struct answer answer)
{
    struct lines lines = {.to = to, .indent = "", .end = "", .most = 1};
    print_name(to, name);
    fprintf(to, ": refused by %" PRIu64, answer.refusal);
    if (has_place(answer.refusal))
        fprintf(to, " at byte %" PRIu64, answer.second);
    fputs(": ", to);
    say_faults(&lines, table, answer);
    if (table != NULL && is_text(table))
        fprintf(to, " (it is text: flow assemble makes a table of a source)");
    else if (lines.count > 1)
        fprintf(to, " (and %zu more: flow explain)", lines.count - 1);
    fputc('\n', to);
}
