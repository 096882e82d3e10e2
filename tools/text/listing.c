#include "text/listing.h"

#include <inttypes.h>

#include "records/kinds.h"
#include "records/walk.h"
#include "text/labels.h"
#include "text/words.h"

/* What stands before a record's fields: of a record that is no node, without a number. */
static void print_head(FILE *to, size_t place, int node, const char *kind, bool has_fields)
{
    fprintf(to, node < 0 ? "%6zu      " : "%6zu %4d ", place, node);
    fprintf(to, has_fields ? " %-9s " : " %s", kind);
}

static void print_field(FILE *to, const struct names *names, char letter, uint32_t value)
{
    switch (letter) {
    case 'n': fprintf(to, "%" PRIu32, value); break;
    case 'b': fprintf(to, value ? "true" : "false"); break;
    case 'x': fprintf(to, "%s", names->variable[value]); break;
    case 'a': fprintf(to, "%s", names->array[value]); break;
    default: fprintf(to, "node %" PRIu32, value);
    }
}

static void print_node(FILE *to, const struct table *table, const struct names *names, unsigned node)
{
    unsigned kind = table_kind(table, node);
    const char *letters = fields_of(kind);
    print_head(to, table->places[node], (int)node, kind_in_words(kind), letters[0] != 0);
    for (unsigned i = 0; letters[i]; i++) {
        fprintf(to, i == 0 ? "" : ", ");
        print_field(to, names, letters[i], table_field(table, node, i));
    }
}

static void print_declaration(FILE *to, const struct table *table, const struct names *names, enum section section,
                              unsigned number)
{
    if (section == SECTION_HEADER)
        fprintf(to, "version %u, variables %u, arrays %u, nodes %u", table->version, table->variables, table->arrays,
                table->nodes);
    else if (section == SECTION_LABELS)
        print_labelling(to, names, table->secret);
    else
        fprintf(to, "%s, cells %" PRIu32, names->array[number], table->counts[number]);
}

void print_records(FILE *to, const struct buffer *bytes, const struct names *names, uint64_t until)
{
    struct walk walk;
    walk_open(&walk, bytes);
    while (walk.place < until) {
        enum section section = walk.section;
        unsigned number = walk.number;
        size_t place = walk.place;
        if (!walk_on(&walk))
            return;
        if (section == SECTION_NODES)
            print_node(to, &walk.table, names, number);
        else {
            print_head(to, place, -1, kind_in_words(kind_of_section(section)), true);
            print_declaration(to, &walk.table, names, section, number);
        }
        fputc('\n', to);
    }
}
