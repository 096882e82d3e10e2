#include "text/labels.h"

#include "flow.h"
#include "text/words.h"

const char *label_in_words(uint32_t label)
{
    return label ? "secret" : "public";
}

/* The names whose bit is set, each behind the separator, which is from then on a comma. */
static void print_mask(FILE *to, const char **separator, const char names[][NAME_BYTES], unsigned count, uint64_t mask)
{
    for (unsigned i = 0; i < count; i++) {
        if ((mask >> i & 1) == 0)
            continue;
        fprintf(to, "%s%s", *separator, names[i]);
        *separator = ", ";
    }
}

void print_labelling(FILE *to, const struct names *names, struct labelling labelling)
{
    const char *separator = "";
    fprintf(to, "secret: ");
    print_mask(to, &separator, names->variable, names->variables, labelling.variables);
    print_mask(to, &separator, names->array, names->arrays, labelling.arrays);
    if (*separator == 0)
        fprintf(to, "nothing");
}

struct label_words labels_in_words(const struct sheet_row *row)
{
    struct label_words labels = {""};
    if (row->kind == FLOW_SHEET_IF || row->kind == FLOW_SHEET_WHILE)
        snprintf(labels.words, sizeof labels.words, "condition %s", label_in_words(row->condition));
    else if (row->kind == FLOW_SHEET_READ)
        snprintf(labels.words, sizeof labels.words, "variable %s, index %s", label_in_words(row->variable),
                 label_in_words(row->index));
    else if (row->kind == FLOW_SHEET_WRITE)
        snprintf(labels.words, sizeof labels.words, "index %s", label_in_words(row->index));
    return labels;
}

/* The command that a record is of, by the kind of its node. */
static const char *command_in_words(unsigned kind)
{
    switch (kind) {
    case FLOW_SHEET_SEQUENCE: return kind_in_words(FLOW_SEQUENCE);
    case FLOW_SHEET_IF: return kind_in_words(FLOW_IF);
    case FLOW_SHEET_WHILE: return kind_in_words(FLOW_WHILE);
    case FLOW_SHEET_READ: return kind_in_words(FLOW_READ);
    case FLOW_SHEET_WRITE: return kind_in_words(FLOW_WRITE);
    default: return kind_in_words(kind);
    }
}

/* What a record's labelling is that of; NULL: it has none. */
static const char *when_in_words(unsigned kind)
{
    switch (kind) {
    case FLOW_SHEET: return "";
    case FLOW_SHEET_SEQUENCE: return "after its first part ";
    case FLOW_SHEET_WHILE: return "; settled ";
    default: return NULL;
    }
}

static void print_row(FILE *to, const struct names *names, const struct sheet_row *row)
{
    if (row->kind == FLOW_SHEET)
        fprintf(to, "%-24s", "at the end");
    else
        fprintf(to, "node %-4u %-14s%s", row->node, command_in_words(row->kind), labels_in_words(row).words);
    if (when_in_words(row->kind) != NULL) {
        fputs(when_in_words(row->kind), to);
        print_labelling(to, names, row->labelling);
    }
    fputc('\n', to);
}

void print_sheet(FILE *to, const struct names *names, const struct buffer *sheet)
{
    unsigned version = sheet_version(sheet->bytes);
    for (size_t at = 0; at < sheet->length; at += get16(sheet->bytes + at)) {
        struct sheet_row row = get_sheet_row(sheet->bytes + at, version);
        print_row(to, names, &row);
    }
}
