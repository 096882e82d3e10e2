#include "text/script_faults.h"

#include "files/messages.h"
#include "records/directives.h"
#include "records/kinds.h"
#include "records/little_endian.h"
#include "text/words.h"

struct place {
    size_t number, at; /* of a directive: its number, from 1, and the byte where it begins, */
    bool records;      /* which is named where it was given as records */
};

static void print_place(FILE *to, struct place place)
{
    fprintf(to, "directive %zu", place.number);
    if (place.records)
        fprintf(to, ", at byte %zu,", place.at);
    fputc(' ', to);
}

/* The head of a record is there.  False: it has no fault. */
static bool print_record_fault(FILE *to, const uint8_t *record, size_t left, struct place place)
{
    size_t length = get16(record), wanted = directive_length(get16(record + 2));
    unsigned kind = get16(record + 2);
    if (wanted != 0 && length == wanted && length <= left)
        return false;
    print_place(to, place);
    if (wanted == 0)
        fprintf(to, "has kind %u, which no directive has", kind);
    else if (length != wanted)
        fprintf(to, "is %zu byte%s long, and a %s takes %zu", length, plural(length), directive_in_words(kind), wanted);
    else
        fprintf(to, "is cut: it is %zu bytes long, and %zu remain", length, left);
    return true;
}

static bool print_fault_at(FILE *to, const struct buffer *list, bool rollback, struct place place)
{
    const uint8_t *record = list->bytes + place.at;
    size_t left = list->length - place.at;
    if (left < RECORD_HEAD) {
        print_place(to, place);
        fprintf(to, "is cut: its head takes %d bytes, and %zu remain%s", RECORD_HEAD, left, left == 1 ? "s" : "");
        return true;
    }
    if (print_record_fault(to, record, left, place))
        return true;
    if (rollback || get16(record + 2) != FLOW_ROLLBACK)
        return false;
    print_place(to, place);
    fprintf(to, "is a rollback, which is a directive with --rollback only");
    return true;
}

bool print_script_fault(FILE *to, const struct script *script, bool rollback)
{
    const struct buffer *list = &script->directives;
    for (struct place place = {1, 0, script->records}; place.at < list->length; place.number++) {
        if (print_fault_at(to, list, rollback, place))
            return true;
        place.at += get16(list->bytes + place.at);
    }
    return false;
}

void print_script_refusal(FILE *to, const struct script *script, bool rollback)
{
    print_name(to, script->name);
    fprintf(to, ": refused by %d: ", FLOW_BAD_DIRECTIVES);
    if (!print_script_fault(to, script, rollback))
        fprintf(to, "no fault is found: please report this script");
    fputc('\n', to);
}
