#include "records/walk.h"

#include <limits.h>

#include "records/kinds.h"
#include "records/little_endian.h"
#include "records/versions.h"

void walk_open(struct walk *walk, const struct buffer *bytes)
{
    *walk = (struct walk){.table = {.bytes = bytes->bytes, .length = bytes->length}, .section = SECTION_HEADER};
}

size_t walk_left(const struct walk *walk)
{
    return walk->table.length - walk->place;
}

size_t walk_length(const struct walk *walk)
{
    return get16(walk->table.bytes + walk->place);
}

unsigned walk_kind(const struct walk *walk)
{
    return get16(walk->table.bytes + walk->place + 2);
}

/* ---- What belongs where ---- */

/* Without the mask of variables, which is 4 or 8 bytes of a labels record. */
static const struct {
    unsigned kind;
    size_t length;
} layouts[] = {[SECTION_HEADER] = {FLOW_HEADER, 10}, [SECTION_LABELS] = {FLOW_LABELS, 6}, [SECTION_ARRAYS] = {FLOW_ARRAY, 6}};

unsigned kind_of_section(enum section section)
{
    return layouts[section].kind;
}

size_t length_of_section(enum section section, unsigned version)
{
    return layouts[section].length + (section == SECTION_LABELS ? flow_mask_bytes(version) : 0);
}

/* How long the next record is if it has this kind; 0: none that may stand here has it. */
static size_t length_wanted(const struct walk *walk, unsigned kind)
{
    enum section section = walk->section;
    if (section == SECTION_END)
        return 0;
    if (section == SECTION_NODES)
        return fields_of(kind) == NULL ? 0 : record_length(fields_of(kind));
    return kind == kind_of_section(section) ? length_of_section(section, walk->table.version) : 0;
}

bool walk_fits(const struct walk *walk)
{
    if (walk_left(walk) < RECORD_HEAD)
        return false;
    size_t wanted = length_wanted(walk, walk_kind(walk));
    return wanted != 0 && walk_length(walk) == wanted && walk_left(walk) >= wanted;
}

/* ---- Going on ---- */

/* What a header says.  False: beyond the limits, so that nothing can be told of what stands behind it. */
static bool take_header(struct table *table, const uint8_t *fields)
{
    unsigned version = get16(fields), variables = fields[2], arrays = fields[3], nodes = get16(fields + 4);
    if (!is_known_version(version) || variables > flow_max_variables(version) || arrays > FLOW_MAX_ARRAYS ||
        nodes > FLOW_MAX_NODES)
        return false;
    table->version = version;
    table->variables = variables;
    table->arrays = arrays;
    table->nodes = nodes;
    return true;
}

/* What a record that fits says. */
static bool take_record(struct walk *walk)
{
    struct table *table = &walk->table;
    const uint8_t *fields = table->bytes + walk->place + RECORD_HEAD;
    switch (walk->section) {
    case SECTION_HEADER:
        return take_header(table, fields);
    case SECTION_LABELS:
        table->secret = get_labelling(fields, table->version);
        return true;
    case SECTION_ARRAYS:
        table->counts[walk->number] = get16(fields);
        table->cells += get16(fields);
        return true;
    case SECTION_NODES:
        table->places[walk->number] = walk->place;
        return true;
    default:
        return false;
    }
}

static unsigned records_in_section(const struct walk *walk)
{
    switch (walk->section) {
    case SECTION_ARRAYS: return walk->table.arrays;
    case SECTION_NODES: return walk->table.nodes;
    case SECTION_END: return UINT_MAX; /* nothing comes behind it */
    default: return 1;
    }
}

bool walk_on(struct walk *walk)
{
    if (!walk_fits(walk) || !take_record(walk))
        return false;
    walk->place += walk_length(walk);
    walk->number++;
    while (walk->number >= records_in_section(walk)) {
        walk->section++;
        walk->number = 0;
    }
    return true;
}

bool walk_to(struct walk *walk, uint64_t place)
{
    while (walk->place < place && walk_on(walk))
        ;
    return walk->place == place;
}
