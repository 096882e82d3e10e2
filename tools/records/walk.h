/*
 * A walk over any bytes, record by record, as far as they are a table: each record must be whole, and of a kind and length that
 * belong where it stands.  What the fields hold is not asked, except that the header's version must be known, and its counts be
 * within the limits of this version.
 */
#ifndef WALK_H
#define WALK_H

#include <stdbool.h>

#include "records/table.h"

/* The parts of a table, in their order. */
enum section {
    SECTION_HEADER,
    SECTION_LABELS,
    SECTION_ARRAYS,
    SECTION_NODES,
    SECTION_END /* behind the last node */
};

struct walk {
    struct table table;   /* the bytes, and what the records before `place` say; children may be any numbers */
    size_t place;         /* where the next record begins */
    enum section section; /* what it must be */
    unsigned number;      /* of the array record or node */
};

/* The header is next.  `bytes` must stay as long as the walk is used. */
void walk_open(struct walk *walk, const struct buffer *bytes);

/* Of the next record: the bytes from its beginning on; where these are RECORD_HEAD or more, the length and kind that it says. */
size_t walk_left(const struct walk *walk);
size_t walk_length(const struct walk *walk);
unsigned walk_kind(const struct walk *walk);

/* The one kind that a header, labels or array record has, and the one length in tables of a version. */
unsigned kind_of_section(enum section section);
size_t length_of_section(enum section section, unsigned version);

/* Is the next record whole, and of a kind and length that belong here? */
bool walk_fits(const struct walk *walk);

/* Goes on behind the next record.  False, and the walk stays: it does not fit, or is a header that is beyond the limits. */
bool walk_on(struct walk *walk);

/* Goes on until the next record begins at this byte.  False: none does, as far as the walk goes. */
bool walk_to(struct walk *walk, uint64_t place);

#endif
