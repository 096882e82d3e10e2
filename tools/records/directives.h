/* Lists of directives, as records. */
#ifndef DIRECTIVES_H
#define DIRECTIVES_H

#include "records/buffer.h"

enum { ANY_DIRECTIVE = 0 }; /* no kind of record */

/* The length of a directive's record; 0: no directive has this kind. */
size_t directive_length(unsigned kind);

/* How many of the first directives of a list, so many, are of this kind; up to a record that is cut, if there is one. */
size_t count_directives(const struct buffer *list, unsigned kind, uint64_t most);

/* The record of a directive, numbered from 1, of a list that the library has accepted; NULL: it has fewer. */
const uint8_t *directive_numbered(const struct buffer *list, uint64_t number);

#endif
