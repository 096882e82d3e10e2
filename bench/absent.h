/* What an entry answers in the place of one that an older library lacks: see compare. */
#ifndef ABSENT_H
#define ABSENT_H

#include <stdint.h>

static const uint64_t NO_SUCH_ENTRY = UINT64_MAX;

#endif
