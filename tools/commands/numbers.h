/* Numbers on the command line. */
#ifndef NUMBERS_H
#define NUMBERS_H

#include <stdint.h>

#include "commands/command.h"

/* False: the word is not a number of decimal digits alone, up to `most`. */
bool take_number(const char *word, uint32_t most, uint32_t *number);

#define USUAL_BUDGET "1000000"
#define BUDGET_USAGE "  --budget STEPS  the most steps of a run, " USUAL_BUDGET " if not given\n"

/* The value of --budget, or the usual budget where it is NULL.  False, with a message: it is no budget. */
bool take_budget(const struct command *self, const char *value, uint32_t *budget);

#endif
