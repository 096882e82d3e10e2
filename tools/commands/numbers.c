#include "commands/numbers.h"

#include <inttypes.h>
#include <string.h>

bool take_number(const char *word, uint32_t most, uint32_t *number)
{
    uint64_t value = 0;
    if (*word == 0 || word[strspn(word, "0123456789")] != 0)
        return false;
    for (; *word != 0 && value <= most; word++)
        value = 10 * value + (uint64_t)(*word - '0');
    *number = (uint32_t)value;
    return value <= most;
}

bool take_budget(const struct command *self, const char *value, uint32_t *budget)
{
    bool taken = take_number(value != NULL ? value : USUAL_BUDGET, UINT32_MAX, budget);
    if (!taken)
        misused(self, "--budget takes a number of steps from 0 to %" PRIu32 ", not %s", UINT32_MAX, value);
    return taken;
}
