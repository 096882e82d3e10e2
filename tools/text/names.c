#include "text/names.h"

#include <stdio.h>
#include <string.h>

static int find(const char (*list)[NAME_BYTES], unsigned count, const char *name, size_t length)
{
    for (unsigned i = 0; i < count; i++)
        if (strlen(list[i]) == length && memcmp(list[i], name, length) == 0)
            return (int)i;
    return -1;
}

int variable_named(const struct names *names, const char *name, size_t length)
{
    return find(names->variable, names->variables, name, length);
}

int array_named(const struct names *names, const char *name, size_t length)
{
    return find(names->array, names->arrays, name, length);
}

static void number(char (*list)[NAME_BYTES], unsigned count, char letter)
{
    for (unsigned i = 0; i < count; i++)
        snprintf(list[i], NAME_BYTES, "%c%u", letter, i);
}

void number_names(struct names *names, const struct table *table, bool flag)
{
    names->variables = table->variables;
    names->arrays = table->arrays;
    names->declared = false;
    number(names->variable, names->variables, 'v');
    number(names->array, names->arrays, 'a');
    if (flag)
        name_flag(names);
}

/* With primes a letter makes NAME_BYTES - 1 names that fit: the others' names may be all those of one letter, but not of two. */
_Static_assert(FLOW_MAX_VARIABLES - 1 + FLOW_MAX_ARRAYS < 2 * (NAME_BYTES - 1), "a name must be left for the flag");

void name_flag(struct names *names)
{
    if (names->variables == 0)
        return;
    unsigned last = names->variables - 1;
    char *name = names->variable[last];
    strcpy(name, "f");
    while (find((const char(*)[NAME_BYTES])names->variable, last, name, strlen(name)) >= 0 ||
           array_named(names, name, strlen(name)) >= 0)
        if (strlen(name) < NAME_BYTES - 1)
            strcat(name, "'");
        else
            strcpy(name, "g");
}
