/* A table that a command is about: read, judged, taken apart and named. */
#ifndef OPEN_TABLE_H
#define OPEN_TABLE_H

#include "commands/command.h"
#include "library/calls.h"
#include "records/table.h"
#include "text/names.h"

/* The lines of a usage that say how names are chosen. */
#define NAMING_USAGE \
    "  --flag          the last variable is the flag of a hardened table, and is called f\n" \
    "  --names SOURCE  variables and arrays have the names that SOURCE declares, not v0, v1, .. and a0, a1, ..\n"

/* Which names a table's variables and arrays have. */
struct naming {
    bool flag;          /* the last variable is the flag: it must be labelled public, as hardening does */
    const char *source; /* whose names they have: it declares the table's variables, but the flag, and arrays.  NULL: numbers */
};

struct open_table {
    const char *name; /* its file's, for messages */
    struct answer answer; /* of the library, to its label sheet */
    struct buffer bytes, sheet;
    struct table table;
    struct names names;
};

/* Returns an exit status: STATUS_DONE where the table is open, else there was a message.  close_table, whatever it is. */
int open_table(struct open_table *opened, const char *path, struct naming naming);
void close_table(struct open_table *opened);

/* The same for a table that open_table has opened, hardened: its last variable is f. */
int open_hardened(struct open_table *hardened, const struct open_table *original);

/* How many variables of the table are part of a state: all but the flag. */
unsigned state_variables(const struct open_table *opened, struct naming naming);

/*
 * The files that are read: the names' source and the operands, of which the first is a table and others may be @FILE.  False,
 * with a message: standard input, which can be read once, is more than one of them, or one of them would be written over.
 */
bool are_inputs_in_order(const struct command *self, struct naming naming, int argc, char **argv, const char *output);

#endif
