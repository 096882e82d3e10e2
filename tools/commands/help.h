/* All commands: by their names, and what is said of them together. */
#ifndef HELP_H
#define HELP_H

#include <stdio.h>

#include "commands/command.h"

/* NULL, with a message: there is no such command. */
const struct command *command_named(const char *name);

/* How each command is called, and what they have in common. */
void print_help(FILE *to);

#endif
