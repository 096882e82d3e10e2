/* flow help: the commands and how they are called. */
#include "commands/help.h"

#include <string.h>

#include "files/messages.h"

static const char usage[] =
    "flow help [COMMAND]\n"
    "  Says how the commands are called, or of one of them all that flow COMMAND --help says.\n";

static const struct command *const commands[] = {&command_harden, &command_list, &command_assemble, &command_explain,
                                                 &command_sheet,  &command_ask,  &command_run,      &command_attack,
                                                 &command_help};

enum { COMMANDS = sizeof commands / sizeof commands[0] };

static const char introduction[] =
    "flow hardens AWHILE programs, which are tables of bytes, and shows what is in them.\n\n";

static const char conclusion[] =
    "\n"
    "flow COMMAND --help says more of a command, `man flow` all of it.  flow --version prints the release.\n"
    "TABLE and SOURCE are files; - is standard input, which is also read where a [TABLE] or [SOURCE] is not given.\n"
    "Exit status: 0 done; 1 refused; 2 wrong usage, or a file cannot be read or written; 3 attack: told apart;\n"
    "4 run, attack: a run was cut; 5 attack: a directive of the script does not fit.\n";

const struct command *command_named(const char *name)
{
    for (unsigned i = 0; i < COMMANDS; i++)
        if (strcmp(commands[i]->name, name) == 0)
            return commands[i];
    complain(name, "no such command");
    fprintf(stderr, "flow --help says more\n");
    return NULL;
}

/* The lines of a usage that say how the command is called. */
static void print_calls(FILE *to, const char *lines)
{
    for (; strncmp(lines, "flow ", 5) == 0; lines += strcspn(lines, "\n") + 1)
        fprintf(to, "%.*s\n", (int)strcspn(lines, "\n"), lines);
}

void print_help(FILE *to)
{
    fputs(introduction, to);
    for (unsigned i = 0; i < COMMANDS; i++)
        print_calls(to, commands[i]->usage);
    fputs(conclusion, to);
}

static int run_help(const struct command *self, int argc, char **argv)
{
    const struct option none[] = {{0}};
    if (!take_options(self, none, &argc, argv, 0, 1))
        return STATUS_TROUBLE;
    if (argc == 0)
        return print_help(stdout), STATUS_DONE;
    const struct command *command = command_named(argv[0]);
    if (command == NULL)
        return STATUS_TROUBLE;
    fputs(command->usage, stdout);
    return STATUS_DONE;
}

const struct command command_help = {"help", usage, run_help};
