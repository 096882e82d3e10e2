#include "commands/command.h"

#include <stdarg.h>
#include <stdio.h>
#include <string.h>
#include <unistd.h>

#include "files/messages.h"

int misused(const struct command *self, const char *format, ...)
{
    va_list arguments;
    fprintf(stderr, "flow %s: ", self->name);
    va_start(arguments, format);
    print_message(stderr, format, arguments);
    va_end(arguments);
    fprintf(stderr, "\nflow %s --help says more\n", self->name);
    return STATUS_TROUBLE;
}

/* ---- Options ---- */

static const char **value_of(const struct option *option)
{
    return option->path != NULL ? option->path : option->number;
}

/* The option that an argument names; `value` is what stands in the same argument: behind "--into=", or behind "-o". */
static const struct option *option_named(const struct option *options, const char *argument, const char **value)
{
    *value = NULL;
    for (; options->name != NULL; options++) {
        size_t length = strlen(options->name);
        if (strncmp(argument, options->name, length) != 0)
            continue;
        if (argument[length] == 0)
            return options;
        if (options->given == NULL && (argument[1] != '-' || argument[length] == '=')) {
            *value = argument + length + (argument[1] == '-');
            return options;
        }
    }
    return NULL;
}

static bool looks_like_option(const char *argument)
{
    return argument[0] == '-' && argument[1] != 0;
}

/* Is the argument behind an option its value?  False, with a message: it is NULL, an option, or a name that looks like one. */
static bool is_value(const struct command *self, const struct option *options, const struct option *option,
                     const char *argument)
{
    const char *value;
    if (argument != NULL && !looks_like_option(argument))
        return true;
    if (argument == NULL || strcmp(argument, "--") == 0 || option_named(options, argument, &value) != NULL)
        misused(self, "%s lacks its value", option->name);
    else if (option->path != NULL)
        misused(self, "%s %s: a name that begins with - is given as ./%s", option->name, argument, argument);
    else
        return true;
    return false;
}

/* Takes one option and says how many arguments it was: 0, with a message, where it is not in order. */
static int take_option(const struct command *self, const struct option *options, char **argv, int left)
{
    const char *value;
    const struct option *option = option_named(options, argv[0], &value);
    if (option == NULL)
        return misused(self, "no option %s", argv[0]), 0;
    if (option->given != NULL ? *option->given : *value_of(option) != NULL)
        return misused(self, "%s is given twice", option->name), 0;
    if (option->given != NULL)
        return *option->given = true, 1;
    if (value != NULL && *value == '=' && argv[0][1] != '-')
        return misused(self, "%s: no = stands between %s and its value", argv[0], option->name), 0;
    if (value == NULL && !is_value(self, options, option, left > 1 ? argv[1] : NULL))
        return 0;
    *value_of(option) = value != NULL ? value : argv[1];
    return value != NULL ? 1 : 2;
}

bool take_options(const struct command *self, const struct option *options, int *argc, char **argv, int fewest, int most)
{
    int operands = 0;
    bool only_operands = false;
    for (int i = 0; i < *argc;) {
        if (!only_operands && strcmp(argv[i], "--") == 0) {
            only_operands = true;
            i++;
        } else if (only_operands || !looks_like_option(argv[i])) {
            argv[operands++] = argv[i++];
        } else {
            int taken = take_option(self, options, argv + i, *argc - i);
            if (taken == 0)
                return false;
            i += taken;
        }
    }
    *argc = operands;
    if (operands < fewest || operands > most)
        misused(self, operands < fewest ? "an operand is missing" : "one operand too many: %s", argv[most < operands ? most : 0]);
    return operands >= fewest && operands <= most;
}

char **take_inputs(const struct command *self, int *argc, char **argv)
{
    static char *standard_input[] = {"-"};
    if (*argc > 0)
        return argv;
    if (isatty(STDIN_FILENO)) {
        misused(self, "an operand is missing, and standard input is a terminal");
        return NULL;
    }
    *argc = 1;
    return standard_input;
}
