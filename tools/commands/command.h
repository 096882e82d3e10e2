/* The commands of `flow`: a function each, what they have in common, and how they end. */
#ifndef COMMAND_H
#define COMMAND_H

#include <stdbool.h>

/* The exit status of `flow`. */
enum {
    STATUS_DONE = 0,
    STATUS_REFUSED = 1,    /* the library refused a table, script or question, or a source cannot be assembled */
    STATUS_TROUBLE = 2,    /* wrong usage, or something could not be read or written */
    STATUS_TOLD_APART = 3, /* attack: the script tells the two states apart */
    STATUS_CUT = 4,        /* run, attack: a run was cut, and there is no verdict */
    STATUS_UNFIT = 5       /* attack: a directive of the script does not fit, and there is no verdict */
};

struct command {
    const char *name;
    const char *usage; /* all lines that --help prints, each with its line feed */
    int (*run)(const struct command *self, int argc, char **argv); /* argv: what stands behind the command's name */
};

extern const struct command command_harden, command_list, command_assemble, command_explain, command_sheet, command_ask,
    command_run, command_attack, command_help;

/* An option, and what it sets, one of three.  A list of them ends with one that has no name. */
struct option {
    const char *name;    /* with its dashes */
    bool *given;         /* it takes no value */
    const char **path;   /* its value is the name of a file or folder, */
    const char **number; /* or a number, which the command reads itself */
};

/*
 * Takes the options out of the arguments, wherever they stand, and leaves the operands: "-" is one, and so is everything behind
 * "--".  A value is the next argument, or stands behind an equals sign, as in --into=.., or right behind a letter, as in -o..;
 * as an argument of its own it is no option of the command and, where it is the name of a file, begins with no dash.  False,
 * with a message on standard error: an option that is unknown, given twice or lacks its value, or too few or too many operands.
 */
bool take_options(const struct command *self, const struct option *options, int *argc, char **argv, int fewest, int most);

/*
 * The files to read: the operands or, without any, standard input.  NULL, with a message: that is a terminal, at which waiting
 * for a table would look like a command that hangs.
 */
char **take_inputs(const struct command *self, int *argc, char **argv);

/* Says what is wrong with the usage and where more of it stands, and returns STATUS_TROUBLE. */
int misused(const struct command *self, const char *format, ...);

#endif
