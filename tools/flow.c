/*
 * flow: the command over libflow.  It parses text, prints and moves files; whatever is judged, labelled, hardened or run, is by a
 * call of the library.
 */
#include <errno.h>
#include <fcntl.h>
#include <signal.h>
#include <stdio.h>
#include <string.h>

#include "commands/help.h"
#include "flow.h"

static bool is_help(const char *argument)
{
    return strcmp(argument, "--help") == 0 || strcmp(argument, "-h") == 0;
}

/* Is --help or -h among the options? */
static bool asks_for_help(int argc, char **argv)
{
    for (int i = 0; i < argc && strcmp(argv[i], "--") != 0; i++)
        if (is_help(argv[i]))
            return true;
    return false;
}

static int run_command(int argc, char **argv)
{
    if (argc == 0)
        return print_help(stderr), STATUS_TROUBLE;
    if (argc == 1 && strcmp(argv[0], "--version") == 0)
        return printf("flow %s\n", FLOW_RELEASE), STATUS_DONE;
    const struct command *command = is_help(argv[0]) ? &command_help : command_named(argv[0]);
    if (command == NULL)
        return STATUS_TROUBLE;
    if (asks_for_help(argc - 1, argv + 1))
        return fputs(command->usage, stdout), STATUS_DONE;
    return command->run(command, argc - 1, argv + 1);
}

/*
 * Where standard input, output or error is closed, the next file opened would take its place.  So something is put there from
 * which nothing can be read, or to which nothing can be written: using it is an error, as it should be.
 */
static void fill_standard_files(void)
{
    for (int file = 0; file <= 2; file++)
        if (fcntl(file, F_GETFD) == -1)
            open("/dev/null", file == 0 ? O_WRONLY : O_RDONLY);
}

/* What was printed may still not have gone out: that, too, is trouble. */
int main(int argc, char **argv)
{
    signal(SIGXFSZ, SIG_IGN); /* a write beyond the limit on file sizes then fails, and is reported, as on a full disk */
    fill_standard_files();
    setvbuf(stderr, NULL, _IOLBF, BUFSIZ); /* a line goes out in one piece, whoever else writes there */
    int status = run_command(argc - 1, argv + 1);
    errno = 0;
    if (ferror(stdout) || fclose(stdout) != 0) {
        fprintf(stderr, "flow: standard output: %s\n", errno != 0 ? strerror(errno) : "not all could be written");
        return STATUS_TROUBLE;
    }
    return status;
}
