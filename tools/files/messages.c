#include "files/messages.h"

#include <errno.h>
#include <stdbool.h>

#include "files/paths.h"

/* Control characters, also those that UTF-8 writes as two bytes, c2 80 to c2 9f, of which this is the first or the second. */
static bool is_control(unsigned char before, unsigned char byte, unsigned char after)
{
    return byte < ' ' || byte == 127 || (byte == 0xc2 && after >= 0x80 && after < 0xa0) ||
           (before == 0xc2 && byte >= 0x80 && byte < 0xa0);
}

static void print_escaped(FILE *to, const char *text)
{
    unsigned char before = 0;
    for (; *text != 0; text++) {
        unsigned char byte = (unsigned char)*text;
        if (byte == '\n')
            fputs("\\n", to);
        else if (byte == '\t')
            fputs("\\t", to);
        else if (byte == '\\')
            fputs("\\\\", to);
        else if (is_control(before, byte, (unsigned char)text[1]))
            fprintf(to, "\\x%02x", (unsigned)byte);
        else
            fputc(byte, to);
        before = byte;
    }
}

void print_name(FILE *to, const char *name)
{
    print_escaped(to, is_dash(name) ? "standard input" : name);
}

const char *output_name(const char *path)
{
    return is_dash(path) ? "standard output" : path;
}

void print_message(FILE *to, const char *format, va_list arguments)
{
    char message[6000]; /* all names of a table fit in */
    vsnprintf(message, sizeof message, format, arguments);
    print_escaped(to, message);
}

/* Whether standard output can be flushed shows at its end. */
void complain(const char *name, const char *format, ...)
{
    int why = errno;
    va_list arguments;
    fflush(stdout);
    fputs("flow: ", stderr);
    print_name(stderr, name);
    fputs(": ", stderr);
    va_start(arguments, format);
    print_message(stderr, format, arguments);
    va_end(arguments);
    fputc('\n', stderr);
    errno = why;
}
