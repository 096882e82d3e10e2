/* Messages, and names of files in lines that are printed.  Bytes that would break or colour a line come out as \n, \x1b, .. */
#ifndef MESSAGES_H
#define MESSAGES_H

#include <stdarg.h>
#include <stdio.h>

/* Prints the name of a file; of "-" it is "standard input". */
void print_name(FILE *to, const char *name);

/* The name of an output in messages; of "-" it is "standard output". */
const char *output_name(const char *path);

/* Prints a message, of which a very long one is cut. */
void print_message(FILE *to, const char *format, va_list arguments);

/* Prints "flow: NAME: .." on standard error, behind all that was printed on standard output before.  Keeps errno. */
void complain(const char *name, const char *format, ...);

#endif
