/* Why a list of directives is refused, in words.  That it is, is the library's to say; the words are found by looking at it. */
#ifndef SCRIPT_FAULTS_H
#define SCRIPT_FAULTS_H

#include <stdbool.h>
#include <stdio.h>

#include "text/script.h"

/*
 * Prints the fault of the first directive that has one: "directive 3, at byte 14, has kind 99, which no directive has".  A byte
 * is named of records alone.  `rollback`: rollbacks are allowed in the list.  False: no directive has a fault, and nothing is
 * printed.  Safe for any bytes.
 */
bool print_script_fault(FILE *to, const struct script *script, bool rollback);

/* One line, for messages: "NAME: refused by 10: " and the fault. */
void print_script_refusal(FILE *to, const struct script *script, bool rollback);

#endif
