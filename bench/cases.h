/* The cases that document 01 lists, with the answers that it gives, and some of document 02. */
#ifndef CASES_H
#define CASES_H

#include <stdbool.h>

/* Tries each case on the library; prints those that fail. */
bool cases_hold(void);

#endif
