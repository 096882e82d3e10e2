/* How much stack a call takes. */
#ifndef STACK_H
#define STACK_H

#include <stddef.h>

#include "call.h"

/* Performs the call on a thread whose stack was painted before; returns the bytes of stack that the call wrote to at most. */
size_t stack_of_call(uint64_t (*perform)(struct call *), struct call *call);

#endif
