/*
 * Signals that ask the program to end: SIGHUP, SIGINT and SIGTERM.  One that was ignored when the program started (nohup) stays
 * ignored.
 */
#ifndef INTERRUPTS_H
#define INTERRUPTS_H

#include <signal.h>
#include <stdbool.h>

/* In between every signal waits: for work that is short, cannot wait itself and must not be left half done. */
void hold_signals(sigset_t *before);
void release_signals(const sigset_t *before);

/*
 * From here on the first of these signals does not end the program: it is noted, and a call of the system that waits fails with
 * EINTR, at the latest after a second.  From then on a further signal ends the program at once; before that it is taken for the
 * same one, since many who end a program send two (timeout does, and a terminal that is closed).  A pipe that nobody reads is
 * an error (EPIPE) and no signal.
 */
void note_interrupts(void);
bool is_interrupted(void);

/* Of a call of the system that failed: was it broken off by a signal, which is no reason to stop, or by the one noted? */
bool is_to_be_repeated(void);
bool was_broken_off(void);

/* Signals end the program again; and so does, here and now, the one that was noted. */
void end_by_interrupt(void);

#endif
