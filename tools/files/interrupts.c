#include "files/interrupts.h"

#include <errno.h>
#include <stddef.h>
#include <unistd.h>

static const int interrupts[] = {SIGHUP, SIGINT, SIGTERM};

enum { INTERRUPTS = sizeof interrupts / sizeof interrupts[0] };

static volatile sig_atomic_t noted; /* the first that came, or 0 */

void hold_signals(sigset_t *before)
{
    sigset_t all;
    sigfillset(&all);
    sigprocmask(SIG_BLOCK, &all, before);
}

void release_signals(const sigset_t *before)
{
    sigprocmask(SIG_SETMASK, before, NULL);
}

/* Without SA_RESTART: what the system is waiting for is broken off. */
static void handle(int signal, void (*handler)(int))
{
    struct sigaction action = {.sa_handler = handler};
    sigfillset(&action.sa_mask);
    sigaction(signal, &action, NULL);
}

static bool is_handled_by(int signal, void (*handler)(int))
{
    struct sigaction now;
    return sigaction(signal, NULL, &now) == 0 && now.sa_handler == handler;
}

static void handle_all(void (*from)(int), void (*to)(int))
{
    for (unsigned i = 0; i < INTERRUPTS; i++)
        if (is_handled_by(interrupts[i], from))
            handle(interrupts[i], to);
}

static void note(int signal);

/*
 * A signal may come when the program has just seen that there is none, and is about to wait for ever.  So once one has come,
 * all waiting is broken off every second.
 */
static void tick(int signal)
{
    (void)signal;
    handle_all(note, SIG_DFL);
    alarm(1);
}

static void note(int signal)
{
    if (noted != 0)
        return;
    noted = signal;
    handle(SIGALRM, tick);
    alarm(1);
}

void note_interrupts(void)
{
    handle_all(SIG_DFL, note);
    handle(SIGPIPE, SIG_IGN);
}

bool is_interrupted(void)
{
    return noted != 0;
}

bool is_to_be_repeated(void)
{
    return errno == EINTR && !is_interrupted();
}

bool was_broken_off(void)
{
    return errno == EINTR && is_interrupted();
}

/* In this order none is lost: what comes later than the first line ends the program by itself. */
void end_by_interrupt(void)
{
    handle_all(note, SIG_DFL);
    if (noted != 0)
        raise(noted);
}
