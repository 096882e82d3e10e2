#define _POSIX_C_SOURCE 200809L

#include "timing.h"

#include <stdlib.h>
#include <time.h>

#include "chill.h"

enum { ROUNDS = 9, COLD_TURNS = 31 };
static const double round_seconds = 0.01;

static double now(void)
{
    struct timespec time;
    clock_gettime(CLOCK_PROCESS_CPUTIME_ID, &time); /* other processes share the machine */
    return (double)time.tv_sec + 1e-9 * (double)time.tv_nsec;
}

/* Seconds for `times` turns through all calls. */
static double time_turns(performer *perform, struct call *calls, unsigned count, unsigned times)
{
    double start = now();
    for (unsigned turn = 0; turn < times; turn++)
        for (unsigned i = 0; i < count; i++)
            perform(&calls[i]);
    return now() - start;
}

/* How many turns fill a round. */
static unsigned turns_for_round(performer *perform, struct call *calls, unsigned count)
{
    unsigned times = 1;
    while (time_turns(perform, calls, count, times) < round_seconds && times < 1u << 20)
        times *= 2;
    return times;
}

static void keep_least(double *least, double seconds, unsigned calls)
{
    if (*least == 0 || seconds / calls < *least)
        *least = seconds / calls;
}

/* The turns of a round, on each. */
struct turns {
    unsigned library, other;
};

static struct turns find_turns(struct performers both, struct call *calls, unsigned count)
{
    unsigned library = turns_for_round(both.library, calls, count);
    return (struct turns){library, turns_for_round(both.other, calls, count)};
}

static void time_round(struct performers both, struct call *calls, unsigned count, struct turns turns, struct timing *best)
{
    keep_least(&best->library, time_turns(both.library, calls, count, turns.library), turns.library * count);
    keep_least(&best->other, time_turns(both.other, calls, count, turns.other), turns.other * count);
}

void time_groups(struct performers both, struct call *const *groups, unsigned group_count, unsigned count,
                 struct timing *timings)
{
    struct turns turns[MOST_GROUPS];
    for (unsigned i = 0; i < group_count; i++) {
        timings[i] = (struct timing){0, 0};
        turns[i] = find_turns(both, groups[i], count);
    }
    for (unsigned round = 0; round < ROUNDS; round++)
        for (unsigned i = 0; i < group_count; i++)
            time_round(both, groups[i], count, turns[i], &timings[i]);
}

struct timing time_calls(struct performers both, struct call *calls, unsigned count)
{
    struct timing timing;
    time_groups(both, (struct call *const[]){calls}, 1, count, &timing);
    return timing;
}

/* ---- Cold --------------------------------------------------------------------------------------------------------------- */

static int by_size(const void *one, const void *other)
{
    double difference = *(const double *)one - *(const double *)other;
    return (difference > 0) - (difference < 0);
}

double median_of(double *figures, unsigned count)
{
    qsort(figures, count, sizeof *figures, by_size);
    return figures[count / 2];
}

/* The clock of the CPU is a call of the system, whose own cold code would be timed too: this one is read without. */
static struct timespec wall_clock(void)
{
    struct timespec time;
    clock_gettime(CLOCK_MONOTONIC, &time);
    return time;
}

static double time_cold_call(performer *perform, struct call *call)
{
    chill();
    wall_clock(); /* reading it is not to be cold */
    struct timespec start = wall_clock();
    perform(call);
    struct timespec end = wall_clock();
    return (double)(end.tv_sec - start.tv_sec) + 1e-9 * (double)(end.tv_nsec - start.tv_nsec);
}

static struct timing time_one_cold(struct performers both, struct call *call)
{
    double library[COLD_TURNS], other[COLD_TURNS];
    for (unsigned turn = 0; turn < COLD_TURNS; turn++) {
        library[turn] = time_cold_call(both.library, call);
        other[turn] = time_cold_call(both.other, call);
    }
    return (struct timing){median_of(library, COLD_TURNS), median_of(other, COLD_TURNS)};
}

struct timing time_cold_calls(struct performers both, struct call *calls, unsigned count)
{
    struct timing sum = {0, 0};
    for (unsigned i = 0; i < count; i++) {
        struct timing one = time_one_cold(both, &calls[i]);
        sum.library += one.library;
        sum.other += one.other;
    }
    return (struct timing){sum.library / count, sum.other / count};
}
