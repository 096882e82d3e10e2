/*
 * Compares libflow.a with the reference on generated calls of all entries: the result, every byte of every slice.  Of lists of
 * questions that are accepted, it asks some pairs alone too.  Every eighth time it plays demands 2 and 3 instead: of the 480,000
 * that it does if no count (or 0) is given, 420,000 are calls compared (by chance, about 70,000 of each entry) and 60,000 programs
 * played.  That is a number and not a time, so that a seed tries the same on any machine.
 * Usage: check [seed [count [first]]].
 */
#define _XOPEN_SOURCE 700

#include <inttypes.h>
#include <signal.h>
#include <stdio.h>
#include <stdlib.h>
#include <string.h>
#include <unistd.h>

#include "call.h"
#include "cases.h"
#include "declarations.h"
#include "demands.h"
#include "factors.h"
#include "flow.h"
#include "generate.h"
#include "versions.h"

enum { DEFAULT_COUNT = 480000, ENOUGH_TO_PLAY = 1000, HANGING_SECONDS = 120, MOST_REFUSAL = 24, MOST_END = 5, MOST_ALONE = 8 };

struct tally {
    uint64_t refusals[ENTRIES][MOST_REFUSAL + 1]; /* 0: accepted */
    uint64_t ends[ENTRIES][MOST_END + 1];
    uint64_t alone; /* pairs of lists of questions that were asked alone too */
    struct led led[ENTRIES]; /* directives that calls of flow_guess and flow_rollback used */
    struct factored factored[ENTRIES]; /* tables of accepted calls of flow_sheet, flow_questions and flow_harden */
    struct versions versions[ENTRIES]; /* tables of accepted calls */
    uint64_t other_labels[2]; /* calls refused by 2 for the other version's labels record: of tables of version 1 and of 2 */
    struct plays plays;
};

/* ---- Comparing ---------------------------------------------------------------------------------------------------------- */

static bool guesses(enum entry entry)
{
    return entry == ENTRY_GUESS || entry == ENTRY_ROLLBACK;
}

static bool runs(enum entry entry)
{
    return entry == ENTRY_RUN || guesses(entry);
}

static void count_call(struct tally *tally, const struct call *reference, uint64_t result)
{
    enum entry entry = reference->entry;
    tally->refusals[entry][result]++;
    if (runs(entry) && result == FLOW_ACCEPTED && reference->slices[SLICE_ANSWER].length >= 16)
        tally->ends[entry][call_answer(reference, 1)]++;
    if (guesses(entry) && result == FLOW_ACCEPTED)
        call_led(reference, &tally->led[entry]);
    const struct slice *table = &reference->slices[SLICE_TABLE];
    if (!runs(entry) && result == FLOW_ACCEPTED)
        count_factored(table->bytes, table->length, &tally->factored[entry]);
    if (result == FLOW_ACCEPTED)
        count_version(table->bytes, &tally->versions[entry]);
    if (result == FLOW_WRONG_RECORD && has_other_labels(table->bytes, table->length))
        tally->other_labels[version_of(table->bytes) == FLOW_VERSION_2]++;
}

static bool compare_call(const struct call *call, struct tally *tally)
{
    struct made library = make_call(call, "library", call_library);
    struct made reference = make_call(call, "reference", call_reference);
    bool same = made_alike(&library, &reference);
    if (same)
        count_call(tally, &reference.after, reference.result);
    else
        print_difference(call, &library, &reference);
    call_free(&library.after);
    call_free(&reference.after);
    return same;
}

/* ---- Pairs asked alone -------------------------------------------------------------------------------------------------- */

enum { NO_LABEL = 2 };

/* The library's byte for one pair of the list, asked in a list of its own; no label if the call is refused. */
static uint8_t ask_alone(const struct call *list, size_t pair)
{
    struct call alone = {.entry = ENTRY_QUESTIONS};
    const struct slice *table = &list->slices[SLICE_TABLE];
    const uint8_t *question = list->slices[SLICE_QUESTIONS].bytes + pair * FLOW_QUESTION_BYTES;
    uint8_t label = NO_LABEL;
    slice_from(&alone.slices[SLICE_TABLE], table->bytes, table->length);
    slice_from(&alone.slices[SLICE_QUESTIONS], question, FLOW_QUESTION_BYTES);
    slice_from(&alone.slices[SLICE_OUTPUT], &label, 1);
    slice_new(&alone.slices[SLICE_ANSWER], FLOW_ANSWER_BYTES);
    if (call_library(&alone) == FLOW_ACCEPTED && call_answer(&alone, 1) == 1)
        label = alone.slices[SLICE_OUTPUT].bytes[0];
    call_free(&alone);
    return label;
}

/* Of a list that the library has answered: every pair, or of a long list as many by chance, gets the same byte alone. */
static bool pairs_alone_agree(struct random *r, const struct call *answered, struct tally *tally)
{
    size_t count = answered->slices[SLICE_QUESTIONS].length / FLOW_QUESTION_BYTES;
    for (unsigned i = 0; i < MOST_ALONE && i < count; i++) {
        size_t pair = count <= MOST_ALONE ? i : random_below(r, (uint32_t)count);
        uint8_t in_list = answered->slices[SLICE_OUTPUT].bytes[pair];
        uint8_t alone = ask_alone(answered, pair);
        tally->alone++;
        if (alone != in_list) {
            printf("pair %zu gets %u in its list, alone %u (%u: refused)\n", pair, in_list, alone, NO_LABEL);
            print_call(answered);
            return false;
        }
    }
    return true;
}

static bool ask_pairs_alone(struct random *r, const struct call *call, struct tally *tally)
{
    struct call library = call_copy(call);
    bool agree = call_library(&library) != FLOW_ACCEPTED || pairs_alone_agree(r, &library, tally);
    call_free(&library);
    return agree;
}

static bool compare_generated(struct random *r, struct tally *tally)
{
    struct call call;
    generate_call(r, false, &call);
    bool same = compare_call(&call, tally);
    if (same && call.entry == ENTRY_QUESTIONS)
        same = ask_pairs_alone(r, &call, tally);
    call_free(&call);
    return same;
}

/* ---- Crashes and hanging ------------------------------------------------------------------------------------------------ */

static volatile uint64_t current_seed, current_number;

/* A call that crashes or hangs is a difference too: says which it was, and how to have it again. */
static void on_signal(int signal_number)
{
    char text[160];
    int length = snprintf(text, sizeof text, "signal %d in call %" PRIu64 ": check %" PRIu64 " 1 %" PRIu64 " has it again\n",
                          signal_number, current_number, current_seed, current_number);
    if (write(STDOUT_FILENO, text, (size_t)length) < 0)
        _exit(2);
    _exit(1);
}

static void watch_signals(void)
{
    static char other_stack[65536]; /* the usual one may be what ran out */
    stack_t stack = {.ss_sp = other_stack, .ss_size = sizeof other_stack};
    struct sigaction action = {.sa_handler = on_signal, .sa_flags = SA_ONSTACK};
    sigaltstack(&stack, NULL);
    sigaction(SIGSEGV, &action, NULL);
    sigaction(SIGBUS, &action, NULL);
    sigaction(SIGILL, &action, NULL);
    sigaction(SIGFPE, &action, NULL);
    sigaction(SIGALRM, &action, NULL);
}

/* ---- The whole ---------------------------------------------------------------------------------------------------------- */

static void print_counts(const char *heading, const uint64_t *counts, unsigned first, unsigned last)
{
    printf("    %s", heading);
    for (unsigned i = first; i <= last; i++)
        if (counts[i] > 0)
            printf("  %u: %" PRIu64, i, counts[i]);
    printf("\n");
}

static void print_led(const struct led *led)
{
    printf("    used      %" PRIu64 " forces; loads and stores: %" PRIu64 " out of bounds, in bounds %" PRIu64
           " with the flag set and %" PRIu64 " with it clear\n",
           led->forces, led->out_of_bounds, led->in_bounds[true], led->in_bounds[false]);
}

static void print_rolled(const struct led *led)
{
    print_led(led);
    printf("    undone    %" PRIu64 " forces, up to %" PRIu64 " open at once; %" PRIu64 " runs stuck at a force beyond them\n", led->rollbacks,
           led->deepest, led->beyond);
    printf("    runs that ended before a rollback: %" PRIu64 " spent, %" PRIu64 " stuck with no save open, %" PRIu64 " full\n",
           led->at_rollback[FLOW_SPENT], led->at_rollback[FLOW_STUCK], led->at_rollback[FLOW_FULL]);
}

static void print_factored(const struct factored *factored)
{
    printf("    tables    %" PRIu64 " with a product with the number 0 (%" PRIu64 " have labels that are public by this alone), %" PRIu64
           " with one with the number 1\n",
           factored->nought, factored->lowered, factored->one);
}

static void print_versions(const struct versions *versions)
{
    printf("    versions  %" PRIu64 " tables of version 2, %" PRIu64 " of version 1 with 32 variables; %" PRIu64
           " with 33 to 63 variables, %" PRIu64 " with 64\n",
           versions->second, versions->full, versions->wide, versions->widest);
}

static void print_leaks(const struct attack *attack)
{
    printf("    (%" PRIu64 " scripts told the states apart on the program before hardening, %" PRIu64
           " of them where the flag is 32 or above)\n",
           attack->leaks_before, attack->leaks_high);
}

static void print_plays(const struct plays *plays)
{
    printf("  demand 2: %" PRIu64 " runs of hardened programs without guessing, as the original's\n", plays->same_runs);
    printf("  demand 3: %" PRIu64 " pairs of states, %" PRIu64 " with related plain runs\n", plays->pairs, plays->related);
    print_factored(&plays->factored);
    print_versions(&plays->versions);
    printf("    flags     %" PRIu64 " of number 32 and above: %" PRIu64 " of 32, %" PRIu64 " of 63; %" PRIu64
           " programs have secret variables from 32 up\n",
           plays->versions.flag_high, plays->versions.flag_32, plays->versions.flag_63, plays->versions.secret);
    printf("  demand 3 on flow_guess: %" PRIu64 " scripts played to these\n", plays->guessing.scripts);
    print_led(&plays->guessing.led);
    print_leaks(&plays->guessing);
    printf("  demand 3 on flow_rollback: %" PRIu64 " scripts played to these\n", plays->rolling.scripts);
    print_rolled(&plays->rolling.led);
    print_leaks(&plays->rolling);
}

static void print_tally(const struct tally *tally)
{
    for (unsigned entry = 0; entry < ENTRIES; entry++) {
        uint64_t calls = 0;
        for (unsigned refusal = 0; refusal <= MOST_REFUSAL; refusal++)
            calls += tally->refusals[entry][refusal];
        printf("  %s: %" PRIu64 " calls, %" PRIu64 " accepted\n", entry_names[entry], calls, tally->refusals[entry][0]);
        print_counts("refusals", tally->refusals[entry], 1, MOST_REFUSAL);
        if (runs(entry))
            print_counts("ends    ", tally->ends[entry], 1, MOST_END);
        else
            print_factored(&tally->factored[entry]);
        print_versions(&tally->versions[entry]);
        if (entry == ENTRY_GUESS)
            print_led(&tally->led[entry]);
        if (entry == ENTRY_ROLLBACK)
            print_rolled(&tally->led[entry]);
        if (entry == ENTRY_QUESTIONS)
            printf("    %" PRIu64 " pairs asked alone too, with the byte that each got in its list\n", tally->alone);
    }
    printf("  refused by 2 for the other version's labels record: %" PRIu64 " tables of version 1, %" PRIu64 " of version 2\n",
           tally->other_labels[0], tally->other_labels[1]);
    print_plays(&tally->plays);
}

static bool met(bool all, const char *what)
{
    if (!all)
        printf("%s\n", what);
    return all;
}

/* Have directives of each sort led demand 3's plays?  If not, it was not played with them. */
static bool all_played(const struct led *led)
{
    return met(led->forces > 0 && led->out_of_bounds > 0 && led->in_bounds[true] > 0 && led->in_bounds[false] > 0,
               "demand 3 was not played with forces, and loads and stores out of bounds and in bounds");
}

/* Has all that a rollback or a force beyond the last save leads to been among the calls compared? */
static bool all_rolled(const struct led *led)
{
    return met(led->rollbacks > 0 && led->deepest == FLOW_MAX_SAVES && led->beyond > 0 && led->at_rollback[FLOW_SPENT] > 0 &&
                   led->at_rollback[FLOW_STUCK] > 0 && led->at_rollback[FLOW_FULL] > 0,
               "flow_rollback was not compared with rollbacks taken, spent, stuck and full, all saves open and a force beyond them");
}

static bool all_led(const struct tally *tally)
{
    const struct led *rolling = &tally->plays.rolling.led;
    bool played = all_played(&tally->plays.guessing.led) && all_played(rolling);
    return played && met(rolling->rollbacks > 0, "demand 3 was not played with rollbacks") && all_rolled(&tally->led[ENTRY_ROLLBACK]);
}

/* Have tables with products with 0 and with 1 been compared by each entry that labels, and played, some with labels by P6's rule alone? */
static bool all_factored(const struct tally *tally)
{
    uint64_t lowered = 0;
    bool compared = true;
    for (enum entry entry = ENTRY_SHEET; entry <= ENTRY_HARDEN; entry++) {
        compared = compared && tally->factored[entry].nought > 0 && tally->factored[entry].one > 0;
        lowered += tally->factored[entry].lowered;
    }
    const struct factored *played = &tally->plays.factored;
    return met(compared && lowered > 0, "flow_sheet, flow_questions and flow_harden were not compared with products with 0 and 1") &&
           met(played->lowered > 0 && played->one > 0, "demand 3 was not played with products with 0 and 1");
}

/* Has each entry accepted tables of version 2 and with more than 32 variables, and some entry tables with 64? */
static bool all_wide(const struct versions tables[ENTRIES])
{
    uint64_t widest = 0;
    bool each = true;
    for (enum entry entry = 0; entry < ENTRIES; entry++) {
        each = each && tables[entry].second > 0 && tables[entry].wide > 0;
        widest += tables[entry].widest;
    }
    return each && widest > 0;
}

/* Has all that P7 tells apart been compared and played? */
static bool all_versioned(const struct tally *tally)
{
    const struct versions *played = &tally->plays.versions;
    return met(all_wide(tally->versions),
               "an entry was not compared on tables of version 2 and with 33 to 63 variables, or none on tables with 64") &&
           met(tally->versions[ENTRY_HARDEN].full > 0, "no table of version 1 with 32 variables was hardened") &&
           met(tally->refusals[ENTRY_HARDEN][FLOW_NO_FREE_VARIABLE] > 0, "no call was refused by 9") &&
           met(tally->other_labels[0] > 0 && tally->other_labels[1] > 0, "no labels record of the other version was refused by 2") &&
           met(played->second > 0 && played->secret > 0 && played->flag_32 > 0 && played->flag_63 > 0,
               "demand 3 was not played in version 2, with secret variables from 32 up and with the flags 32 and 63");
}

static bool check_number(uint64_t seed, uint64_t number, struct tally *tally)
{
    struct random r = random_from(seed, number);
    current_seed = seed;
    current_number = number;
    alarm(HANGING_SECONDS);
    bool same = number % 8 == 7 ? play_demands(&r, &tally->plays) : compare_generated(&r, tally);
    if (!same)
        printf("this was call %" PRIu64 ": check %" PRIu64 " 1 %" PRIu64 " has it again\n", number, seed, number);
    return same;
}

/* A line for each tenth: on a slow machine or under valgrind nobody should have to guess whether it still runs. */
static void print_progress(uint64_t done, uint64_t count)
{
    if (count >= 10 && done % (count / 10) == 0)
        printf("  %" PRIu64 " of %" PRIu64 " done\n", done, count);
}

int main(int argc, char **argv)
{
    static struct tally tally;
    uint64_t seed = argc > 1 ? strtoull(argv[1], NULL, 10) : 1;
    uint64_t asked = argc > 2 ? strtoull(argv[2], NULL, 10) : 0;
    uint64_t count = asked > 0 ? asked : DEFAULT_COUNT;
    uint64_t first = argc > 3 ? strtoull(argv[3], NULL, 10) : 0;
    setvbuf(stdout, NULL, _IOLBF, 0);
    watch_signals();
    if (!cases_hold())
        return 1;
    for (uint64_t done = 0; done < count; done++) {
        print_progress(done, count);
        if (!check_number(seed, first + done, &tally))
            return 1;
    }
    printf("library and reference agree (seed %" PRIu64 ")\n", seed);
    print_tally(&tally);
    return count < ENOUGH_TO_PLAY || (all_led(&tally) && all_factored(&tally) && all_versioned(&tally)) ? 0 : 1;
}
