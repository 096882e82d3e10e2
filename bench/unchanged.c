/*
 * A library before a change beside the library now: on generated calls that the change does not name, results and every byte of
 * every slice are the same.  A call that it names is left out, and in its place made without what is named, so that its table, or
 * nearly it, is compared too.
 * Usage: unchanged [seed [count [first]]].
 */
#include <inttypes.h>
#include <stdio.h>
#include <stdlib.h>

#include "call.h"
#include "flow.h"
#include "generate.h"

enum { DEFAULT_COUNT = 100000 };

/* call_library, linked with the one library and with the other (Makefile) */
performer call_before_1, call_after_1;

struct tally {
    uint64_t compared[ENTRIES], accepted[ENTRIES];
    uint64_t left_out[ENTRIES], differ[ENTRIES]; /* calls that the change names, and those of them that it changes */
};

/* ---- What the change names ---------------------------------------------------------------------------------------------- */

/* Takes what the change names out of a call.  False: there is none of it.  Memory by size class and labels in place name nothing. */
static bool take_out_named(struct call *call)
{
    (void)call;
    return false;
}

/* ---- Comparing ---------------------------------------------------------------------------------------------------------- */

static bool compare_libraries(const struct call *call, bool print, uint64_t *accepted)
{
    struct made before = make_call(call, "library before", call_before_1);
    struct made after = make_call(call, "library now", call_after_1);
    bool same = made_alike(&before, &after);
    if (!same && print)
        print_difference(call, &before, &after);
    *accepted += after.result == FLOW_ACCEPTED;
    call_free(&before.after);
    call_free(&after.after);
    return same;
}

static bool compare_number(uint64_t seed, uint64_t number, struct tally *tally)
{
    struct random r = random_from(seed, number);
    struct call call;
    uint64_t not_counted = 0;
    generate_call(&r, false, &call);
    struct call whole = call_copy(&call);
    if (take_out_named(&call)) {
        tally->left_out[call.entry]++;
        tally->differ[call.entry] += !compare_libraries(&whole, false, &not_counted);
    }
    tally->compared[call.entry]++;
    bool same = compare_libraries(&call, true, &tally->accepted[call.entry]);
    if (!same)
        printf("this was call %" PRIu64 ": unchanged %" PRIu64 " 1 %" PRIu64 " has it again\n", number, seed, number);
    call_free(&whole);
    call_free(&call);
    return same;
}

static void print_tally(const struct tally *tally)
{
    for (unsigned entry = 0; entry < ENTRIES; entry++)
        printf("  %s: %" PRIu64 " calls compared, %" PRIu64 " accepted; left out as generated: %" PRIu64 ", of which %" PRIu64 " differ\n",
               entry_names[entry], tally->compared[entry], tally->accepted[entry], tally->left_out[entry], tally->differ[entry]);
}

int main(int argc, char **argv)
{
    static struct tally tally;
    uint64_t seed = argc > 1 ? strtoull(argv[1], NULL, 10) : 1;
    uint64_t asked = argc > 2 ? strtoull(argv[2], NULL, 10) : 0;
    uint64_t count = asked > 0 ? asked : DEFAULT_COUNT;
    uint64_t first = argc > 3 ? strtoull(argv[3], NULL, 10) : 0;
    setvbuf(stdout, NULL, _IOLBF, 0);
    for (uint64_t done = 0; done < count; done++)
        if (!compare_number(seed, first + done, &tally))
            return 1;
    printf("the libraries do the same but for what the change names (seed %" PRIu64 ")\n", seed);
    print_tally(&tally);
    return 0;
}
