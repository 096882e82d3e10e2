/*
 * Writes generated calls with the reference's answers, a line each, for a comparison with another model of the documents:
 *     entry budget (slices at entry) result (slices after)
 * The slices stand in the order of enum slice_name, in hexadecimal, an empty one as -.
 * Usage: exchange [seed [count [any]]].  Tables are small, unless `any` is asked for.
 */
#include <inttypes.h>
#include <stdlib.h>

#include "call.h"
#include "generate.h"

static void print_slices(const struct call *call)
{
    for (unsigned i = 0; i < SLICES; i++) {
        putchar(' ');
        print_hex(stdout, call->slices[i].bytes, call->slices[i].length);
    }
}

static void exchange_call(struct random *r, bool small)
{
    struct call call;
    generate_call(r, small, &call);
    printf("%s %" PRIu32, entry_names[call.entry], call.budget);
    print_slices(&call);
    uint64_t result = call_reference(&call);
    printf(" %" PRIu64, result);
    print_slices(&call);
    putchar('\n');
    call_free(&call);
}

int main(int argc, char **argv)
{
    uint64_t seed = argc > 1 ? strtoull(argv[1], NULL, 10) : 1;
    uint64_t count = argc > 2 ? strtoull(argv[2], NULL, 10) : 3000;
    for (uint64_t number = 0; number < count; number++) {
        struct random r = random_from(seed, number);
        exchange_call(&r, argc <= 3);
    }
    return 0;
}
