#include "library/verdict.h"

#include <string.h>

#include "records/little_endian.h"

/* Does the same observation stand at this byte of both lists?  Both have one there. */
static bool same_observation(const struct buffer *one, const struct buffer *other, size_t at)
{
    size_t length = get16(one->bytes + at);
    return length == get16(other->bytes + at) && memcmp(one->bytes + at, other->bytes + at, length) == 0;
}

/* None where a run was cut, else where a directive does not fit: the first such run is named. */
static void withhold(struct verdict *verdict, const struct run runs[2], const struct stuck stuck[2])
{
    bool cut = run_was_cut(&runs[0]), unfit = is_unfit(&stuck[0]);
    if (cut || run_was_cut(&runs[1])) {
        verdict->kind = VERDICT_CUT;
        verdict->run = cut ? 0 : 1;
    } else if (unfit || is_unfit(&stuck[1])) {
        verdict->kind = VERDICT_UNFIT;
        verdict->run = unfit ? 0 : 1;
    }
}

struct verdict compare_runs(const struct run runs[2], const struct stuck stuck[2])
{
    const struct buffer *one = &runs[0].observations, *other = &runs[1].observations;
    struct verdict verdict = {.kind = VERDICT_ALIKE, .observation = 1};
    while (verdict.at < one->length && verdict.at < other->length) {
        if (!same_observation(one, other, verdict.at)) {
            verdict.kind = VERDICT_TOLD_APART;
            return verdict;
        }
        verdict.at += get16(one->bytes + verdict.at);
        verdict.observation++;
    }
    withhold(&verdict, runs, stuck);
    return verdict;
}
