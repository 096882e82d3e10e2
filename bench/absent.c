/*
 * Linked behind a library of before a change, so that `compare` can call what that library lacks.  An entry that the library has
 * is taken from there, since these are weak.
 */
#include "absent.h"

#include "flow.h"

__attribute__((weak)) uint64_t flow_rollback(const uint8_t *table, size_t table_len, const uint8_t *directives,
                                             size_t directives_len, uint8_t *variables, size_t variables_len, uint8_t *cells,
                                             size_t cells_len, uint8_t *pending, size_t pending_len, uint8_t *saves,
                                             size_t saves_len, uint8_t *observations, size_t observations_len, uint32_t budget,
                                             uint8_t *answer, size_t answer_len)
{
    (void)table, (void)table_len, (void)directives, (void)directives_len, (void)variables, (void)variables_len, (void)cells;
    (void)cells_len, (void)pending, (void)pending_len, (void)saves, (void)saves_len, (void)observations, (void)observations_len;
    (void)budget, (void)answer, (void)answer_len;
    return NO_SUCH_ENTRY;
}
