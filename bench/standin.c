/* Stands in for libflow.a where the library is not built yet, or where the bench itself is to be tried: the reference. */
#include "flow.h"
#include "reference.h"

uint64_t flow_sheet(const uint8_t *table, size_t table_len, uint8_t *sheet, size_t sheet_len, uint8_t *answer, size_t answer_len)
{
    return reference_sheet(table, table_len, sheet, sheet_len, answer, answer_len);
}

uint64_t flow_questions(const uint8_t *table, size_t table_len, const uint8_t *questions, size_t questions_len, uint8_t *labels,
                        size_t labels_len, uint8_t *answer, size_t answer_len)
{
    return reference_questions(table, table_len, questions, questions_len, labels, labels_len, answer, answer_len);
}

uint64_t flow_harden(const uint8_t *table, size_t table_len, uint8_t *out, size_t out_len, uint8_t *answer, size_t answer_len)
{
    return reference_harden(table, table_len, out, out_len, answer, answer_len);
}

uint64_t flow_run(const uint8_t *table, size_t table_len, uint8_t *variables, size_t variables_len, uint8_t *cells,
                  size_t cells_len, uint8_t *pending, size_t pending_len, uint8_t *observations, size_t observations_len,
                  uint32_t budget, uint8_t *answer, size_t answer_len)
{
    return reference_run(table, table_len, variables, variables_len, cells, cells_len, pending, pending_len, observations,
                         observations_len, budget, answer, answer_len);
}

uint64_t flow_guess(const uint8_t *table, size_t table_len, const uint8_t *directives, size_t directives_len,
                    uint8_t *variables, size_t variables_len, uint8_t *cells, size_t cells_len, uint8_t *pending,
                    size_t pending_len, uint8_t *observations, size_t observations_len, uint32_t budget, uint8_t *answer,
                    size_t answer_len)
{
    return reference_guess(table, table_len, directives, directives_len, variables, variables_len, cells, cells_len, pending,
                           pending_len, observations, observations_len, budget, answer, answer_len);
}

uint64_t flow_rollback(const uint8_t *table, size_t table_len, const uint8_t *directives, size_t directives_len,
                       uint8_t *variables, size_t variables_len, uint8_t *cells, size_t cells_len, uint8_t *pending,
                       size_t pending_len, uint8_t *saves, size_t saves_len, uint8_t *observations, size_t observations_len,
                       uint32_t budget, uint8_t *answer, size_t answer_len)
{
    return reference_rollback(table, table_len, directives, directives_len, variables, variables_len, cells, cells_len, pending,
                              pending_len, saves, saves_len, observations, observations_len, budget, answer, answer_len);
}
