/*
 * An independent implementation of document 01, with the changes of document 02 that have landed, in plain C: the yardstick that libflow.a is compared with and timed against.
 * The entries behave as those of flow.h.
 */
#ifndef REFERENCE_H
#define REFERENCE_H

#include <stddef.h>
#include <stdint.h>

uint64_t reference_sheet(const uint8_t *table, size_t table_len,
                         uint8_t *sheet, size_t sheet_len,
                         uint8_t *answer, size_t answer_len);

uint64_t reference_questions(const uint8_t *table, size_t table_len,
                             const uint8_t *questions, size_t questions_len,
                             uint8_t *labels, size_t labels_len,
                             uint8_t *answer, size_t answer_len);

uint64_t reference_harden(const uint8_t *table, size_t table_len,
                          uint8_t *out, size_t out_len,
                          uint8_t *answer, size_t answer_len);

uint64_t reference_run(const uint8_t *table, size_t table_len,
                       uint8_t *variables, size_t variables_len,
                       uint8_t *cells, size_t cells_len,
                       uint8_t *pending, size_t pending_len,
                       uint8_t *observations, size_t observations_len,
                       uint32_t budget,
                       uint8_t *answer, size_t answer_len);

uint64_t reference_guess(const uint8_t *table, size_t table_len,
                         const uint8_t *directives, size_t directives_len,
                         uint8_t *variables, size_t variables_len,
                         uint8_t *cells, size_t cells_len,
                         uint8_t *pending, size_t pending_len,
                         uint8_t *observations, size_t observations_len,
                         uint32_t budget,
                         uint8_t *answer, size_t answer_len);

uint64_t reference_rollback(const uint8_t *table, size_t table_len,
                            const uint8_t *directives, size_t directives_len,
                            uint8_t *variables, size_t variables_len,
                            uint8_t *cells, size_t cells_len,
                            uint8_t *pending, size_t pending_len,
                            uint8_t *saves, size_t saves_len,
                            uint8_t *observations, size_t observations_len,
                            uint32_t budget,
                            uint8_t *answer, size_t answer_len);

#endif
