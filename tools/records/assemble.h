/* Tables and directive lists put together. */
#ifndef ASSEMBLE_H
#define ASSEMBLE_H

#include "records/buffer.h"

/* The lowest version whose tables declare so many variables. */
unsigned lowest_version(unsigned variables);

/*
 * Starts a table of a version: header, labels and an array record for each count.  Each node put after it is counted in the
 * header.
 */
void assemble_version(struct buffer *table, unsigned version, unsigned variables, unsigned arrays, const uint16_t *counts,
                      uint64_t secret_variables, uint32_t secret_arrays);

/* The same, of the lowest version. */
void assemble_table(struct buffer *table, unsigned variables, unsigned arrays, const uint16_t *counts,
                    uint64_t secret_variables, uint32_t secret_arrays);

/* Puts a node of this kind and returns its number.  `fields` holds as many as the kind has. */
unsigned assemble_node(struct buffer *table, unsigned kind, const uint32_t *fields);

/* The same for a given number of fields. */
unsigned assemble_node0(struct buffer *table, unsigned kind);
unsigned assemble_node1(struct buffer *table, unsigned kind, uint32_t one);
unsigned assemble_node2(struct buffer *table, unsigned kind, uint32_t one, uint32_t two);
unsigned assemble_node3(struct buffer *table, unsigned kind, uint32_t one, uint32_t two, uint32_t three);

/* Puts step, force or rollback. */
void assemble_directive(struct buffer *list, unsigned kind);

/* Puts load or store. */
void assemble_redirect(struct buffer *list, unsigned kind, unsigned array, uint32_t index);

#endif
