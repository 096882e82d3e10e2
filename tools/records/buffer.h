/* Buffers that grow.  The program ends, with status 2, where there is no memory. */
#ifndef BUFFER_H
#define BUFFER_H

#include <stddef.h>
#include <stdint.h>

struct buffer {
    uint8_t *bytes;
    size_t length, capacity;
};

/* Makes room for so many bytes more. */
void buffer_reserve(struct buffer *b, size_t more);
void buffer_append(struct buffer *b, const uint8_t *bytes, size_t length);
void buffer_append16(struct buffer *b, uint32_t value);
void buffer_append32(struct buffer *b, uint32_t value);
void buffer_free(struct buffer *b);

#endif
