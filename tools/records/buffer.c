#include "records/buffer.h"

#include <stdio.h>
#include <stdlib.h>
#include <string.h>

#include "records/little_endian.h"

void buffer_reserve(struct buffer *b, size_t more)
{
    if (b->capacity - b->length >= more)
        return;
    b->capacity = 2 * (b->length + more);
    b->bytes = realloc(b->bytes, b->capacity);
    if (b->bytes == NULL) {
        fputs("no memory is left\n", stderr);
        exit(2);
    }
}

void buffer_append(struct buffer *b, const uint8_t *bytes, size_t length)
{
    if (length == 0)
        return;
    buffer_reserve(b, length);
    memcpy(b->bytes + b->length, bytes, length);
    b->length += length;
}

void buffer_append16(struct buffer *b, uint32_t value)
{
    uint8_t bytes[2];
    put16(bytes, value);
    buffer_append(b, bytes, sizeof bytes);
}

void buffer_append32(struct buffer *b, uint32_t value)
{
    uint8_t bytes[4];
    put32(bytes, value);
    buffer_append(b, bytes, sizeof bytes);
}

void buffer_free(struct buffer *b)
{
    free(b->bytes);
    *b = (struct buffer){0};
}
