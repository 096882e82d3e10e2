/* SHA-256 (FIPS 180-4) of bytes in memory. */
#ifndef SHA256_H
#define SHA256_H

#include <stddef.h>
#include <stdint.h>

enum { SHA256_HEX = 64 };

/* The digest in lower-case hexadecimal, with a zero at its end. */
void sha256(const uint8_t *bytes, size_t length, char hex[SHA256_HEX + 1]);

#endif
