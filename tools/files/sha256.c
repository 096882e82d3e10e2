#include "files/sha256.h"

#include <stdio.h>
#include <string.h>

enum { BLOCK = 64, ROUNDS = 64, WORDS = 8, LENGTH_BYTES = 8 };

static const uint32_t first_hash[WORDS] = {0x6a09e667, 0xbb67ae85, 0x3c6ef372, 0xa54ff53a,
                                           0x510e527f, 0x9b05688c, 0x1f83d9ab, 0x5be0cd19};

static const uint32_t constants[ROUNDS] = {
    0x428a2f98, 0x71374491, 0xb5c0fbcf, 0xe9b5dba5, 0x3956c25b, 0x59f111f1, 0x923f82a4, 0xab1c5ed5,
    0xd807aa98, 0x12835b01, 0x243185be, 0x550c7dc3, 0x72be5d74, 0x80deb1fe, 0x9bdc06a7, 0xc19bf174,
    0xe49b69c1, 0xefbe4786, 0x0fc19dc6, 0x240ca1cc, 0x2de92c6f, 0x4a7484aa, 0x5cb0a9dc, 0x76f988da,
    0x983e5152, 0xa831c66d, 0xb00327c8, 0xbf597fc7, 0xc6e00bf3, 0xd5a79147, 0x06ca6351, 0x14292967,
    0x27b70a85, 0x2e1b2138, 0x4d2c6dfc, 0x53380d13, 0x650a7354, 0x766a0abb, 0x81c2c92e, 0x92722c85,
    0xa2bfe8a1, 0xa81a664b, 0xc24b8b70, 0xc76c51a3, 0xd192e819, 0xd6990624, 0xf40e3585, 0x106aa070,
    0x19a4c116, 0x1e376c08, 0x2748774c, 0x34b0bcb5, 0x391c0cb3, 0x4ed8aa4a, 0x5b9cca4f, 0x682e6ff3,
    0x748f82ee, 0x78a5636f, 0x84c87814, 0x8cc70208, 0x90befffa, 0xa4506ceb, 0xbef9a3f7, 0xc67178f2};

static uint32_t rotated(uint32_t word, unsigned by)
{
    return word >> by | word << (32 - by);
}

static uint32_t big_endian(const uint8_t *at)
{
    return (uint32_t)at[0] << 24 | (uint32_t)at[1] << 16 | (uint32_t)at[2] << 8 | (uint32_t)at[3];
}

/* The message schedule of a block (6.2.2, step 1). */
static void schedule(uint32_t words[ROUNDS], const uint8_t *block)
{
    for (unsigned i = 0; i < ROUNDS; i++) {
        if (i < 16) {
            words[i] = big_endian(block + 4 * i);
            continue;
        }
        uint32_t early = words[i - 15], late = words[i - 2];
        words[i] = words[i - 16] + (rotated(early, 7) ^ rotated(early, 18) ^ early >> 3) + words[i - 7] +
                   (rotated(late, 17) ^ rotated(late, 19) ^ late >> 10);
    }
}

/* One round (6.2.2, step 3): a to h are w[0] to w[7]. */
static void turn(uint32_t w[WORDS], uint32_t constant, uint32_t word)
{
    uint32_t choice = (w[4] & w[5]) ^ (~w[4] & w[6]), majority = (w[0] & w[1]) ^ (w[0] & w[2]) ^ (w[1] & w[2]);
    uint32_t one = w[7] + (rotated(w[4], 6) ^ rotated(w[4], 11) ^ rotated(w[4], 25)) + choice + constant + word;
    uint32_t two = (rotated(w[0], 2) ^ rotated(w[0], 13) ^ rotated(w[0], 22)) + majority;
    memmove(w + 1, w, (WORDS - 1) * sizeof *w);
    w[4] += one;
    w[0] = one + two;
}

static void add_block(uint32_t hash[WORDS], const uint8_t *block)
{
    uint32_t words[ROUNDS], working[WORDS];
    schedule(words, block);
    memcpy(working, hash, sizeof working);
    for (unsigned i = 0; i < ROUNDS; i++)
        turn(working, constants[i], words[i]);
    for (unsigned i = 0; i < WORDS; i++)
        hash[i] += working[i];
}

/* The last bytes, a one bit, zeros, and the length in bits: one block, or two where one has no room. */
static void add_end(uint32_t hash[WORDS], const uint8_t *rest, size_t rest_length, uint64_t length)
{
    uint8_t end[2 * BLOCK] = {0};
    size_t whole = rest_length + 1 + LENGTH_BYTES <= BLOCK ? BLOCK : 2 * BLOCK;
    if (rest_length > 0)
        memcpy(end, rest, rest_length);
    end[rest_length] = 0x80;
    for (unsigned i = 0; i < LENGTH_BYTES; i++)
        end[whole - 1 - i] = (uint8_t)(8 * length >> 8 * i);
    add_block(hash, end);
    if (whole > BLOCK)
        add_block(hash, end + BLOCK);
}

void sha256(const uint8_t *bytes, size_t length, char hex[SHA256_HEX + 1])
{
    uint32_t hash[WORDS];
    size_t whole = length - length % BLOCK;
    memcpy(hash, first_hash, sizeof hash);
    for (size_t at = 0; at < whole; at += BLOCK)
        add_block(hash, bytes + at);
    add_end(hash, whole < length ? bytes + whole : NULL, length - whole, length);
    for (unsigned i = 0; i < WORDS; i++)
        snprintf(hex + 8 * i, 9, "%08lx", (unsigned long)hash[i]);
}
