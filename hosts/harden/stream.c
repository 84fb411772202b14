/* stream.c: ChaCha20 of RFC 8439, and the elements of its key stream. See stream.h. */
#include "stream.h"

#include <string.h>

#include "pool.h"

enum { WORDS = 16 };

static uint32_t word_at(const uint8_t *at)
{
    return at[0] | (uint32_t)at[1] << 8 | (uint32_t)at[2] << 16 | (uint32_t)at[3] << 24;
}

static uint32_t turned(uint32_t x, int by) { return x << by | x >> (32 - by); }

static void quarter_round(uint32_t *x, int a, int b, int c, int d)
{
    x[a] += x[b];
    x[d] = turned(x[d] ^ x[a], 16);
    x[c] += x[d];
    x[b] = turned(x[b] ^ x[c], 12);
    x[a] += x[b];
    x[d] = turned(x[d] ^ x[a], 8);
    x[c] += x[d];
    x[b] = turned(x[b] ^ x[c], 7);
}

static void block(const uint8_t *seed, const uint8_t *id, uint32_t counter, uint32_t out[WORDS])
{
    uint32_t start[WORDS] = {0};
    for (int k = 0; k < 4; k++)
        start[k] = word_at((const uint8_t *)"expand 32-byte k" + 4 * k);
    for (int k = 0; k < 8; k++)
        start[4 + k] = word_at(seed + 4 * k);
    start[12] = counter;
    start[13] = word_at(id);
    memcpy(out, start, sizeof start);
    for (int k = 0; k < 10; k++) {
        for (int n = 0; n < 4; n++)
            quarter_round(out, n, 4 + n, 8 + n, 12 + n);
        for (int n = 0; n < 4; n++)
            quarter_round(out, n, 4 + (n + 1) % 4, 8 + (n + 2) % 4, 12 + (n + 3) % 4);
    }
    for (int k = 0; k < WORDS; k++)
        out[k] += start[k];
}

void seed_elements(const uint8_t *seed, const uint8_t *id, size_t count, uint8_t *out)
{
    uint32_t words[WORDS];
    for (size_t k = 0; k < count; k++) {
        if (k % WORDS == 0)
            block(seed, id, (uint32_t)(k / WORDS), words);
        uint32_t element = (words[k % WORDS] & 0x7fffffff) % POOL_PRIME;
        for (int n = 0; n < 4; n++)
            out[4 * k + n] = (uint8_t)(element >> 8 * n);
    }
}
