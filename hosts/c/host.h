/*
 * host.h: what a C host of the pool brings along: what a sheet comes to, a table with where it stands, how many returns wait in it and
 * what for, numbers in buffers, the value of a point, the r and s of a message, random numbers and seeds from the system, where the
 * messages of a return made from seeds begin, wiping. Functions are static, so that a program has only to include it.
 */
#ifndef POOL_HOST_H
#define POOL_HOST_H

#include <errno.h>
#include <stdio.h>
#include <stdlib.h>
#include <sys/random.h>

#include "pool.h"

/* Ends the program, with the answer's number and words, unless it is this one: POOL_DONE or a refusal. */
static inline void host_expect(const char *call, uint32_t answer, uint32_t want)
{
    if (answer == want)
        return;
    fprintf(stderr, "%s: %u, %s; expected %u\n", call, (unsigned)answer, pool_words(answer), (unsigned)want);
    exit(1);
}

/* Ends the program unless the call was done. */
static inline void host_must(const char *call, uint32_t answer) { host_expect(call, answer, POOL_DONE); }

/* What a sheet comes to: every party asks once. */
struct host_sizes {
    uint32_t columns, entries, published, wires, multiplications, tests, circuit_bytes, share_bytes, greatest_returns;
};

static inline uint32_t host_sizes_of(const uint8_t *sheet, size_t len, struct host_sizes *s)
{
    return pool_sizes(sheet, len, &s->columns, &s->entries, &s->published, &s->wires, &s->multiplications, &s->tests,
                      &s->circuit_bytes, &s->share_bytes, &s->greatest_returns);
}

/* A table: its three parts in one place, so that they are stored together. The sizes are enough for every sheet. */
struct host_table {
    uint8_t bytes[POOL_MAX_TABLE_BYTES];
    size_t bytes_len;
    pool_slot slots[POOL_SLOTS];
    uint32_t elements[POOL_MAX_ELEMENTS];
};

/* The table t, as every call takes it. */
#define HOST_TABLE(t) (t)->bytes, (t)->bytes_len, (t)->slots, POOL_SLOTS, (t)->elements, POOL_MAX_ELEMENTS

static inline uint32_t host_open(uint32_t servers, uint32_t own, const uint8_t *sheet, size_t sheet_len, uint32_t returns,
                                 uint32_t least, struct host_table *t)
{
    return pool_open(servers, own, sheet, sheet_len, returns, least, t->bytes, sizeof t->bytes, t->slots, POOL_SLOTS,
                     t->elements, POOL_MAX_ELEMENTS, &t->bytes_len);
}

/* Where a table stands. */
struct host_state {
    uint32_t servers, own, returns, least, closed, decided, entered, waiting;
};

static inline uint32_t host_state_of(const struct host_table *t, struct host_state *s)
{
    return pool_state(HOST_TABLE(t), &s->servers, &s->own, &s->returns, &s->least, &s->closed, &s->decided, &s->entered, &s->waiting);
}

/* How many returns wait in a table. With eight of them a share is refused 11, and handed in again later. */
static inline int host_waiting(const pool_slot slots[POOL_SLOTS])
{
    int waiting = 0;
    for (int k = 0; k < POOL_SLOTS; k++)
        waiting += slots[k].stage != POOL_FREE;
    return waiting;
}

/* The stage of a return, POOL_FREE where none of this id waits. One in POOL_AWAITS_ENTRY has an accepted verdict, in no total yet. */
static inline uint32_t host_stage(const pool_slot slots[POOL_SLOTS], uint32_t id)
{
    for (int k = 0; k < POOL_SLOTS; k++)
        if (slots[k].stage != POOL_FREE && slots[k].id == id)
            return slots[k].stage;
    return POOL_FREE;
}

static inline void host_put_u32(uint8_t *at, uint32_t x)
{
    for (int k = 0; k < 4; k++)
        at[k] = (uint8_t)(x >> 8 * k);
}

static inline uint32_t host_u32(const uint8_t *at)
{
    return at[0] | (uint32_t)at[1] << 8 | (uint32_t)at[2] << 16 | (uint32_t)at[3] << 24;
}

/* The value of a point of so many bits. Where x or y has more bits it is one past every column, which pool_make refuses 5. */
static inline uint32_t host_point(uint32_t bits, uint32_t x, uint32_t y)
{
    return x >> bits == 0 && y >> bits == 0 ? x | y << bits : UINT32_MAX;
}

/* The r and the s of a round-one message: where messages differ in them, they show which server slipped. */
static inline uint32_t host_message_r(const uint8_t *message) { return host_u32(message + POOL_ROUND_ONE_BYTES - 8); }

static inline uint32_t host_message_s(const uint8_t *message) { return host_u32(message + POOL_ROUND_ONE_BYTES - 4); }

/* Fills a buffer with random bytes of the system. */
static inline void host_random(uint8_t *out, size_t len)
{
    while (len > 0) {
        ssize_t got = getrandom(out, len, 0);
        if (got < 0 && errno == EINTR)
            continue;
        if (got < 0) {
            perror("getrandom");
            exit(1);
        }
        out += got;
        len -= (size_t)got;
    }
}

/* A random element: 31 random bits, drawn again where they are p itself, so that each element is as likely as any. */
static inline uint32_t host_element(void)
{
    uint8_t bytes[4];
    uint32_t x;
    do {
        host_random(bytes, sizeof bytes);
        x = host_u32(bytes) & POOL_PRIME;
    } while (x == POOL_PRIME);
    return x;
}

/* Fills a buffer with random elements; its length is a multiple of 4. */
static inline void host_elements(uint8_t *out, size_t len)
{
    for (size_t at = 0; at < len; at += 4)
        host_put_u32(out + at, host_element());
}

/* Draws the seeds of servers 1 to S - 1, POOL_SEEDS_BYTES, for one return: any bytes are a seed. */
static inline void host_seeds(uint8_t *out, uint32_t servers) { host_random(out, POOL_SEEDS_BYTES(servers)); }

/* Where the message for server i begins in what pool_make_seeded wrote, and its length. */
static inline size_t host_seeded_at(uint32_t i, uint32_t share_bytes)
{
    return i == 0 ? 0 : share_bytes + (i - 1) * (size_t)POOL_SEED_MESSAGE_BYTES;
}

static inline size_t host_seeded_len(uint32_t i, uint32_t share_bytes)
{
    return i == 0 ? share_bytes : POOL_SEED_MESSAGE_BYTES;
}

/* Overwrites what is secret and no longer needed; the compiler may not leave it out. */
static inline void host_wipe(void *at, size_t len)
{
    for (volatile uint8_t *byte = at; len > 0; len--)
        *byte++ = 0;
}

/* A random challenge r: from M + 1 to p - 1. */
static inline uint32_t host_challenge(uint32_t multiplications)
{
    uint32_t r;
    do
        r = host_element();
    while (r <= multiplications);
    return r;
}

#endif
