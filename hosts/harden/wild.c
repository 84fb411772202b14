/* wild.c: arguments gone wild, and small helps of the driver. */
#include <stdio.h>
#include <string.h>

#include "driver.h"

struct pool pool;

void must(uint32_t answer, const char *what)
{
    if (answer != 0) {
        fprintf(stderr, "harden: refused %u\n", (unsigned)answer);
        fail(what);
    }
}

static const uint8_t odd_bytes[] = {0,  1,  2,  3,  8,  9,  12, 13, 17, 18, 19,  20,  21,
                                    22, 25, 33, 34, 35, 36, 37, 38, 39, 64, 65, 127, 128, 255};

static uint8_t odd_byte(void) { return odd_bytes[random_below(sizeof odd_bytes)]; }

static void resize(struct run *run, size_t len)
{
    if (len > run->len)
        random_fill(run->at + run->len, len - run->len);
    run->len = len;
}

void wild(struct run *run)
{
    uint32_t n = (uint32_t)run->len;
    switch (random_below(10)) {
    case 0:
        if (n > 0)
            run->at[random_below(n)] ^= (uint8_t)(1 << random_below(8));
        break;
    case 1:
        if (n > 0)
            run->at[random_below(n < 16 ? n : 16)] = odd_byte();
        break;
    case 2:
        if (n > 0)
            run->at[random_below(n)] = odd_byte();
        break;
    case 3:
        if (n >= 4)
            put_u32(run->at + n - 4 * (1 + random_below(n / 4)), POOL_PRIME);
        break;
    case 4:
        resize(run, random_below(n + 1));
        break;
    case 5:
        resize(run, n > 0 ? n - 1 : 0);
        break;
    case 6:
        resize(run, n + 1 + random_below(8));
        break;
    case 7:
        random_fill(run->at, n);
        break;
    case 8:
        run->len = 0;
        break;
    }
}

uint32_t wild32(uint32_t sound)
{
    static const uint32_t odd[] = {0,    1,    2,    8,    9,     64,         65,         256,       257, 258,
                                   1024, 1025, 4096, 4097, 65537, POOL_PRIME, 0x80000000, UINT32_MAX};
    switch (random_below(4)) {
    case 0:
        return odd[random_below(sizeof odd / sizeof odd[0])];
    case 1:
        return (uint32_t)random64();
    default:
        return sound;
    }
}

uint64_t wild64(uint64_t sound)
{
    uint64_t m = pool.sizes.multiplications;
    const uint64_t odd[] = {0, m, m + 1, 2 * m, POOL_PRIME - 1, POOL_PRIME, sound + (UINT64_C(1) << 32), UINT64_MAX};
    return random_below(3) == 0 ? odd[random_below(sizeof odd / sizeof odd[0])] : sound;
}

size_t wild_room(size_t needed)
{
    switch (random_below(4)) {
    case 0:
        return needed > 0 ? needed - 1 : 0;
    case 1:
        return random_below((uint32_t)needed + 1);
    case 2:
        return needed + random_below(40);
    default:
        return needed;
    }
}

size_t some_extra(void) { return random_below(3) == 0 ? random_below(20) : 0; }

/* Keeps whole slots or numbers of a run. */
static void whole(struct run *run, size_t each) { run->len -= run->len % each; }

/* Has a return wait in two slots: one slot is copied over another, often with its place. */
static void wild_twice(struct table *table)
{
    uint32_t from = random_below(POOL_SLOTS), to = random_below(POOL_SLOTS);
    size_t place = table->elements.len / POOL_SLOTS;
    if (table->slots.len != SLOTS_BYTES || from == to)
        return;
    memcpy(table->slots.at + to * SLOT_BYTES, table->slots.at + from * SLOT_BYTES, SLOT_BYTES);
    if (random64() % 2)
        memcpy(table->elements.at + to * place, table->elements.at + from * place, place);
}

/* Another stage in one slot: one that there is, or not. */
static void wild_stage(struct table *table)
{
    static const uint32_t odd[] = {POOL_FREE, POOL_AWAITS_ONE, POOL_AWAITS_TWO, POOL_AWAITS_ENTRY, POOL_AWAITS_ENTRY + 1,
                                   POOL_AWAITS_ENTRY + 256, 0x80000000u + POOL_AWAITS_ENTRY, UINT32_MAX};
    uint8_t *slot = table->slots.at + SLOT_BYTES * random_below(POOL_SLOTS);
    put_u32(slot + offsetof(pool_slot, stage), odd[random_below(sizeof odd / sizeof odd[0])]);
}

uint32_t wild_least(void)
{
    const uint32_t odd[] = {0, 1, pool.returns, pool.returns + 1, pool.returns + 256, 65535, 1 + random_below(pool.returns)};
    return odd[random_below(sizeof odd / sizeof odd[0])];
}

void wild_table(struct table *table)
{
    switch (random_below(7)) {
    case 0:
        wild(&table->slots);
        whole(&table->slots, SLOT_BYTES);
        break;
    case 1:
        wild(&table->elements);
        whole(&table->elements, 4);
        break;
    case 2:
        wild_twice(table);
        break;
    case 3:
        put_u16(table->bytes.at + LEAST_AT, wild_least());
        break;
    case 4:
        wild_stage(table);
        break;
    default:
        wild(&table->bytes);
        break;
    }
}
