/* opening.c: tables are opened. */
#include "driver.h"

static struct table t; /* for calls gone wild */
static struct run a;

static struct rooms rooms(uint32_t returns)
{
    return (struct rooms){POOL_TABLE_BYTES(pool.sheet.len, pool.sizes.published, returns), POOL_SLOTS,
                          POOL_ELEMENTS(pool.sizes.share_bytes)};
}

/* A least count outside 1 to N. */
static uint32_t bad_least(uint32_t returns)
{
    const uint32_t bad[] = {0, returns + 1, returns + 256, 65536 + 1 + random_below(returns), UINT32_MAX};
    return bad[random_below(sizeof bad / sizeof bad[0])];
}

/* The greatest N opens with every least count from 1 to N, and one more does not. A least count out of range is found first. */
static void greatest_returns(void)
{
    uint32_t most = pool.sizes.greatest_returns, least = 1 + random_below(most);
    must(call_open(POOL_MIN_SERVERS, 0, &pool.sheet, most, least, rooms(most), &t), "the greatest N");
    must(call_open(POOL_MIN_SERVERS, 0, &pool.sheet, most, 1, rooms(most), &t), "the least of least counts");
    must(call_open(POOL_MIN_SERVERS, 0, &pool.sheet, most, most, rooms(most), &t), "the greatest least count");
    if (call_open(POOL_MIN_SERVERS, 0, &pool.sheet, most + 1, least, rooms(most + 1), &t) !=
        (most == POOL_MAX_RETURNS ? POOL_LIMIT : POOL_WRAP))
        fail("an N above the greatest");
    if (call_open(POOL_MIN_SERVERS, 0, &pool.sheet, most + 1, bad_least(most + 1), rooms(most + 1), &t) != POOL_LIMIT)
        fail("a least count out of range, with an N above the greatest");
}

void wide_sheets(void)
{
    static const struct {
        uint8_t column[2];
        uint32_t most;
    } wide[] = {{{POOL_NUMBER, 24}, 128}, {{POOL_POINT, 12}, 128}, {{POOL_POINT, 11}, 512}, {{POOL_POINT, 10}, POOL_MAX_RETURNS}};
    for (size_t k = 0; k < sizeof wide / sizeof wide[0]; k++) {
        pool.sheet.len = 0;
        append(&pool.sheet, wide[k].column, 2);
        must(call_sizes(&pool.sheet, &pool.sizes), "a sound sheet is refused");
        if (pool.sizes.greatest_returns != wide[k].most)
            fail("another greatest N");
        greatest_returns();
    }
}

/* One of the parts is too short, or there are not eight slots. */
static void too_little_room(uint32_t i)
{
    struct rooms r = rooms(pool.returns);
    switch (random_below(3)) {
    case 0:
        r.bytes = random_below((uint32_t)r.bytes);
        break;
    case 1:
        r.slots = random64() % 2 ? random_below(POOL_SLOTS) : POOL_SLOTS + 1 + random_below(9);
        break;
    default:
        r.elements = random_below((uint32_t)r.elements);
        break;
    }
    if (call_open(pool.servers, i, &pool.sheet, pool.returns, pool.least, r, &t) != POOL_ROOM)
        fail("opening with too little room, or other than eight slots");
    if (call_open(pool.servers, i, &pool.sheet, pool.returns, bad_least(pool.returns), r, &t) != POOL_LIMIT)
        fail("opening with a least count out of range, in too little room");
}

void open_tables(void)
{
    greatest_returns();
    for (uint32_t i = 0; i < pool.servers; i++) {
        struct rooms r = rooms(pool.returns);
        copy(&a, &pool.sheet);
        if (random64() % 2)
            wild(&a);
        r.bytes = wild_room(r.bytes);
        call_open(wild32(pool.servers), wild32(i), &a, wild32(pool.returns), wild32(pool.least), r, &t);
        too_little_room(i);
        r = rooms(pool.returns);
        if (call_open(pool.servers, i, &pool.sheet, pool.returns, bad_least(pool.returns), r, &t) != POOL_LIMIT)
            fail("opening with a least count out of range");
        r.bytes += some_extra();
        r.elements += some_extra();
        must(call_open(pool.servers, i, &pool.sheet, pool.returns, pool.least, r, &pool.tables[i]), "opening");
    }
}
