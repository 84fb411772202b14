/* orders.c: joined messages in other orders and with faults, on copies of a server's table. */
#include <stdbool.h>
#include <string.h>

#include "driver.h"

static struct table t, u;
static struct run joined, out, other;

static bool same(const struct run *a, const struct run *b)
{
    return a->len == b->len && memcmp(a->at, b->at, a->len) == 0;
}

/* A round of a return with what is joined, on a copy of the table of server i. In round one there is no verdict: 2. */
static uint32_t take_round(struct table *on, uint32_t i, uint32_t id, uint8_t kind, struct run *wrote, uint32_t *verdict)
{
    copy_table(on, &pool.tables[i]);
    *verdict = 2;
    wrote->len = 0;
    if (kind == KIND_ONE)
        return call_round_one(on, some_extra(), id, &joined, POOL_ROUND_TWO_BYTES, wrote);
    return call_round_two(on, some_extra(), id, &joined, verdict);
}

/* The joined messages of round one with another's r or s, in any room. */
static void check_apart(uint32_t i, uint32_t id)
{
    set_apart(&joined, pool.servers, i);
    copy_table(&u, &pool.tables[i]);
    if (call_round_one(&u, some_extra(), id, &joined, wild_room(POOL_ROUND_TWO_BYTES), &other) != POOL_UNEQUAL)
        fail("messages with different pairs are not refused 16");
}

void check_orders(uint32_t i, uint32_t id, uint8_t kind, const uint8_t *messages, uint32_t answer)
{
    uint32_t verdict, another;
    joined.len = 0;
    append(&joined, messages, pool.servers * round_bytes(kind));
    if (take_round(&t, i, id, kind, &out, &verdict) != answer)
        fail("the answer of a round in server order");
    for (int k = 0; k < 4; k++) {
        join_shuffled(&joined, kind, messages, pool.servers);
        if (take_round(&u, i, id, kind, &other, &another) != answer || verdict != another || !same(&out, &other) ||
            !same(&t.bytes, &u.bytes) || !same(&t.slots, &u.slots) || !same(&t.elements, &u.elements))
            fail("another order has another outcome");
        if (kind == KIND_ONE && answer == POOL_DONE && k % 2 == 0)
            check_apart(i, id);
        spoil(&joined, kind, pool.servers, i);
        if (take_round(&u, i, id, kind, &other, &another) != POOL_JOINED)
            fail("joined messages with a fault are not refused 12");
    }
}

void check_totals(const struct run *totals)
{
    size_t each = totals->len / pool.servers, room = POOL_JOIN_BYTES(pool.sizes.published);
    uint32_t x = random_below(pool.servers), y = (x + 1 + random_below(pool.servers - 1)) % pool.servers, accepted;
    copy(&joined, totals);
    memcpy(joined.at + x * each, totals->at + y * each, each);
    if (random64() % 2)
        memcpy(joined.at + y * each, totals->at + x * each, each);
    if (call_join(pool.servers, &pool.sheet, pool.returns, &joined, room, &accepted, &out) != POOL_JOINED)
        fail("totals messages out of server order are not refused 12");
}
