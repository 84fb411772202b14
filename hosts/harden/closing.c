/* closing.c: closes, with enough entered and with too few, joining, and what follows from it. */
#include "driver.h"

static struct table t; /* for calls that are tried */
static struct run a, b, out;

/* What a close of server i must answer with this least count and room enough. */
static uint32_t close_answer(uint32_t i, uint32_t least)
{
    struct counts n = counts_at(i);
    if (least < 1 || least > pool.returns || n.waiting > 0)
        return POOL_STAGE;
    return n.entered < least ? POOL_FEW : POOL_DONE;
}

void try_close(uint32_t i)
{
    size_t room = POOL_TOTALS_BYTES(pool.sizes.published);
    uint32_t want = close_answer(i, pool.least);
    uint32_t least = random64() % 2 ? wild_least() : counts_at(i).entered + random_below(2);
    copy_table(&t, &pool.tables[i]);
    if (call_close(&t, some_extra(), random_below((uint32_t)room), &out) != (want == POOL_DONE ? POOL_ROOM : want))
        fail("a close in too little room");
    if (call_close(&t, some_extra(), room, &out) != want)
        fail("a close while returns wait, or with too few entered");
    copy_table(&t, &pool.tables[i]);
    put_u16(t.bytes.at + LEAST_AT, least);
    if (call_close(&t, some_extra(), room, &out) != close_answer(i, least))
        fail("a close with another least count in the table");
}

void too_few(void)
{
    for (uint32_t i = 0; i < pool.servers; i++) {
        size_t room = POOL_TOTALS_BYTES(pool.sizes.published);
        if (call_close(&pool.tables[i], some_extra(), wild_room(room), &out) != POOL_FEW)
            fail("a close with too few entered");
        wild_call(i);
        try_close(i);
    }
}

static void wild_join(const struct run *joined, size_t room)
{
    uint32_t accepted;
    copy(&a, joined);
    wild(&a);
    copy(&b, &pool.sheet);
    if (random_below(4) == 0)
        wild(&b);
    call_join(wild32(pool.servers), &b, wild32(pool.returns), &a, wild_room(room), &accepted, &out);
}

void close_and_join(void)
{
    static struct run joined;
    size_t room = POOL_JOIN_BYTES(pool.sizes.published);
    uint32_t accepted = 0;
    joined.len = 0;
    for (uint32_t i = 0; i < pool.servers; i++) {
        wild_call(i);
        must(call_close(&pool.tables[i], some_extra(), POOL_TOTALS_BYTES(pool.sizes.published), &out), "closing");
        must(call_state(&pool.tables[i], some_extra()), "asking a closed table");
        append(&joined, out.at, out.len);
        check_free(&pool.tables[i]);
        wild_call(i);
    }
    for (int k = 0; k < 4; k++) {
        wild_join(&joined, room);
        check_totals(&joined);
    }
    must(call_join(pool.servers, &pool.sheet, pool.returns, &joined, room, &accepted, &out), "joining");
    if (accepted != pool.entered || out.len != room)
        fail("the count of entered returns");
    for (uint32_t k = 0; k < pool.sizes.published; k++)
        if (get_u32(out.at + 4 * k) != pool.plain[k])
            fail("a total is not the plain sum");
    check_lines(&joined);
}
