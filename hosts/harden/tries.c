/* tries.c: calls on copies of the tables, sound ones and such that have gone wild. */
#include "courses.h"
#include "seeds.h"

static struct table t;
static struct run b, out, message;

/*
 * A copy of a server's table, or of another server's, now and then a wild one. Gives the bytes and numbers to lend after it:
 * none after a wild one, which could be a longer table with them.
 */
static size_t any_table(uint32_t i)
{
    copy_table(&t, &pool.tables[random_below(4) ? i : random_below(pool.servers)]);
    if (random_below(3) != 0)
        return some_extra();
    wild_table(&t);
    return 0;
}

/* Whatever the stage of the table, with messages of any return. */
void wild_call(uint32_t i)
{
    const struct course *c = &courses[course_count ? random_below(course_count) : 0];
    uint32_t accepted, id = random_below(4) ? c->id : wild32(courses[random_below(MOST_RETURNS)].id);
    size_t extra = any_table(i);
    int round = (int)random_below(3);
    message_of(c, i, round, &message);
    copy(&b, &message);
    if (round == 1 && random_below(4) == 0)
        set_apart(&b, pool.servers, i);
    if (round > 0 && random_below(3) == 0)
        spoil(&b, KIND_OF(round), pool.servers, i);
    if (random64() % 2)
        wild(&b);
    switch (random_below(3) ? round : 3 + (int)random_below(4)) {
    case 0:
        call_share(&t, extra, &b, wild64(c->pairs[i].r), wild64(c->pairs[i].s), wild_room(POOL_ROUND_ONE_BYTES), &out);
        break;
    case 1:
        call_round_one(&t, extra, id, &b, wild_room(POOL_ROUND_TWO_BYTES), &out);
        break;
    case 2:
        call_round_two(&t, extra, id, &b, &accepted);
        break;
    case 3:
        call_enter(&t, extra, id);
        break;
    case 4:
        call_drop(&t, extra, id);
        break;
    case 5:
        call_state(&t, extra);
        break;
    default:
        call_close(&t, extra, wild_room(POOL_TOTALS_BYTES(pool.sizes.published)), &out);
        break;
    }
}

/* The refusal of any share at server i: eight wait, or N are decided or wait. Without one, POOL_DONE. */
static uint32_t early_refusal(uint32_t i)
{
    struct counts n = counts_at(i);
    return n.waiting == POOL_SLOTS ? POOL_STAGE : n.waiting + n.decided >= pool.returns ? POOL_FULL : POOL_DONE;
}

/* What a sound share comes to at server i: under an id that is new there, and under one that waits or was decided. */
void refused_shares(uint32_t i)
{
    const struct course *c = &courses[random_below(course_count)];
    uint32_t early = early_refusal(i), known = early ? early : c->at[i] == NOT_YET ? POOL_DONE : POOL_DECIDED;
    for (int fresh = 0; fresh < 2; fresh++) {
        message_of(c, i, 0, &message);
        if (fresh)
            put_u32(message.at + 1, pool.first_id - 1);
        copy_table(&t, &pool.tables[i]);
        if (call_share(&t, 0, &message, c->pairs[i].r, c->pairs[i].s, POOL_ROUND_ONE_BYTES, &out) != (fresh ? early : known))
            fail("the refusal of a share: eight wait, N are decided or wait, or its id is used");
    }
}

/* A seed message with a fault at server i, and at server 0 any: refused 7, whatever the id, the pair and the room. */
void damaged_seeds(uint32_t i)
{
    const struct course *c = &courses[random_below(course_count)];
    uint32_t early = early_refusal(i);
    uint8_t seed[POOL_SEED_BYTES];
    random_fill(seed, sizeof seed);
    seed_message(&message, c->id, i, seed);
    if (i > 0 || random_below(2))
        spoil_seed(&message, i, pool.sizes.share_bytes);
    copy_table(&t, &pool.tables[i]);
    if (call_share(&t, 0, &message, wild64(c->pairs[i].r), wild64(c->pairs[i].s), wild_room(POOL_ROUND_ONE_BYTES), &out) !=
        (early ? early : POOL_SHARE))
        fail("a damaged seed message is not refused 7");
}

/* The messages that the servers wrote last for a return, or all of them with another id. */
static void renamed(const struct course *c, uint32_t i, uint8_t round)
{
    message_of(c, i, round, &message);
    for (size_t at = 1; c->at[i] == round && at < message.len; at += round_bytes(KIND_OF(round)))
        put_u32(message.at + at, c->id + 1);
}

/* Calls on a return that is not in that stage at server i, and rounds with messages of another id. */
void refused_calls(uint32_t i)
{
    const struct course *c = &courses[random_below(course_count)];
    uint8_t at = c->at[i];
    uint32_t accepted;
    copy_table(&t, &pool.tables[i]);
    renamed(c, i, AWAITS_ONE);
    if (call_round_one(&t, 0, c->id, &message, POOL_ROUND_TWO_BYTES, &out) != (at == AWAITS_ONE ? POOL_JOINED : POOL_STAGE))
        fail("the refusal of a round one");
    renamed(c, i, AWAITS_TWO);
    if (call_round_two(&t, 0, c->id, &message, &accepted) != (at == AWAITS_TWO ? POOL_JOINED : POOL_STAGE))
        fail("the refusal of a round two");
    if (call_enter(&t, 0, c->id) != (at == AWAITS_ENTRY ? POOL_DONE : POOL_STAGE) || call_enter(&t, 0, c->id) != POOL_STAGE)
        fail("an entry without an accepted verdict, none with it, or a second one");
    copy_table(&t, &pool.tables[i]);
    if (call_drop(&t, 0, c->id) != (at == NOT_YET || at == ENDED ? POOL_STAGE : POOL_DONE) || call_drop(&t, 0, c->id) != POOL_STAGE)
        fail("a drop of a return that does not wait, none of one that does, or a second one");
    if (call_enter(&t, 0, c->id) != POOL_STAGE)
        fail("a dropped return is entered");
}

void other_orders(uint32_t i)
{
    const struct course *c = &courses[random_below(course_count)];
    uint8_t at = c->at[i];
    if ((at == AWAITS_ONE || at == AWAITS_TWO) && least_stage(c) >= at)
        check_orders(i, c->id, KIND_OF(at), at == AWAITS_ONE ? c->ones : c->twos, round_answer(c));
}
