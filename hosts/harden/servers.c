/* servers.c: tables with up to eight returns under way, each server at its own pace. */
#include <string.h>

#include "courses.h"
#include "seeds.h"

struct course courses[MOST_RETURNS];
uint32_t course_count;
static uint32_t decided_before, entered_before; /* of earlier returns, at every server */

static struct run out, message;

void message_of(const struct course *c, uint32_t i, int round, struct run *to)
{
    to->len = 0;
    if (round == NOT_YET && c->seeded[i])
        seed_message(to, c->id, i, c->seeds + (i - 1) * POOL_SEED_BYTES);
    else if (round == NOT_YET)
        append(to, c->shares + i * pool.sizes.share_bytes, pool.sizes.share_bytes);
    else
        join_shuffled(to, KIND_OF(round), round == AWAITS_ONE ? c->ones : c->twos, pool.servers);
}

/* Whether a return is entered at its end. */
static int enters(const struct course *c) { return c->accepted && c->conduct < DROP_ONE; }

struct counts counts_at(uint32_t i)
{
    struct counts n = {0, decided_before, entered_before};
    for (const struct course *c = courses; c < courses + course_count; c++) {
        n.waiting += c->at[i] != NOT_YET && c->at[i] != ENDED;
        n.decided += c->at[i] == ENDED;
        n.entered += c->at[i] == ENDED && enters(c);
    }
    return n;
}

/* Returns */

/* The same pair for every server; where one slips, it has another r or s, or both. */
static void new_pairs(struct course *c)
{
    uint32_t low = pool.sizes.multiplications + 1, high = POOL_PRIME - low, r = random_below(high), s = random_below(POOL_PRIME);
    struct pair *slip = &c->pairs[random_below(pool.servers)];
    uint32_t which = c->conduct == SLIPPED ? 1 + random_below(3) : 0;
    for (uint32_t i = 0; i < pool.servers; i++)
        c->pairs[i] = (struct pair){low + r, s};
    if (which & 1)
        slip->r = low + (r + 1 + random_below(high - 1)) % high;
    if (which & 2)
        slip->s = (s + 1 + random_below(POOL_PRIME - 1)) % POOL_PRIME;
}

/* An entry in a share, any: a product of a point, a bit. A yes/no can be 1 where it was 0 then, but its products are not altered. */
static void alter_entry(struct course *c, uint32_t i)
{
    uint8_t *entry = c->shares + i * pool.sizes.share_bytes + 6 + 4 * random_below(pool.sizes.entries);
    put_u32(entry, (get_u32(entry) + 1 + random_below(1000)) % POOL_PRIME);
}

/* An altered share, or one bit of the seed that a server gets. */
static void alter_return(struct course *c)
{
    uint32_t i = random_below(pool.servers);
    if (c->seeded[i])
        c->seeds[(i - 1) * POOL_SEED_BYTES + random_below(POOL_SEED_BYTES)] ^= (uint8_t)(1 << random_below(8));
    else
        alter_entry(c, i);
    c->accepted = 0;
}

/* Where the return was made from seeds, some servers get theirs, and some the share. */
static void choose_forms(struct course *c)
{
    memcpy(c->seeds, pool.seeds.at, pool.seeds.len);
    for (uint32_t i = 1; i < pool.servers; i++)
        c->seeded[i] = pool.seeds.len > 0 && random_below(4) != 0;
}

/* A random return: honest, altered, past its tops, to be dropped or with a slip. */
static void new_course(struct course *c, uint32_t id)
{
    memset(c, 0, sizeof *c);
    c->id = id;
    c->conduct = random_below(2) ? HONEST : (enum conduct)random_below(SLIPPED + 1);
    new_pairs(c);
    new_values(c->sums);
    new_random(id);
    make_return(id);
    c->accepted = 1;
    if (c->conduct == PAST_TOP)
        c->accepted = !make_with_higher_tops(id, pool.shares.len);
    memcpy(c->shares, pool.shares.at, pool.shares.len);
    choose_forms(c);
    if (c->conduct == ALTERED)
        alter_return(c);
}

uint8_t least_stage(const struct course *c)
{
    uint8_t stage = ENDED;
    for (uint32_t i = 0; i < pool.servers; i++)
        stage = c->at[i] < stage ? c->at[i] : stage;
    return stage;
}

uint32_t round_answer(const struct course *c) { return c->conduct == SLIPPED ? POOL_UNEQUAL : POOL_DONE; }

/* Round one with the messages of all servers. A return with a slip is refused and waits; it ends by a drop. */
static uint8_t take_round_one(struct course *c, uint32_t i)
{
    struct table *table = &pool.tables[i];
    if (call_round_one(table, some_extra(), c->id, &message, POOL_ROUND_TWO_BYTES, &out) != round_answer(c))
        fail("round one, sound or with a slip");
    if (c->conduct != SLIPPED) {
        memcpy(c->twos + i * POOL_ROUND_TWO_BYTES, out.at, POOL_ROUND_TWO_BYTES);
        return AWAITS_TWO;
    }
    must(call_drop(table, some_extra(), c->id), "dropping after a slip");
    return ENDED;
}

/* The verdict. A rejected return is at its end, an accepted one awaits entry. */
static uint8_t take_round_two(const struct course *c, uint32_t i)
{
    uint32_t accepted = 2;
    must(call_round_two(&pool.tables[i], some_extra(), c->id, &message, &accepted), "sound round two");
    if (accepted != c->accepted)
        fail("the verdict");
    return accepted ? AWAITS_ENTRY : ENDED;
}

/* Whether a return is dropped at a server where it is in this stage. */
static int drops(const struct course *c, uint8_t stage)
{
    switch (c->conduct) {
    case DROP_ONE:
        return stage == AWAITS_ONE;
    case DROP_TWO:
        return stage == AWAITS_TWO;
    case DROP_ENTRY:
        return stage == AWAITS_ENTRY || (stage == AWAITS_TWO && random_below(4) == 0);
    default:
        return 0;
    }
}

/* Calls on copies of the table of server i. */
static void try_calls(uint32_t i)
{
    check_free(&pool.tables[i]);
    must(call_state(&pool.tables[i], some_extra()), "asking for the state");
    wild_call(i);
    if (random_below(4) == 0 || counts_at(i).waiting == POOL_SLOTS)
        refused_shares(i);
    if (random_below(4) == 0)
        damaged_seeds(i);
    if (random_below(4) == 0 || counts_at(i).waiting == 0)
        try_close(i);
    if (random_below(4) == 0)
        refused_calls(i);
    if (random_below(2) == 0)
        other_orders(i);
}

/* Takes a return one step on at server i; does nothing where that waits for the messages or the verdicts of others. */
static void step(struct course *c, uint32_t i)
{
    struct table *table = &pool.tables[i];
    uint8_t stage = c->at[i];
    if (stage != AWAITS_ENTRY)
        message_of(c, i, stage, &message);
    if (drops(c, stage)) {
        must(call_drop(table, some_extra(), c->id), "dropping");
        c->at[i] = ENDED;
    } else if (stage == NOT_YET) {
        struct pair p = c->pairs[i];
        must(call_share(table, some_extra(), &message, p.r, p.s, POOL_ROUND_ONE_BYTES, &out), "a sound share");
        memcpy(c->ones + i * POOL_ROUND_ONE_BYTES, out.at, POOL_ROUND_ONE_BYTES);
        c->at[i] = AWAITS_ONE;
    } else if (stage == AWAITS_ONE && least_stage(c) >= AWAITS_ONE) {
        c->at[i] = take_round_one(c, i);
    } else if (stage == AWAITS_TWO && least_stage(c) >= AWAITS_TWO) {
        c->at[i] = take_round_two(c, i);
    } else if (stage == AWAITS_ENTRY && least_stage(c) >= AWAITS_ENTRY) {
        must(call_enter(table, some_extra(), c->id), "entering");
        c->at[i] = ENDED;
    } else {
        return;
    }
    try_calls(i);
}

/* The first eight returns that are not ended everywhere: no server has more than these. Gives how many there are. */
static uint32_t under_way(struct course *window[POOL_SLOTS])
{
    uint32_t count = 0;
    for (uint32_t k = 0; k < course_count && count < POOL_SLOTS; k++)
        if (least_stage(&courses[k]) < ENDED)
            window[count++] = &courses[k];
    return count;
}

void play_returns(uint32_t count)
{
    struct course *window[POOL_SLOTS];
    uint32_t wide;
    course_count = count;
    decided_before = pool.decided;
    entered_before = pool.entered;
    for (uint32_t k = 0; k < count; k++)
        new_course(&courses[k], pool.first_id + pool.decided++);
    /* now and then all shares first, so that eight wait */
    int shares_first = random_below(3) == 0;
    while ((wide = under_way(window)) > 0) {
        struct course *c = window[random_below(wide)];
        uint32_t i = random_below(pool.servers);
        for (uint32_t k = 0; shares_first && k < wide; k++)
            if (window[k]->at[i] == NOT_YET)
                c = window[k];
        step(c, i);
    }
    for (uint32_t k = 0; k < count; k++) {
        const struct course *c = &courses[k];
        pool.entered += (uint32_t)enters(c);
        for (uint32_t e = 0; enters(c) && e < pool.sizes.published; e++)
            pool.plain[e] += c->sums[e];
    }
    if (count > 0)
        refused_shares(random_below(pool.servers));
}
