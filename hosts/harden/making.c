/* making.c: random returns and their shares. */
#include <string.h>

#include "driver.h"
#include "seeds.h"

static struct run a, b, c, d, out; /* for calls gone wild */

/* Adds a value to the sums of its column. */
static void add_value(const struct column *column, uint32_t v, uint32_t *sums)
{
    if (column->kind == POOL_CHOICE) {
        sums[v] += 1;
    } else if (column->kind == POOL_POINT) {
        uint32_t x = v % column->side, y = v / column->side;
        sums[0] += x;
        sums[1] += x * x;
        sums[2] += y;
        sums[3] += x * y;
    } else {
        sums[0] += v;
    }
}

void new_values(uint32_t *sums)
{
    size_t published = 0;
    pool.values.len = 0;
    for (size_t at = 0; at < pool.sheet.len;) {
        struct column column = column_at(&pool.sheet, at);
        uint32_t v = random_below(8) ? random_below(column.values) : column.values - 1;
        uint8_t value[4];
        at = column.next;
        put_u32(value, v);
        append(&pool.values, value, 4);
        add_value(&column, v, sums + published);
        published += column.published;
    }
    if (published != pool.sizes.published || pool.values.len != POOL_VALUES_BYTES(pool.sizes.columns))
        fail("the count of columns or published entries");
}

void new_random(uint32_t id)
{
    size_t each = pool.sizes.share_bytes - ELEMENTS_AT;
    pool.random.len = POOL_RANDOM_BYTES(pool.servers, pool.sizes.share_bytes);
    for (size_t at = 0; at < pool.random.len; at += 4)
        put_u32(pool.random.at + at, random_below(16) ? random_below(POOL_PRIME) : POOL_PRIME - 1);
    pool.seeds.len = random_below(2) ? POOL_SEEDS_BYTES(pool.servers) : 0;
    random_fill(pool.seeds.at, pool.seeds.len);
    for (size_t k = 0; k < pool.seeds.len / POOL_SEED_BYTES; k++) {
        seed_message(&d, id, 0, pool.seeds.at + k * POOL_SEED_BYTES);
        memcpy(pool.random.at + POOL_SEEDED_RANDOM_BYTES + k * each, elements_of(&d, each / 4), each);
    }
}

/* The four elements that come before the shares. */
static void copy_four(struct run *to)
{
    to->len = 0;
    append(to, pool.random.at, POOL_SEEDED_RANDOM_BYTES);
}

/* Makes the return from its seeds: server 0's message is that of pool.shares. */
static void make_seeded(uint32_t id)
{
    size_t room = POOL_MAKE_SEEDED_BYTES(pool.servers, pool.sizes.share_bytes);
    for (int k = 0; k < 3; k++) {
        copy(&a, &pool.sheet);
        copy(&b, &pool.values);
        copy_four(&c);
        copy(&d, &pool.seeds);
        wild((struct run *[]){&a, &b, &c, &d, &d}[random_below(5)]);
        call_make_seeded(&a, wild32(pool.servers), id, &b, &c, &d, wild_room(room), &out);
    }
    copy_four(&c);
    copy(&d, &pool.seeds);
    d.len = POOL_SEED_BYTES * ((pool.servers + random_below(POOL_MAX_SERVERS)) % (POOL_MAX_SERVERS + 1));
    if (call_make_seeded(&pool.sheet, pool.servers, id, &pool.values, &c, &d, wild_room(room), &out) != POOL_RANDOM)
        fail("a wrong count of seeds");
    must(call_make_seeded(&pool.sheet, pool.servers, id, &pool.values, &c, &pool.seeds, room, &out), "making from seeds");
    if (memcmp(out.at, pool.shares.at, pool.sizes.share_bytes) != 0)
        fail("server 0's share of a return made from seeds");
}

/* Under the id 7 these seeds, whose other bytes are 0, have the word 0x7fffffff or 0xffffffff in this place: the element is 0. */
void odd_seeds(void)
{
    static const struct {
        uint32_t start, place;
    } odd[] = {{320841668, 0}, {428002492, 9}, {258751536, 15}};
    static struct table t;
    const struct rooms most = {POOL_MAX_TABLE_BYTES, POOL_SLOTS, POOL_MAX_ELEMENTS};
    for (size_t k = 0; k < sizeof odd / sizeof odd[0]; k++) {
        uint8_t seed[POOL_SEED_BYTES] = {0};
        a.len = 0;
        append(&a, (const uint8_t[]){POOL_YES_NO, POOL_NUMBER, 8}, 3);
        put_u32(seed, odd[k].start);
        seed_message(&d, 7, 1, seed);
        must(call_open(2, 1, &a, 1, 1, most, &t), "opening for an odd seed");
        must(call_share(&t, 0, &d, 1000, 5, POOL_ROUND_ONE_BYTES, &out), "an odd seed");
        if (get_u32(t.elements.at + 4 * odd[k].place) != 0)
            fail("the element of a word that is p");
    }
}

/* A value one past its column, in one of the columns, is refused. */
static void past_value(uint32_t id, size_t room)
{
    uint32_t k = random_below(pool.sizes.columns);
    size_t at = 0;
    for (uint32_t j = 0; j < k; j++)
        at = column_at(&pool.sheet, at).next;
    copy(&b, &pool.values);
    put_u32(b.at + 4 * k, column_at(&pool.sheet, at).values);
    if (call_make(&pool.sheet, pool.servers, id, &b, &pool.random, room, &out) != POOL_VALUE)
        fail("a value past its column");
}

int make_with_higher_tops(uint32_t id, size_t room)
{
    int higher = 0;
    copy(&a, &pool.sheet);
    copy(&b, &pool.values);
    for (size_t at = 0, k = 0; at < a.len; at = column_at(&a, at).next, k++) {
        uint32_t values = column_at(&a, at).values, most = 1;
        while (most < values)
            most *= 2;
        if (a.at[at] == POOL_TOP && most > values) {
            put_u32(a.at + at + 1, most - 1);
            put_u32(b.at + 4 * k, most - 1);
            higher = 1;
        }
    }
    if (higher)
        must(call_make(&a, pool.servers, id, &b, &pool.random, room, &pool.shares), "making with higher tops");
    return higher;
}

void make_return(uint32_t id)
{
    size_t room = POOL_MAKE_BYTES(pool.servers, pool.sizes.share_bytes);
    for (int k = 0; k < 2; k++) {
        copy(&a, &pool.sheet);
        copy(&b, &pool.values);
        copy(&c, &pool.random);
        wild(random64() % 2 ? &b : &c);
        if (random_below(4) == 0)
            wild(&a);
        call_make(&a, wild32(pool.servers), id, &b, &c, wild_room(room), &out);
    }
    past_value(id, room);
    must(call_make(&pool.sheet, pool.servers, id, &pool.values, &pool.random, room, &pool.shares), "making");
    if (pool.shares.len != room)
        fail("the length of the shares");
    if (pool.seeds.len > 0)
        make_seeded(id);
    if (random_below(4) == 0)
        shelve(pool.servers, pool.sizes.share_bytes, &pool.shares);
}
